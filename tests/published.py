#!/usr/bin/env python3
"""Holds the contract of every published call to the definition that docs/CALLS.md and a promise name.

usage: published.py [ROOT]     ROOT is the repository's folder

Published are the calls of the tables below "Calls from C", "Calls from Rattle" and "Calls on Handover payloads" in docs/CALLS.md. What is
held of each:

    requires    It has none: "no call relies on a check made before it" (demand 1).
    ensures     It has one, an equation of all that it answers and writes with a term E: `result ≡ E`; `(result, P.new) ≡ E` where P is
                lent to write. Where it hands back a slice it is `DHandedBack result buf.entry ..`, of the other parameters in their order, and
                the equation of that definition has E: `PartOf lent s (E)`, or `LineOrBoard lent s board (E)`.
    E           It is the term that demand 2 runs the call by, and each name in it is the same definition. The promises use this definition:
                of a call whose contract was weakened, or cites another one, they would say nothing.
    its row     The first name in the last cell is that definition, without what crosses it toward C, or `DHandedBack`.

Demand 2 runs a call that writes by the equation of `run_write` (crates/demand_2/specs/Calls.antt) for the case of `Write` whose comment names
it, a question by that of `reply_of` for the case of `Question`, and a call toward C by that of `run_write_from_c` or `reply_from_c` (CallsFromC.antt)
for the case of `WriteFromC` or `QuestionFromC` with its name. `run` and `run_from_c` are these, and leave the buffer of a question as it is.
Every case stands for published calls, and one case for every published call but `Cursor::first`, which takes no buffer.

The calls of the table "Calls on Handover payloads" do not join demand 2, which speaks of contexts. Of each, E is one definition of all its
parameters in their order, or the contract is a `DHandedBack` as above; the definition is one that PROMISES_ON_PAYLOADS speak of, and the
first that its row names.

Every exported function of crate ultra is published, and so is every public function of a crate that a published call's path names, but for
those of INNER.
Exit status 1, with a line for each problem.
"""
import collections
import pathlib
import re
import sys

PAGE = "docs/CALLS.md"
CALLS, CALLS_FROM_C = "crates/demand_2/specs/Calls.antt", "crates/demand_2/specs/CallsFromC.antt"
ADDITIONS = "crates/ultra_format/specs/Additions.antt"
# The call that no case stands for: its term, and where the names in it come from.
WITHOUT_BUFFER = {"Cursor::first": ("cursor_at 0 8", {"cursor_at": "Rattle.ultra_stepping.specs.Stepping.cursor_at"})}
# Where the promises on payloads are stated.
PROMISES_ON_PAYLOADS = ("crates/handover_demand_3/specs/PayloadDemand3.antt", "crates/handover_written/specs/WritesBack.antt",
                        "crates/handover_exported/specs/Exports.antt")
EQUALITY = "Rattle.std.specs.Prelude.◌≡◌"
# What a slice that is handed back is held by, and what tells the same by values in demand 2: of the buffer, what else is lent, and a term.
SLICES = {"PartOf": "lent_part", "LineOrBoard": "lent_line"}
SLICE_ORIGINS = {"PartOf": "Rattle.lent_buffers.specs.LentParts.PartOf",
                 "LineOrBoard": "Rattle.ultra_questions.specs.CommandLineQuestion.LineOrBoard"}
# What they say: the memory, and not the bytes alone.
SLICE_TEXTS = {
    "crates/lent_buffers/specs/LentParts.antt": {
        "PartOf": ["""pub record PartOf (r s : Bor (List ℕ)) (p : Part) : Type 0 where
  pub block : r.ref_ptr.0 ≡ s.ref_ptr.0
  pub offset : r.ref_ptr.1 ≡ p.start + s.ref_ptr.1
  pub within : p.start + p.length ≤ length s.now
  pub has : r.now ≡ bytes_at s.now p.start p.length"""],
        "WholeOf": ["WholeOf r s = (r.ref_ptr ≡ s.ref_ptr) × (r.now ≡ s.now)"]},
    "crates/ultra_questions/specs/CommandLineQuestion.antt": {
        "LineOrBoard": ["LineOrBoard lent s board none = WholeOf lent board",
                        "LineOrBoard lent s board (found o a) = PartOf lent s (body_part o a.body)"]},
}
# Public functions, of crates that publish calls, that only this repository calls.
INNER = {"ultra_reading::next_place_check", "ultra_reading::used_length", "handover_writing::head", "handover_writing::row", "handover_writing::string"}
# What stands around the definition that the page names.
AROUND = {"answer_crossed", "step_crossed", "reading_crossed", "part_crossed", "crossed", "length"}
# What the cases of each kind are run by.
WRITERS = {"Write": "run_write", "WriteFromC": "run_write_from_c"}
ASKERS = {"Question": "reply_of", "QuestionFromC": "reply_from_c"}
# What they make of a term: both halves of its pair, or the place and the bytes of a part.
WRITES = {"answer_and r": "(answer r.0, r.1)", "several_and r": "(several r.0, r.1)", "number_and r": "(number r.0, r.1)"}
LENDS = {"lent_part b p": "lent p (bytes_at b p.start p.length)",
         "lent_line b board none": "board_text board", "lent_line b board (found o a)": "lent_part b (body_part o a.body)"}
# What a call is made of.
KINDS = {"run (write w) b": "run_write w b", "run (ask q) b": "(reply_of q b, b)",
         "run_from_c (write_from_c w) b": "run_write_from_c w b", "run_from_c (ask_from_c q) b": "(reply_from_c q b, b)"}

Call = collections.namedtuple("Call", "path file cell")
Function = collections.namedtuple("Function", "parameters borrowed lent clauses imports")
Spec = collections.namedtuple("Spec", "file text imports")
Case = collections.namedtuple("Case", "name type calls spec runner")
Held = collections.namedtuple("Held", "form term imports")


class Unreadable(Exception):
    """What is not of a form that is held; the message says what was found and what was expected."""


# ---- Terms: a name, or a tuple of terms. A field of a term is the pair of the term and `.field`. A parameter of the function is marked by « ». ----

NAME = r"[A-Za-z][A-Za-z0-9_']*"
TOKEN = re.compile(rf"(«\w+»|(?:[A-Z][A-Za-z0-9]*\.)*{NAME}|\d+|(?<=[\w')»])\.\w+|[(),≡])|(\S)")


def one(terms):
    return terms[0] if len(terms) == 1 else tuple(terms)


def parsed(text, where=""):
    """The term that a text spells. An operator other than ≡ is in none that is held."""
    open_terms = [[]]
    for token, other in TOKEN.findall(text):
        if other or (token == ")" and len(open_terms) == 1):
            raise Unreadable(f"{where}`{other or token}` in `{' '.join(text.split())}`, expected names and parentheses alone")
        if token == "(":
            open_terms.append([])
        elif token == ")":
            inner = open_terms.pop()
            open_terms[-1].append(one(inner))
        elif token[0] == "." and not open_terms[-1]:
            raise Unreadable(f"{where}`{token}` in `{' '.join(text.split())}`, expected what it is a field of")
        elif token[0] == ".":
            open_terms[-1].append((open_terms[-1].pop(), token))
        else:
            open_terms[-1].append(token)
    if len(open_terms) != 1:
        raise Unreadable(f"{where}parentheses that do not close in `{' '.join(text.split())}`")
    return one(open_terms[0])


def is_field(term):
    return isinstance(term, tuple) and len(term) == 2 and isinstance(term[1], str) and term[1].startswith(".")


def shown(term):
    if isinstance(term, str):
        return term.strip("«»")
    parts = [f"({shown(part)})" if isinstance(part, tuple) and not is_field(part) else shown(part) for part in term]
    return "".join(parts) if is_field(term) else " ".join(parts).replace(" ,", ",")


def divided(term, mark):
    """The terms between the marks."""
    groups = [[]]
    for part in term if isinstance(term, tuple) else (term,):
        if part == mark:
            groups.append([])
        else:
            groups[-1].append(part)
    return [one(group) for group in groups]


def substituted(term, values):
    return tuple(substituted(part, values) for part in term) if isinstance(term, tuple) else values.get(term, term)


def at_entry(term, function):
    """The term with X for what a reference X had when the call began: `X.old` where it is lent to write, else `X.now`."""
    if isinstance(term, str):
        return term
    if is_field(term) and term[0] in function.borrowed and term[1] == (".old" if term[0] in function.lent else ".now"):
        return term[0]
    return tuple(at_entry(part, function) for part in term)


def without_now(term):
    """The term with X for `X.now`."""
    if isinstance(term, str):
        return term
    return without_now(term[0]) if is_field(term) and term[1] == ".now" else tuple(without_now(part) for part in term)


def unqualified(term):
    """The term with the last part of each name: `add_map` for `Addition.add_map`."""
    if isinstance(term, tuple):
        return tuple(unqualified(part) for part in term)
    return term if term.startswith(".") else term.split(".")[-1]


def definitions(term):
    """The names in a term that are no parameters, in their order."""
    if isinstance(term, tuple):
        return [name for part in term for name in definitions(part)]
    return [term] if term[:1].isalpha() else []


def headed(term):
    """The definition that a term is of, without what crosses it."""
    while isinstance(term, tuple) and len(term) == 2 and term[0] in AROUND:
        term = term[1]
    return headed(term[0]) if isinstance(term, tuple) and term else term


# ---- What more than one kind of file has ----


def read(file):
    return file.read_text(encoding="utf-8") if file.is_file() else ""


def imported(text):
    """The whole name of each name that `use M.{a, b as c, N.d}` brings."""
    brought = {}
    for module, items in re.findall(r"^(?:ghost )?use ([^\s{};]+)\.\{([^}]*)\}", text, re.M):
        for item in filter(None, map(str.strip, items.split(","))):
            whole, _, alias = item.partition(" as ")
            name = alias.strip() or whole.split(".")[-1]
            origin = f"{module}.{whole}"
            if brought.setdefault(name, origin) != origin:
                raise Unreadable(f"`{name}` is imported twice, as {brought[name]} and as {origin}")
    return brought


def whole_name(name, imports):
    first, *rest = name.split(".")
    if first not in imports:
        raise Unreadable(f"`{first}` comes from no `use`, expected one")
    return ".".join([imports[first], *rest])


def listed(text):
    """The calls in backticks, without arguments and result. Those after the first have its path."""
    calls = [re.sub(r"[(\s].*", "", item) for item in re.findall(r"`([^`]+)`", text)]
    path = calls[0].rpartition("::")[0] if calls else ""
    return [f"{path}::{call}" if path and "::" not in call else call for call in calls]


# ---- The page ----


def rows(page, title):
    """The cells of each row of the table below a heading."""
    section = page.partition(f"### {title}\n")[2].split("\n## ", 1)[0].split("\n### ", 1)[0]
    lines = [line for line in section.split("\n") if line.startswith("| `")]
    found = [[cell.strip() for cell in line.strip().strip("|").split(" | ")] for line in lines]
    if not found or min(map(len, found)) < 3:
        raise Unreadable(f"{PAGE}: no table below `{title}`, or a row of fewer than 3 cells")
    return found


def calls_from_rattle(page, root, title="Calls from Rattle"):
    file = root
    for names, source, *cells in rows(page, title):
        if source != "the same":
            crate, _, path = source.partition(", ")
            file = root / "crates" / crate / path
        yield from (Call(path, file, cells[-1]) for path in listed(names))


def calls_on_payloads(page, root):
    return calls_from_rattle(page, root, "Calls on Handover payloads")


def exported(root):
    """The file of each function that crate ultra exports."""
    files = sorted((root / "crates/ultra/src").glob("*.rt"))
    return {name: file for file in files for name in re.findall(r'^pub extern "C" fn (\w+)', read(file), re.M)}


def calls_from_c(page, root):
    files = exported(root)
    for names, *_, cell in rows(page, "Calls from C"):
        yield from (Call(name, files.get(name, root / "crates/ultra/src"), cell) for name in listed(names))


# ---- Functions ----


def inside(text, start, ends):
    """(what stands between the bracket at start and the one that closes it, where it goes on)"""
    depth = 0
    for at in range(start, len(text)):
        depth += (text[at] == ends[0]) - (text[at] == ends[1])
        if depth == 0:
            return text[start + 1:at], at + 1
    raise Unreadable(f"`{ends[0]}` that does not close")


def parameters_of(text):
    """(name, whether it is lent, whether to write) of each parameter."""
    for parameter in filter(None, re.split(r",\s*(?=\w+\s*:|$)", text.strip())):
        found = re.fullmatch(r"(?:mut )?(\w+): ((?:[^:]|::)+)|(self)", parameter)
        if not found:
            raise Unreadable(f"a parameter `{parameter}`, expected a name and a type, or self")
        kind = found[2] or ""
        yield found[1] or found[3], kind.startswith("&"), bool(re.match(r"&\s*(?:'\w+\s+)?mut\b", kind))


def after_result(text, at):
    """Where the heading goes on after the result's type, which may have blanks within brackets."""
    found = re.compile(r"\s*->\s*(?:&'\w+\s+)?").match(text, at)
    if not found:
        return at
    at, depth = found.end(), 0
    while at < len(text) and (depth or not text[at].isspace()):
        depth += (text[at] in "<([") - (text[at] in ">)]")
        at += 1
    return at


def clauses_of(text, at):
    """(kind, text) of each clause, after the parameters and the result, up to the body."""
    at = after_result(text, at)
    clauses = []
    while True:
        found = re.compile(r"\s*(\w*\*?)(?: +\w+)?\s*(?=\{)").match(text, at)
        if not found:
            raise Unreadable("a heading of another form than `fn name(..) -> type ensures { .. }`")
        if not found[1]:
            return clauses
        clause, at = inside(text, found.end(), "{}")
        clauses.append((found[1], clause))


def made_public(text):
    """What a lib.rt makes public, a line for each: `pub use a::b;` for each name of `pub use a::{b, c};`, and `pub mod a;`."""
    lines = re.findall(r"^pub mod \w+;", text, re.M)
    for path, name, names in re.findall(r"^pub use ((?:\w+::)+)(?:(\w+)|\{([^{}]*)\});", text, re.M):
        lines += [f"pub use {path}{item.strip()};" for item in (name or names).split(",") if item.strip()]
    return lines


def passed_on(call):
    """Whether the path's crate passes the function of that file on under the path: as its own, or as that of the file's crate."""
    *owners, name = call.path.split("::")
    crate, module = call.file.parents[1].name, call.file.stem
    if owners and owners[0][0].isupper():
        owners, name = [crate], owners[0]
    if owners and owners[0] != crate:
        face = made_public(read(call.file.parents[2] / owners[0] / "src/lib.rt"))
        if f"pub use {crate}::{[*owners, name][1]};" not in face:
            return False
        owners[0] = crate
    if not owners or (owners, module) == ([crate], "lib"):
        return True
    line = {(crate,): f"pub use {module}::{name};", (crate, module): f"pub mod {module};"}.get(tuple(owners))
    return line in made_public(read(call.file.with_name("lib.rt")))


def function_of(call):
    name = call.path.split("::")[-1]
    source = read(call.file)
    found = [line for line in re.finditer(rf"^.*\bfn {name}\b(?:<'\w+>)?", source, re.M) if not line[0].lstrip().startswith("//")]
    if len(found) != 1:
        raise Unreadable(f"found {len(found)} times, expected once")
    if not re.fullmatch(r"\s*pub (?:extern \"C\" )?fn \w+(?:<'\w+>)?", found[0][0]) or source[found[0].end():][:1] != "(" or "/*" in source:
        raise Unreadable(f"`{found[0][0].strip()}`, expected `pub fn {name}(..)` in a file without block comments")
    if not passed_on(call):
        raise Unreadable("lib.rt does not pass it on under this path, expected a `pub use` or `pub mod`")
    inner, at = inside(source, found[0].end(), "()")
    parameters = list(parameters_of(inner))
    borrowed = {parameter for parameter, is_lent, _ in parameters if is_lent}
    lent = [parameter for parameter, _, to_write in parameters if to_write]
    return Function([parameter for parameter, _, _ in parameters], borrowed, lent, clauses_of(source, at), imported(source))


def stated(function):
    """What the one clause says, as a term."""
    kinds = [kind for kind, _ in function.clauses]
    if kinds != ["ensures"]:
        raise Unreadable(f"has {', '.join(f'`{kind}`' for kind in kinds) or 'no clause'}, expected one `ensures` and no `requires`")
    if len(function.lent) > 1 or "result" in function.parameters:
        raise Unreadable(f"parameters {', '.join(function.parameters)}, expected one `&mut` at most, and none named result")
    return parsed(function.clauses[0][1])


def left_side(function):
    """All that the call answers and writes."""
    return f"(result, {function.lent[0]}.new)" if function.lent else "result"


def contract(function):
    """What the contract equates the call with."""
    said, left = stated(function), left_side(function)
    sides = divided(said, "≡")
    if len(sides) != 2 or sides[0] != parsed(left):
        raise Unreadable(f"ensures `{shown(said)}`, expected `{left} ≡ ..`")
    if whole_name("◌≡◌", function.imports) != EQUALITY:
        raise Unreadable(f"≡ is {whole_name('◌≡◌', function.imports)}, expected {EQUALITY}")
    marked = {parameter: f"«{parameter}»" for parameter in function.parameters}
    form = "writes" if function.lent == ["buf"] else "reads"
    return Held(form, substituted(at_entry(sides[1], function), marked), function.imports)


def handed_back(function):
    """The contract of a call that hands a slice back, or None: (what it says, what it has to say of all parameters in their order)."""
    said = stated(function)
    if not (isinstance(said, tuple) and isinstance(said[0], str) and said[0].endswith("HandedBack")):
        return None
    given = ((name, ".entry") if name in function.borrowed else name for name in function.parameters)
    return Held("slice", said, function.imports), (said[0], "result", *given)


def unlike(found, expected):
    return [] if found.term == expected else [f"contract has `{shown(found.term)}`, expected `{shown(expected)}`"]


def slice_of(function, handed, root):
    """What the equation of `DHandedBack` holds the slice by, at the function's parameters."""
    name = handed.term[0]
    spec = defining(whole_name(name, handed.imports), root)
    found = list(equations(spec, name))
    left, right = (found[0][0], parsed(found[0][1], f"{spec.file}: ")) if len(found) == 1 else ((), ())
    relation = right[0] if right else None
    if relation not in SLICES or right[1:3] != left[1:3] or len(left) != len(handed.term):
        raise Unreadable(f"{spec.file}: `{name}`, expected one equation, {' or '.join(f'`{slice} lent s .. (..)`' for slice in SLICES)}")
    if whole_name(relation, spec.imports) != SLICE_ORIGINS[relation]:
        raise Unreadable(f"{relation} is {whole_name(relation, spec.imports)}, expected {SLICE_ORIGINS[relation]}")
    values = dict(zip(left[2:], (f"«{parameter}»" for parameter in function.parameters)))
    return Held(relation, substituted(without_now(one(right[3:])), values), spec.imports)


# ---- Demand 2 ----


def spec_of(root, path):
    text = re.sub(r"(?s)\{-.*?-\}", "", read(root / path))
    return Spec(path, text, imported(text))


def defining(whole, root):
    """The file of specs that a definition is in, with its own definitions among the names that it knows."""
    found = re.fullmatch(r"(Rattle\.(\w+)\.specs\.(\w+))\.\w+", whole)
    if not found:
        raise Unreadable(f"{whole}, expected a definition of a crate's specs")
    spec = spec_of(root, f"crates/{found[2]}/specs/{found[3]}.antt")
    own = re.findall(r"^(?:abbrev |unfoldable )?pub (?:record |data )?([A-Za-z]\w*) ", spec.text, re.M)
    return spec._replace(imports={**spec.imports, **{name: f"{found[1]}.{name}" for name in own}})


def cases(spec, data, runner=None):
    """Each case of a data type, with the calls that the comment before it names."""
    found = re.search(rf"^pub data {data} : .* where\n((?:(?:[ \t].*)?\n)*)", spec.text + "\n", re.M)
    comment, taken = "", []
    for line in filter(str.strip, found[1].split("\n") if found else []):
        case = re.fullmatch(r"  ([A-Za-z]\w*) : (.*)", line)
        if line.strip().startswith("--"):
            comment += line
        elif not case:
            raise Unreadable(f"{spec.file}: `{line.strip()}` in data {data}, expected a case")
        else:
            taken.append(Case(case[1], case[2], listed(comment), spec, runner))
            comment = ""
    if not taken:
        raise Unreadable(f"{spec.file}: no cases of data {data}")
    return taken


def equations(spec, name):
    """(left side, text of the right side) of each equation of a definition."""
    text = re.sub(r"(?m)(^|\s)--.*", r"\1", spec.text)
    for equation in re.findall(rf"^{name} .*(?:\n[ \t]+.*)*", text, re.M):
        left, *right = re.split(r"\s=\s", equation, maxsplit=1)
        if not right:
            raise Unreadable(f"{spec.file}: `{equation}`, expected an equation")
        yield parsed(left, f"{spec.file}: "), right[0]


def pattern(left):
    """(constructor, variables) of an equation's first argument."""
    return (left[1][0], left[1][1:]) if isinstance(left[1], tuple) else (left[1], ())


def unfolded(term, spec):
    """The term without `members_formed` and `members_body`, by their equations."""
    if isinstance(term, str):
        return term
    term = tuple(unfolded(part, spec) for part in term)
    if term[:1] not in (("members_formed",), ("members_body",)):
        return term
    for left, right in equations(spec, term[0]):
        constructor, variables = pattern(left)
        if (constructor, len(variables)) == (term[1][0], len(term[1]) - 1):
            return substituted(parsed(right, f"`{term[0]}`, {spec.file}: "), dict(zip(variables, term[1][1:])))
    raise Unreadable(f"no equation of `{term[0]}` for `{shown(term[1])}`, {spec.file}")


def place_of(case):
    return f"`{case.runner}` of `{case.name}`, {case.spec.file}: "


def equation_of(case):
    """(variables, buffer, right side) of the equation that runs a case."""
    found = [sides for sides in equations(case.spec, case.runner) if pattern(sides[0])[0] == case.name]
    if len(found) != 1 or len(found[0][0]) != 3:
        raise Unreadable(f"{place_of(case)}{len(found)} equations, expected one, of a call and a buffer")
    left, right = found[0]
    return pattern(left)[1], left[2], parsed(right, place_of(case))


def run_by(case, buffer, right, replies):
    """(form, term) of the right side that runs a case."""
    if case.runner in WRITERS.values():
        if len(right) == 2 and f"{right[0]} r" in WRITES:
            return "writes", right[1]
        raise Unreadable(f"{place_of(case)}`{shown(right)}`, expected `answer_and (..)`, `several_and (..)` or `number_and (..)`")
    for relation, tells in SLICES.items():
        if len(right) > 2 and right[:2] == (tells, buffer):
            return relation, one(right[2:])
    if len(right) == 2 and right[0] in replies:
        return "reads", right[1]
    ways = " or ".join(f"`{tells} {buffer} ..`" for tells in SLICES.values())
    raise Unreadable(f"{place_of(case)}the reply `{shown(right)}`, expected a case of Reply with one term, or {ways}")


def gathering(case, name):
    """The constructor that a function's parameters are gathered by where the case takes one thing, or None."""
    if case.type == "Addition → Write":
        return "Addition." + name
    if case.type == "Members → Write":
        return name.removeprefix("add_") + "_members"
    return None


def demanded(call, function, case, replies):
    """What demand 2 runs the call by, at the function's parameters."""
    variables, buffer, right = equation_of(case)
    form, term = run_by(case, buffer, right, replies)
    given = [f"«{name}»" for name in function.parameters if name != "buf"]
    if "buf" not in function.parameters:
        raise Unreadable(f"parameters {', '.join(function.parameters)}, expected buf")
    gathered = gathering(case, call.path.split("::")[-1])
    values = [(gathered, *given)] if gathered else given
    if len(values) != len(variables):
        raise Unreadable(f"{len(values)} parameters beside buf, expected {len(variables)} as in `{case.name}`, {case.spec.file}")
    put_in = substituted(term, {**dict(zip(variables, values)), buffer: "«buf»"})
    return Held(form, unfolded(put_in, case.spec), case.spec.imports)


# ---- What is held ----

FORMS = {"writes": "(result, buf.new) ≡ ..", "reads": "an equation that leaves buf as it is",
         **{relation: f"{relation} result buf.entry .. (..)" for relation in SLICES}}


def differences(found, wanted, named_by):
    """What tells a contract from what is wanted."""
    if found.form != wanted.form:
        return [f"contract of the form `{FORMS[found.form]}`, expected `{FORMS[wanted.form]}` ({named_by})"]
    if shown(unqualified(found.term)) != shown(unqualified(wanted.term)):
        return [f"contract has `{shown(unqualified(found.term))}`, expected `{shown(unqualified(wanted.term))}` ({named_by})"]
    if unqualified(found.term) != unqualified(wanted.term):
        return [f"contract has `{shown(found.term)}`, where a parameter hides a definition"]
    origins = zip((whole_name(name, found.imports) for name in definitions(found.term)),
                  (whole_name(name, wanted.imports) for name in definitions(wanted.term)))
    return [f"contract has {here}, expected {there} ({named_by})" for here, there in origins if here != there]


def row_differences(call, named_in):
    definition = shown(unqualified(headed(named_in.term)))
    named = re.findall(r"`([^`]+)`", call.cell)
    return [] if named[:1] == [definition] else [f"{PAGE} names `{(named or ['nothing'])[0]}` first, expected `{definition}`"]


def wanted_of(call, function, stands, replies):
    """(what the contract has to equate the call with, what says so), where `stands` are the cases that stand for the call."""
    if call.path in WITHOUT_BUFFER:
        term, imports = WITHOUT_BUFFER[call.path]
        return Held("reads", parsed(term), imports), "document 01"
    if len(stands) != 1:
        raise Unreadable(f"{len(stands)} cases of demand 2 name it, expected one")
    return demanded(call, function, stands[0], replies), f"{stands[0].runner}, {stands[0].spec.file}"


def call_problems(call, stands, replies, root):
    try:
        function = function_of(call)
        wanted, named_by = wanted_of(call, function, stands, replies)
        handed = handed_back(function)
        if handed is None:
            return row_differences(call, wanted) + differences(contract(function), wanted, named_by)
        found, expected = handed
        return row_differences(call, found) + (unlike(found, expected) or differences(slice_of(function, found, root), wanted, named_by))
    except Unreadable as problem:
        return [str(problem)]


def promised(root):
    """The whole name of each definition that a promise on payloads speaks of."""
    return {origin for path in PROMISES_ON_PAYLOADS for origin in spec_of(root, path).imports.values()}


def payload_problems(call, definitions_promised):
    try:
        function = function_of(call)
        handed = handed_back(function)
        found = handed[0] if handed else contract(function)
        definition = headed(found.term)
        expected = handed[1] if handed else (definition, *(f"«{name}»" for name in function.parameters))
        if unlike(found, expected):
            return unlike(found, expected)
        told = [] if whole_name(definition, found.imports) in definitions_promised else [f"no promise on payloads speaks of `{definition}`"]
        return row_differences(call, found) + told
    except Unreadable as problem:
        return [str(problem)]


def case_problems(stands, paths):
    """Cases that stand for no published call, and equations that are for no case."""
    for case in stands:
        missing = [path for path in case.calls if path not in paths]
        if missing or not case.calls:
            yield f"{case.spec.file}: case `{case.name}` stands for {', '.join(missing) or 'no call'}, expected calls that {PAGE} publishes"
    for runner, spec in {case.runner: case.spec for case in stands}.items():
        names = {case.name for case in stands if case.runner == runner}
        heads = [pattern(left)[0] for left, _ in equations(spec, runner)]
        yield from (f"{spec.file}: `{runner}` has an equation for `{head}`, expected a case" for head in heads if head not in names)


def handing_problems(*specs):
    """What hands a term's value on, where it is another definition than the one that is relied on."""
    expected = {}
    for left, right in {**WRITES, **LENDS, **KINDS}.items():
        expected.setdefault(left.split()[0], []).append(f"{left} = {right}")
    for name, wanted in expected.items():
        found = [f"{shown(left)} = {' '.join(right.split())}" for spec in specs for left, right in equations(spec, name)]
        if found != wanted:
            yield f"demand_2: `{'`, `'.join(found)}`, expected `{'`, `'.join(wanted)}`"


def slice_problems(root):
    """Relations that a slice is held by, where they say something else than is relied on."""
    for file, texts in SLICE_TEXTS.items():
        for name, wanted in texts.items():
            found = re.findall(rf"^pub record {name} .*(?:\n  .*)*|^{name} .*", read(root / file), re.M)
            if found != wanted:
                yield f"{file}: `{name}` is `{' / '.join(found)}`, expected `{' / '.join(wanted)}`"


def gathered_problems(stands, additions, members):
    """Constructors of what is added that no call gives."""
    given = {gathering(case, path.split("::")[-1]) for case in stands for path in case.calls}
    for case in additions + members:
        name = f"Addition.{case.name}" if case in additions else case.name
        if name not in given:
            yield f"{case.spec.file}: `{name}` stands for no call, expected one"


def public_functions(root, crate):
    """The path of each function, and of each module, that a crate makes public: its own, or one that it passes on."""
    face = read(root / "crates" / crate / "src/lib.rt")
    lines = made_public(face) + re.findall(r"^pub fn \w+(?=[(<])", face, re.M)
    return [f"{crate}::{name}" for line in lines for name in re.findall(r"\b([a-z]\w*);?$", line)]


def unpublished_problems(root, paths):
    """Public functions that no row publishes: demand 2, the driver and the comparison would not have them."""
    crates = sorted({path.split("::")[0] for path in paths if path[0].islower() and "::" in path})
    public = [path for crate in crates for path in public_functions(root, crate)]
    for path in public:
        if path not in INNER and not any(known == path or known.startswith(f"{path}::") for known in paths):
            yield f"{path}: public, expected in {PAGE}, or in INNER of published.py"
    yield from (f"{path}: in INNER of published.py, expected a public function" for path in sorted(INNER - set(public)) if path.split("::")[0] in crates)


def all_problems(root, calls, on_payloads):
    spec, spec_from_c = spec_of(root, CALLS), spec_of(root, CALLS_FROM_C)
    stands = []
    for data, runner in {**WRITERS, **ASKERS}.items():
        if data.endswith("FromC"):
            stands += [case._replace(calls=[case.name]) for case in cases(spec_from_c, data, runner)]
        else:
            stands += cases(spec, data, runner)
    replies = {case.name for case in cases(spec, "Reply")}
    for call in calls:
        for told in call_problems(call, [case for case in stands if call.path in case.calls], replies, root):
            yield f"{call.path}, {call.file.relative_to(root)}: {told}"
    of_promises = promised(root)
    for call in on_payloads:
        yield from (f"{call.path}, {call.file.relative_to(root)}: {told}" for told in payload_problems(call, of_promises))
    paths = [call.path for call in [*calls, *on_payloads]]
    yield from (f"{path}: in {PAGE} {paths.count(path)} times, expected once" for path in sorted(set(paths)) if paths.count(path) > 1)
    yield from case_problems(stands, paths)
    yield from handing_problems(spec, spec_from_c)
    yield from slice_problems(root)
    yield from gathered_problems(stands, cases(spec_of(root, ADDITIONS), "Addition"), cases(spec, "Members"))
    yield from (f"{name}, {file.relative_to(root)}: exported, expected in {PAGE}" for name, file in exported(root).items() if name not in paths)
    yield from unpublished_problems(root, paths)


def published(root):
    """(the calls on contexts, the calls on payloads)"""
    page = read(root / PAGE)
    return [*calls_from_c(page, root), *calls_from_rattle(page, root)], [*calls_on_payloads(page, root)]


def problems(root):
    """A line for each problem."""
    found = []
    try:
        for problem in all_problems(root, *published(root)):
            found.append(problem)
    except Unreadable as problem:
        found.append(str(problem))
    return found


def main(arguments):
    root = pathlib.Path(arguments[0] if arguments else ".")
    found = problems(root)
    print("\n".join(found) or f"published: {sum(map(len, published(root)))} calls, each an equation with the definition that {PAGE} and a promise name")
    return 1 if found else 0


if __name__ == "__main__":
    sys.exit(main(sys.argv[1:]))
