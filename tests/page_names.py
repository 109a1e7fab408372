#!/usr/bin/env python3
"""Holds the names on the pages: that what they name is there, and where they say.

usage: page_names.py [ROOT]     ROOT is the repository's folder

On README.md, docs/*.md and the README.md of tests, samples and crates; not on docs/CHANGES.md, docs/PORT.md, docs/DESIGN-PASS.md and docs/LOOK-BACK.md, which name what is gone too:
    targets       `make X`, in backticks or as a line of a block, names a target, and so does every backtick in a column "Test".
    names         A word in backticks, and any word with an underscore, is a name that some file gives: a crate, a function, a definition,
                  a theorem, a target, a sample. `cases_*` stands for names that begin so.
    files         A file is the end of a path in the repository; what is in target/ is not looked at.
    refusals      A number with a word in capitals, as 12 FORM, is one of crates/refusals; the table of docs/CALLS.md has all, in order, and
                  says when each is given in the words that specs/Refusals.antt there quotes first, where it quotes the whole. Those of
                  include/ultra.h are the first of them.
On docs/PROMISES.md:
    statements    What a row or a sentence says is stated in a file of specs/ is there, and its proof in proofs/: the form is told under
                  "Names" on that page.
On README.md:
    listing       Its excerpt and its number of lines are those of samples/listing.txt.
    trail         Each name of its last table is in each file of its row.

Exit status 1, with a line for each problem.
"""
import pathlib
import re
import sys

import short_names
from readme import FENCE, README, found, prose, read

PAGES = (README, "docs/*.md", "tests/README.md", "samples/README.md", "crates/*/README.md")
HISTORY = ("docs/CHANGES.md", "docs/PORT.md", "docs/DESIGN-PASS.md", "docs/LOOK-BACK.md")
PROMISES, CALLS, HEADER, LISTING = "docs/PROMISES.md", "docs/CALLS.md", "include/ultra.h", "samples/listing.txt"
QUOTES, NUMBERS = "crates/refusals/specs/Refusals.antt", "crates/refusals/src/lib.rt"
# Words in backticks that no file here gives: of the languages, of tools, of the listing, of an example's contract.
FOREIGN = set("requires ensures pub const type rt Result Option strlen black_box GLIBC_TUNABLES ultra-list cmdline half r result len".split())
# What stands for any name, in a path.
ANY = re.compile(r"\b(?:NAME|LABEL|FUNCTION)")
FILE = re.compile(r"(?<![\w.-])(?:[\w-]+/)*[\w-]+\.(?:antt|rt|rs|py|mk|sh|c|h|md|bin|txt|edit)\b")
UNDERSCORED = re.compile(r"(?<!\w)([a-z][a-z0-9]*(?:_[a-z0-9]+)*)_(?:([a-z0-9]+)(?!\w|_?\*)|\*)")


# ---- What is on a page ----


def paragraphs(text):
    """A page in parts that hold whole backticks, each as one line: its paragraphs, and the rows of its tables."""
    return [" ".join(part.split()) for part in re.split(r"\n\s*\n|\n(?=\|)", prose(text))]


def ticked(text):
    return re.findall(r"`([^`]+)`", text)


def spans(text):
    return [span for paragraph in paragraphs(text) for span in ticked(paragraph)]


def shown(text):
    """A page without its blocks of code, which readme.py holds, and without what is made."""
    return re.sub(r"\btarget/\S+", "", FENCE.sub(lambda block: "" if block[1].strip() else block[0], text))


def tables(text):
    """The rows of all tables, each as its cells by the heads of their columns."""
    head = None
    for line in prose(text).splitlines():
        cells = [cell.strip() for cell in line.strip("|").split("|")] if line.startswith("|") else None
        if cells and head and set(line) - set("|-: "):
            yield dict(zip(head, cells))
        head = (head or cells) if cells else None


# ---- Targets ----


def targets(root):
    """The targets of the Makefile and of what it includes."""
    fragments = re.findall(r"^include (\S+)", read(root / "Makefile"), re.M)
    return {name for path in ("Makefile", *fragments) for name, _ in short_names.names_in(path, read(root / path).splitlines())}


def made(text):
    """The targets that the commands of a page name."""
    blocks = "".join(code for language, code in FENCE.findall(text) if not language.strip())
    commands = [*spans(text), *blocks.splitlines(), *re.findall(r"^ {4}(make .*)", prose(text), re.M)]
    words = [word for command in commands if command.startswith("make ") for word in command.partition("#")[0].split()[1:]]
    return [word for word in words if "=" not in word and not word.startswith("-")]


def target_problems(text, known):
    tests = [name for row in tables(text) for name in ticked(row.get("Test", ""))]
    return [f"`{name}` is no target" for name in [*made(text), *tests] if name not in known]


# ---- Names and files ----


def given(names):
    """Every name that a file gives: what it is called, with and without its ending, what it defines, and its folders."""
    known = {folder.rpartition("/")[2] for folder in names.folders}
    for path in names.paths:
        known |= {path.rpartition("/")[2], path.rpartition("/")[2].partition(".")[0]}
        if path.endswith((".antt", ".rt", ".rs", ".c", ".h", ".py", ".mk", "Makefile")):
            known |= {part for name, _ in short_names.names_in(path, names.lines(path)) for part in name.split(".")}
    return known


def named(text):
    """The names on a page; one that ends in _ stands for those that begin so."""
    alone = [span for span in spans(text) if re.fullmatch(r"[A-Za-z][\w-]*", span)]
    return [*alone, *(f"{first}_{last}" for first, last in UNDERSCORED.findall(shown(text)))]


def name_problems(text, known):
    for name in dict.fromkeys(named(text)):
        if not (any(other.startswith(name) for other in known) if name.endswith("_") else name in known | FOREIGN):
            yield f"`{name}` is no name that a file gives"


def file_problems(text, names):
    for path in dict.fromkeys(FILE.findall(shown(text))):
        if not ANY.search(path) and not names.files(path):
            yield f"{path}: no such file"


# ---- Refusals ----


def refusals(root):
    """(number, name) of each refusal."""
    return [(number, name) for name, number in re.findall(r"^pub const ([A-Z]+): u16 = (\d+);", read(root / NUMBERS), re.M)]


def header_refusals(root):
    """(number, name) of each refusal of the header."""
    return [(number, name) for name, number in re.findall(r"^#define ULTRA_([A-Z]+) +(\d+)", read(root / HEADER), re.M) if number != "0"]


def refusal_problems(text, known):
    return [f"{number} {name} is no refusal of {NUMBERS}" for number, name in re.findall(r"\b(\d+) ([A-Z]{4,})\b", prose(text))
            if (number, name) not in known]


def refusal_table_problems(root):
    rows = [tuple(row["No."].split()) for row in tables(read(root / CALLS)) if "No." in row]
    if rows != refusals(root) or not rows:
        yield f"{CALLS}: the table of refusals is not that of {NUMBERS}"
    of_header = header_refusals(root)
    if of_header != refusals(root)[: len(of_header)] or not of_header:
        yield f"{HEADER}: its refusals are not the first of {NUMBERS}"


def wording_problems(root):
    quoted = {name: quote for quote, name in re.findall(r'^-- "([^"]*)"(?:; .*)?\nabbrev pub ([A-Z]+) : ', read(root / QUOTES), re.M)}
    for row in tables(read(root / CALLS)):
        name = row.get("No.", " ").split()[-1:]
        wanted = quoted.get(name[0]) if name else None
        if wanted and row.get("Given when") != wanted:
            yield f"{CALLS}: {name[0]} is given when `{row.get('Given when')}`, expected `{wanted}` ({QUOTES})"


# ---- Statements ----

PLACE = r"(?P<crate>[a-z]\w*) (?P<folder>proofs/)?(?P<file>[A-Z]\w*)"
STATED = re.compile(rf"(?:(?P<names>`[^()]*`), )?(?:{PLACE}|the same)(?: \([a-z]\))?(?:, proved as (?P<proof>`[^`]*`))?")
PROVED = re.compile(r"(?P<names>`[^`]*`(?:, `[^`]*`)*)(?:, (?:(?P<crate>[a-z]\w*) )?(?P<file>[A-Z]\w*))?")
SENTENCE = re.compile(rf"(?P<names>`\w+`) \({PLACE}\)(?:, proved(?: from the demand)? as (?P<proof>`[^`]*`))?")
FIELD = re.compile(r"Field of `(\w+)`")


def in_snake_case(name):
    """How the proof of a statement is named, if nothing else is said."""
    return re.sub(r"(?<=[a-z])(?=[A-Z0-9])", "_", name).lower()


def statements(text):
    """The names that are stated: a name, or owner.name of "`name` of `Owner`"."""
    fields, of, owner = (text or "").partition(" of ")
    return [f"{ticked(owner)[0]}.{name}" for name in ticked(fields)] if of else ticked(fields)


def absent(root, place, wanted):
    """A problem for each name that the file of a place, (crate, folder, file), does not give; `x_..` begins with x_."""
    path = "crates/{}/{}/{}.antt".format(*place)
    there = [name for name, _ in short_names.antt_names(read(root / path).splitlines())]
    if not (root / path).is_file():
        yield f"{path}: no such file"
    for name in wanted:
        if not (any(other.startswith(name[:-2]) for other in there) if name.endswith("..") else name in there):
            yield f"`{name}` is not in {path}"


def proof_problems(root, place, names, said, cell):
    """Where a statement is proved: as the column "Proved" has it, as is said beside it, or by its name in the file of the same name."""
    crate, _, file = place
    form = PROVED.fullmatch(cell or "")
    if form:
        return absent(root, (form["crate"] or crate, "proofs", form["file"] or file), ticked(form["names"]))
    if cell is not None:
        return [f"`{cell}` does not say where it is proved"] if cell.startswith("`") else []
    if said:
        return absent(root, (crate, "proofs", file), ticked(said))
    # Where a definition has the name, the proof has the ending _law.
    by_name = {in_snake_case(name.partition(".")[0]) for name in names}
    return absent(root, (crate, "proofs", file), [name for name in by_name if [*absent(root, (crate, "proofs", file), [f"{name}_law"])]])


def row_problems(root, cell, row, before):
    """The problems of a cell "Stated", and its place; `before` is the place of the row above."""
    form = STATED.fullmatch(cell)
    if not form or not (form["file"] or before):
        told = [f"`{name}` stands in no file: {cell}" for name in ticked(cell) if name not in FOREIGN]
        return told, before
    place = (form["crate"], (form["folder"] or "specs").rstrip("/"), form["file"]) if form["file"] else before
    names = statements(form["names"])
    return [*absent(root, place, names), *proof_problems(root, place, names, form["proof"], row.get("Proved"))], place


def statement_problems(root):
    """The rows that state something, the fields of a record, and the sentences."""
    text, place, records = read(root / PROMISES), None, {}
    for form in SENTENCE.finditer(" ".join(prose(text).split())):
        records[form["names"].strip("`")] = at = (form["crate"], "specs", form["file"])
        yield from absent(root, at, ticked(form["names"]))
        yield from absent(root, (at[0], "proofs", at[2]), ticked(form["proof"])) if form["proof"] else ()
    yield from (f"{place} names no crate" for place in re.findall(r"`\w+`\s\([A-Z]\w*\)", prose(text)))
    for row in tables(text):
        for head, cell in row.items():
            owner = FIELD.fullmatch(head)
            if owner and owner[1] in records:
                yield from absent(root, records[owner[1]], [f"{owner[1]}.{name}" for name in ticked(cell)])
            elif owner:
                yield f"`{owner[1]}` stands in no file"
        if "Stated" in row:
            told, place = row_problems(root, row["Stated"], row, place)
            yield from told
    if place is None:
        yield "no row says where a promise is stated"


# ---- README.md ----


def listing_problems(root):
    lines = read(root / LISTING).splitlines()
    excerpts = [code.splitlines() for language, code in FENCE.findall(read(root / README)) if not language.strip() and "\n..\n" in code]
    for excerpt in excerpts:
        at = excerpt.index("..")
        if lines[:at] != excerpt[:at] or lines[at + 1 - len(excerpt):] != excerpt[at + 1:]:
            yield f"the excerpt is not of {LISTING}"
    if len(excerpts) != 1 or f"with {len(lines)} lines:" not in read(root / README):
        yield f"expected one excerpt of {LISTING} with \"..\", and \"with {len(lines)} lines:\" before it"


def in_folder(cell):
    """The files of "a/b.rt, c.rt": the later ones are in the folder of the first."""
    first, *later = [f"crates/{path}" for path in cell.split(", ")]
    return [first, *(f"{first.rpartition('/')[0]}/{path.removeprefix('crates/')}" for path in later)]


def trail_problem(root, path, name):
    """What is wrong with a name in a file, or in a folder of wrong programs; or None."""
    if (root / path).is_dir():
        return None if (root / path / f"{name}.edit").is_file() else f"{path}/{name}.edit: no such file"
    if not (root / path).is_file():
        return f"{path}: no such file"
    return None if short_names.line_of(path, read(root / path), name) else f"`{name}` is not in {path}"


def trail_problems(root):
    rows = [row for row in tables(read(root / README)) if "In crates/" in row]
    for row in rows:
        names, paths = row["Name"].split("; "), row["In crates/"].split("; ")
        if len(names) != len(paths) or not all(map(ticked, names)):
            yield f"not as many names as files: {row['Name']}"
        told = [trail_problem(root, path, name) for group, cell in zip(names, paths) for path in in_folder(cell) for name in ticked(group)]
        yield from filter(None, told)
    if not rows:
        yield "no table with the column \"In crates/\""


def pages_of(root):
    return [page for page in found(root, PAGES) if page not in [root / path for path in HISTORY]]


def problems(root):
    """A line for each problem."""
    names, made_here, refused = short_names.Names(root), targets(root), refusals(root)
    known = given(names)
    for page in pages_of(root):
        text = read(page)
        told = [f"a backtick that is not closed: {part}" for part in paragraphs(text) if part.count("`") % 2]
        told += [*target_problems(text, made_here), *name_problems(text, known)]
        told += [*file_problems(text, names), *refusal_problems(text, refused)]
        yield from (f"{page.relative_to(root)}: {problem}" for problem in told)
    yield from refusal_table_problems(root)
    yield from wording_problems(root)
    yield from (f"{PROMISES}: {problem}" for problem in statement_problems(root))
    yield from (f"{README}: {problem}" for problem in [*listing_problems(root), *trail_problems(root)])


def main(arguments):
    root = pathlib.Path(arguments[0] if arguments else ".")
    told = list(problems(root))
    counted = sum(len(set(named(read(page)))) for page in pages_of(root))
    print("\n".join(told) or f"page names: {len(pages_of(root))} pages, {counted} names")
    return 1 if told else 0


if __name__ == "__main__":
    sys.exit(main(sys.argv[1:]))
