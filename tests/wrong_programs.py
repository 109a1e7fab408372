#!/usr/bin/env python3
"""Writes docs/WRONG_PROGRAMS.md from the edits in crates/*/must-fail, or checks that the page and the edits are sound.

usage: wrong_programs.py [--write]

An edit is a file crates/NAME/must-fail/LABEL.edit:

    wrong: what somebody could write by mistake, in plain words
    of: the group of SECTIONS below that it belongs to
    file: src/lib.rt
    old: ..
    new: ..

One `file:` holds for the pairs of `old:` and `new:` after it, and the pairs are replaced one after the other. Any other line is a
comment. What no edit tries is in docs/wrong_programs_untried.txt.

Exit 1, with a line for each problem: an edit without its one `wrong:` and one `of:` at its head; an `of:` that is no group; a group
without a row; two edits of a crate that say the same; an `old:` without a `new:`, or one that is not in its file exactly once; an edit
that changes nothing; a row that is too long; or a page that is not what would be written. Where an edit has a problem, nothing is
written.
"""

import collections
import difflib
import glob
import os
import re
import sys

PAGE = "docs/WRONG_PROGRAMS.md"
UNTRIED = "docs/wrong_programs_untried.txt"
WIDEST_TEXT = 110
WIDEST_ROW = 160
PART = re.compile(r"(src|specs|proofs)/")

Edit = collections.namedtuple("Edit", "crate label wrong of steps")

INTRODUCTION = """\
# Wrong programs that the contracts rule out

A contract that many wrong programs meet proves little. So wrong programs are tried: each is an edit of a crate, one file an edit in
`crates/NAME/must-fail/LABEL.edit`, and the prover has to refuse the crate with that edit. `make test` tries all of them and fails where one
is not refused; `rt must-fail NAME` tries those of one crate.

- A label without `spec_` is a wrong program: the edit changes the code and leaves the contract.
- A label `spec_..` is a wrong definition or statement: the edit leaves the program. That it is refused shows that the proof rests on that
  word.
- A row without a label is ruled out by the contract or the statement, and no edit tries it.
- A refusal has its number in the table of docs/CALLS.md, 1 to 23: "refused as 11", "17 comes after 9 to 16".
- `rt must-fail NAME` prints what the prover says of each edit.

Each row says what is wrong, in the words of the edit's own line `wrong:`. A row in bold names what rules out those below it. This page is
written by `make wrong-programs`; `make test-wrong-programs` fails where it is not what the edits say.
"""

SECTIONS = [
    (
        "The calls",
        "",
        [
            "`read`",
            "`Cursor::step`",
            "`attribute`, `attribute_start`",
            "`attribute_part`, `command_line`",
            "`copy_map`, `copy_map_bytes`",
            "`module_holding`",
            "`begin`",
            "all six adds",
            "`add_platform`",
            "`add_kernel`",
            "`add_map`",
            "`add_module`",
            "`add_command_line`",
            "`add_framebuffer`",
            "the texts given to an add",
            "`add_modules`",
            "the calls from C",
        ],
    ),
    (
        "What the calls rest on",
        "",
        [
            "the rules on members, read or given",
            "the offsets of members",
            "the search for a type",
            "numbers, bytes and texts in fields",
            "a refusal",
        ],
    ),
    (
        "The statements and the definitions",
        "Where each is stated: PROMISES.md, \"Where each promise is stated and proved\".",
        [
            "what reading accepts",
            "what reading refuses",
            "what a step answers",
            "bytes that reading does not look at",
            "what adding refuses",
            "several modules, one by one",
            "what the questions answer",
            "layouts and records",
            "the rules on a list",
            "answers toward C",
        ],
    ),
    (
        "Handover payloads",
        "Request R-2. The format is crates/handover_format/specs; `PayloadDemand3` is in crates/handover_demand_3/specs.",
        [
            "`handover_reading::read`",
            "`agent`, `record_at`",
            "`agent_name`, `record_name`, `record_meta`",
            "`write`",
            "the format of a payload",
            "what reading a payload refuses",
            "demand 3 over payloads",
            "what is written reads back",
            "`export`",
            "a context exported to a payload",
        ],
    ),
    (
        "What calls that change a context will rest on",
        "No call edits a context yet. Crate byte_moves, the statements of crate ultra_edits, and byte_layout's of fields at places of\n"
        "their own are ready for them.",
        [
            "bytes moved within a buffer",
            "a splice and the count",
            "an edit of a held context",
            "fields at places of their own",
        ],
    ),
    (
        "Demand 2",
        "`Demand2` is in crates/demand_2/specs/Demand2.antt, its witness in specs/Witness.antt.",
        [
            "`Demand2.begins`, `Demand2.begins_not`",
            "`Demand2.follows`",
            "`Demand2.answers`, `Demand2.steps`",
            "`Demand2.members`",
            "`Demand2.refusals`",
            "`Demand2.stays`, `Demand2.appends_modules`",
            "`Demand2.appends`",
            "`Demand2.reads_back`",
            "`Demand2.rebuilds`",
            "the premises and the witness of demand 2",
        ],
    ),
    (
        "Demand 3",
        "`Demand3` is in crates/demand_3/specs/Demand3.antt.",
        [
            "`Demand3.accepts`",
            "`Demand3.one_length`",
            "`Demand3.reads`",
            "`Demand3.silent`",
            "`Demand3.faithful`",
        ],
    ),
    (
        "The listing",
        "",
        [
            "`list`, `listing_length`",
            "an attribute's lines",
            "a line, its numbers and its text",
            "what a listing is",
            "`ListingFits`, `ReadsBack`",
        ],
    ),
    (
        "The programs",
        "Most of their contracts rule out only what is undefined. What the programs of cases print is held by files written by hand, and what\n"
        "the driver answers by the comparison. The contract of cases_adds says what the buffers hold that adds are tried in.",
        ["the programs of cases", "the example", "the driver program"],
    ),
]


def read(path):
    with open(path, encoding="utf-8") as file:
        return file.read()


def key_of(group):
    """A group as `of:` has it: the page's name without backticks."""
    return group.replace("`", "")


# ---- One edit ----


def word_of(lines, word):
    """(the text of the one line that starts with the word, problems)."""
    found = [(at, line[len(word) :].strip()) for at, line in enumerate(lines) if line.startswith(word)]
    files = [at for at, line in enumerate(lines) if line.startswith("file:")]
    if len(found) != 1 or (files and files[0] < found[0][0]):
        return "", [f"it needs one `{word}` line, before its first `file:`"]
    if not found[0][1]:
        return "", [f"its `{word}` is empty"]
    return found[0][1], []


def steps_of(lines):
    """((file, old, new) of each replacement, problems), as rt reads them."""
    steps, problems, file, old = [], [], "", ""
    for line in lines:
        if line.startswith("file: "):
            file = line[len("file: ") :]
        elif line.startswith("old: "):
            if old:
                problems.append(f"no `new:` for `old: {old}`")
            old = line[len("old: ") :]
        elif line.startswith("new:"):
            if old:
                steps.append((file, old, line[len("new:") :].removeprefix(" ")))
            else:
                problems.append(f"no `old:` for `{line}`")
            old = ""
        elif line.startswith(("file:", "old:")):
            problems.append(f"rt passes over `{line}`: it has no blank")
    if old:
        problems.append(f"no `new:` for `old: {old}`")
    if not steps:
        problems.append("it replaces nothing")
    return steps, problems


def apply_problems(folder, steps):
    """What hinders the replacements in the crate, each made in the text that those before it left."""
    texts = {}
    for file, old, new in steps:
        path = os.path.join(folder, file)
        if not PART.match(file) or ".." in file.split("/") or not os.path.isfile(path):
            return [f"`file: {file}` is no file of the crate's src/, specs/ or proofs/"]
        text = texts[file] if file in texts else read(path)
        times = text.count(old)
        if times != 1:
            return [f"its `old:` is {times} times in {file}: {old.strip()}"]
        texts[file] = text.replace(old, new)
    if steps and all(text == read(os.path.join(folder, file)) for file, text in texts.items()):
        return ["it changes nothing"]
    return []


def read_edit(path):
    """(the edit, its problems)."""
    folder = os.path.dirname(os.path.dirname(path))
    crate = os.path.basename(folder)
    label = os.path.basename(path).removesuffix(".edit")
    lines = read(path).splitlines()
    wrong, unsaid = word_of(lines, "wrong:")
    of, ungrouped = word_of(lines, "of:")
    steps, unfit = steps_of(lines)
    problems = unsaid + ungrouped + unfit + apply_problems(folder, steps)
    return Edit(crate, label, wrong, of, steps), [f"{crate}/{label}: {problem}" for problem in problems]


# ---- All of them ----


def read_edits(root):
    """(the edits by crate and label, their problems)."""
    edits, problems = [], []
    for path in sorted(glob.glob(os.path.join(root, "crates/*/must-fail/*.edit"))):
        edit, found = read_edit(path)
        edits.append(edit)
        problems += found
    if not edits:
        problems.append("there is no edit")
    return edits, problems


def read_untried(root):
    """(the entries that no edit tries, as edits without crate and label; problems)."""
    entries, problems, of = [], [], ""
    for line in read(os.path.join(root, UNTRIED)).splitlines():
        if line.startswith("of: "):
            of = line[len("of: ") :].strip()
        elif line.startswith("wrong: "):
            entries.append(Edit("", "", line[len("wrong: ") :].strip(), of, []))
        elif line and not line.startswith("#"):
            problems.append(f"{UNTRIED}: neither `of:`, `wrong:` nor a comment: {line}")
    return entries, problems


def name_of(edit):
    return f"{edit.crate}/{edit.label}" if edit.label else UNTRIED


def text_problems(edits):
    """Texts that are too long, that would break their row, or that two edits of a crate share."""
    problems, seen = [], {}
    for edit in edits:
        name, place = name_of(edit), (edit.crate, edit.wrong)
        if len(edit.wrong) > WIDEST_TEXT or len(row_of(edit)) > WIDEST_ROW:
            problems.append(f"{name}: the text is too long, {len(edit.wrong)} characters: {edit.wrong}")
        if "|" in edit.wrong:
            problems.append(f"{name}: a | would end the cell: {edit.wrong}")
        if edit.wrong and place in seen:
            problems.append(f"{name}: {seen[place]} says the same: {edit.wrong}")
        seen[place] = name
    return problems


def group_problems(edits, sections):
    """Groups that are not in the sections, or that are there twice or without a row."""
    groups = [key_of(group) for _, _, names in sections for group in names]
    used = {edit.of for edit in edits}
    problems = [f"{name_of(edit)}: `of: {edit.of}` is no group" for edit in edits if edit.of and edit.of not in groups]
    problems += [f"group {group}: no edit is of it" for group in groups if group not in used]
    return problems + [f"group {group}: it is there twice" for group in sorted(set(groups)) if groups.count(group) > 1]


# ---- The page ----


def row_of(edit):
    if not edit.label:
        return f"| {edit.wrong} | no edit | |"
    return f"| {edit.wrong} | `{edit.label}` | {edit.crate} |"


def page_of(edits, sections):
    """The page's text."""
    lines = [INTRODUCTION]
    for title, note, groups in sections:
        lines += [f"## {title}", ""]
        lines += [note, ""] if note else []
        lines += ["| What is wrong | Label | Crate |", "|---|---|---|"]
        for group in groups:
            lines.append(f"| **{group}** | | |")
            lines += [row_of(edit) for edit in edits if edit.of == key_of(group)]
        lines.append("")
    return "\n".join(lines).rstrip("\n") + "\n"


def differences(before, after):
    """The first lines in which the page is not what would be written."""
    found = difflib.unified_diff(before.splitlines(), after.splitlines(), PAGE, "what the edits say", n=0, lineterm="")
    return list(found)[:20]


def main(arguments, root, sections):
    if arguments not in ([], ["--write"]):
        sys.exit("usage: wrong_programs.py [--write]")
    edits, problems = read_edits(root)
    untried, unfit = read_untried(root)
    every = edits + untried
    problems += unfit + text_problems(every) + group_problems(every, sections)
    page, path = page_of(every, sections), os.path.join(root, PAGE)
    if arguments and not problems:
        with open(path, "w", encoding="utf-8") as file:
            file.write(page)
    elif not arguments and (not os.path.isfile(path) or read(path) != page):
        problems.append(f"{PAGE} is not what the edits say; `make wrong-programs` writes it")
        problems += differences(read(path) if os.path.isfile(path) else "", page)
    for problem in problems:
        print(f"wrong_programs: {problem}")
    crates = len({edit.crate for edit in edits})
    print(f"wrong_programs: {len(edits)} edits of {crates} crates, {len(untried)} that no edit tries, {len(problems)} problems")
    return 1 if problems else 0


if __name__ == "__main__":
    sys.exit(main(sys.argv[1:], os.path.dirname(os.path.dirname(os.path.abspath(__file__))), SECTIONS))
