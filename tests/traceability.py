#!/usr/bin/env python3
"""Checks and writes docs/traceability/: what states, checks, proves and runs each sentence of the documents.

usage: traceability.py [DOCUMENT ...]   checks the pages; with documents, also that they have every sentence; lists what no row quotes
       traceability.py --write          writes the pages anew: `quoted` lines, line ends, the index's table, FILES.md
       traceability.py --where WORD     the rows that have the word in their sentence or as a name, and the place of each of their names

A row is **"sentence"** and lines `- label: text` below it, up to an empty line. Every name in backticks is a short name (short_names.py);
after `run in FILE` it is one of that file. The line `quoted` comes from the comments of specs/ (spec_quotes.py); the others are kept by
hand.

Exit 1, with a line for each problem, where a page is not as --write writes it, a name is nowhere or in several places or not of its
label's kind, a name that is quoted is kept by hand too, a row has nothing but its sentence, a label is none or stands below no sentence, a
page has a sentence twice or says that it is still to do, a line is too long, or there are fewer than 100 rows.
"""

import collections
import os
import re
import signal
import sys

from short_names import Names, PROGRAM, read
from spec_quotes import all_quotes, fold, names_by_sentence, quoted_in

FEWEST_ROWS = 100
WIDTH, WIDEST = 140, 160
UNFINISHED = "TODO"
LABELS = ("quoted", "stated", "checked", "proved", "run", "must fail", "note", "open")
PROOFS = ("Invariants", "Answers", "Proof")
KINDS = {"checked": "src", "proved": "proofs", "must fail": "must-fail"}
INDEX_HEAD = "| Page | Rows | Open |\n|---|---|---|\n"
FILES_HEAD = "# The files that the rows name\n\nIn short, and where they are. Written by `make traceability`.\n\n"

Row = collections.namedtuple("Row", "number sentence parts")


# ---- Pages ----


def sentence_of(text):
    """The quoted sentence, without the quotation marks around it."""
    return fold(text).removeprefix('"').removesuffix('"')


def row_of(number, lines):
    """A row of its lines, with (label, text) of each part."""
    starts = [at for at, line in enumerate(lines) if line.startswith("- ")] + [len(lines)]
    parts = [" ".join(lines[at:end])[2:].partition(":") for at, end in zip(starts, starts[1:])]
    return Row(number, sentence_of(" ".join(lines[:starts[0]])), [(label, " ".join(text.split())) for label, _, text in parts])


def blocks_of(lines):
    """The rows of a page, and its other lines as they are."""
    blocks, at = [], 0
    while at < len(lines):
        end = at + 1
        if lines[at].startswith('**"'):
            while end < len(lines) and lines[end].strip():
                end += 1
            blocks.append(row_of(at + 1, lines[at:end]))
        else:
            blocks.append(lines[at])
        at = end
    return blocks


def is_row(block):
    return isinstance(block, Row)


def names_of(label, text):
    """The short names of a part."""
    file = label.removeprefix("run in ") + ": " if label.startswith("run in ") else ""
    return [file + name for name in re.findall(r"`([^`]*)`", text)]


def kind_of(label):
    return "run" if label.startswith("run in ") else label


def fill(text, indent=""):
    """The text in lines of WIDTH columns; no name in backticks is divided."""
    lines = [""]
    for word in re.findall(r"(?:`[^`]*`|\S)+", text):
        if lines[-1].strip() and len(lines[-1]) + 1 + len(word) > WIDTH:
            lines.append(indent + word)
        else:
            lines[-1] += " " + word if lines[-1] else word
    return lines


def with_quotes(row, quoted):
    """The row with the `quoted` part that it has to have, its parts in the order of their labels."""
    parts = [part for part in row.parts if part[0] != "quoted"]
    if quoted:
        parts.append(("quoted", ", ".join(f"`{name}`" for name in quoted)))
    order = {label: place for place, label in enumerate(LABELS)}
    return row._replace(parts=sorted(parts, key=lambda part: order.get(kind_of(part[0]), len(order))))


def row_written(row):
    return fill(f'**"{row.sentence}"**') + [line for label, text in row.parts for line in fill(f"- {label}: {text}", "  ")]


class Table:
    """All pages of a repository, with what the comments of its specs quote."""

    def __init__(self, root):
        self.root, self.folder = root, os.path.join(root, "docs", "traceability")
        self.names = Names(root)
        names = sorted(name for name in os.listdir(self.folder) if name.endswith(".md") and name not in ("README.md", "FILES.md"))
        pages = {name: blocks_of(self.text(name).splitlines()) for name in names}
        self.quotes = all_quotes(self.names)
        self.quoted = names_by_sentence(self.quotes, [block.sentence for blocks in pages.values() for block in blocks if is_row(block)])
        self.pages = {name: [with_quotes(block, self.quoted.get(block.sentence)) if is_row(block) else block for block in blocks]
                      for name, blocks in pages.items()}
        self.rows = [(name, row) for name in self.pages for row in self.rows_of(name)]

    def text(self, name):
        path = os.path.join(self.folder, name)
        return read(path) if os.path.exists(path) else ""

    def rows_of(self, page):
        return [block for block in self.pages[page] if is_row(block)]

    def items(self):
        """(page, row, label, name) of each name that a row gives."""
        return [(page, row, label, name) for page, row in self.rows for label, text in row.parts for name in names_of(label, text)]

    # ---- Writing ----

    def written(self):
        """(name, text) of each file as it has to be."""
        for page, blocks in self.pages.items():
            lines = [row_written(block) if is_row(block) else [block] for block in blocks]
            yield page, "".join(line + "\n" for block in lines for line in block)
        before, head, after = self.text("README.md").partition(INDEX_HEAD)
        yield "README.md", before + INDEX_HEAD + "".join(map(self.index_line, self.pages)) + re.sub(r"\A(?:\|.*\n)*", "", after)
        yield "FILES.md", FILES_HEAD + "".join(f"- [{short}](../../{path})\n" for short, path in self.files())

    def index_line(self, page):
        rows = self.rows_of(page)
        title = next((block.removeprefix("# ") for block in self.pages[page] if not is_row(block)), page)
        return f"| [{title}]({page}) | {len(rows)} | {sum(is_open(row) for row in rows) or '-'} |\n"

    def files(self):
        """(short, path) of each file that a row names."""
        paths = {path for *_, name in self.items() for path, _ in self.names.places(name)}
        return sorted((self.names.short_of(path), path) for path in paths)

    # ---- Problems: (file, line number, problem) ----

    def problems(self):
        found = [(page, row.number, problem) for page, row in self.rows for problem in self.row_problems(row)]
        for name, text in self.written():
            lines = self.text(name).splitlines()
            found += [(name, number, problem) for number, problem in line_problems(lines)]
            changed = [number for number, pair in enumerate(zip(lines, text.splitlines()), 1) if pair[0] != pair[1]]
            if self.text(name) != text:
                found.append((name, (changed or [len(lines)])[0], "not as `make traceability` writes it"))
        for page, blocks in self.pages.items():
            found += [(page, number, "this sentence again") for number in repeated(self.rows_of(page))]
            found += [(page, 1, f"below no sentence: {block}") for block in blocks if not is_row(block) and block.startswith("- ")]
        found += [("README.md", 1, problem) for problem in map(self.names.problem, example_names(self.text("README.md"))) if problem]
        if len(self.rows) < FEWEST_ROWS:
            found.append(("README.md", 1, f"{len(self.rows)} rows, fewer than {FEWEST_ROWS}"))
        return sorted(found)

    def row_problems(self, row):
        unknown = [f"no label {label!r}" for label, _ in row.parts if kind_of(label) not in LABELS]
        unknown += [f"nothing after {label!r}" for label, text in row.parts if not text]
        named = [problem for label, text in row.parts for name in names_of(label, text)
                 for problem in self.name_problems(label, name, self.quoted.get(row.sentence, []))]
        return unknown + named + ([] if row.parts else ["nothing but its sentence"])

    def name_problems(self, label, name, quoted):
        problem = self.names.problem(name)
        if problem:
            return [problem]
        if name in quoted and label == "stated":
            return [f"`{name}` is quoted already"]
        path = self.names.places(name)[0][0]
        folder = KINDS.get(label)
        return [f"`{name}` is in {path}, not in a crate's {folder}"] if folder and not re.match(rf"crates/\w+/{folder}\b", path) else []

    # ---- Looking up ----

    def where(self, word):
        """The lines that say where a word or name is."""
        told = [f"{word}: {at(path, number)}" for path, number in self.names.places(word)]
        for page, row in self.rows:
            items = [(label, name) for label, text in row.parts for name in names_of(label, text)]
            if any(word.lower() in text.lower() for text in [row.sentence, *(name for _, name in items)]):
                told.append(f'docs/traceability/{page}:{row.number}: "{row.sentence}"')
                told += [f"  {kind_of(label):<9} {name:<50} {self.place(name)}" for label, name in items]
                told += [f"  open      {text}" for label, text in row.parts if label == "open"]
        return told

    def place(self, name):
        """The place of a name; of a function also its proof, if one was written."""
        path, number = (self.names.places(name) or [("nowhere", 0)])[0]
        program = PROGRAM.fullmatch(path)
        folder = f"crates/{program[1]}/proofs/{'/'.join(name.split('::')[1:])}" if program else ""
        written = [proof for proof in (f"{folder}/{file}.antt" for file in PROOFS) if proof in self.names.paths]
        return at(path, number) + (f", proof: {', '.join(written)}" if written else "")


def at(path, number):
    """A place; a whole file or folder has no line."""
    return f"{path}:{number}" if number else path


def example_names(text):
    """The names of the index: those of the rows that are set in, and those that begin a table's row."""
    examples = [block for block in blocks_of([line.removeprefix("    ") for line in text.splitlines()]) if is_row(block)]
    explained = [("", cell) for cell in re.findall(r"^\| (`.+?`) \|", text, flags=re.MULTILINE)]
    return [name for label, part in [part for row in examples for part in row.parts] + explained for name in names_of(label, part)]


def is_open(row):
    return any(label == "open" for label, _ in row.parts)


def line_problems(lines):
    for number, line in enumerate(lines, 1):
        if UNFINISHED in line:
            yield number, f"says {UNFINISHED}"
        if len(line) > WIDEST:
            yield number, f"{len(line)} columns, more than {WIDEST}"


def repeated(rows):
    """The line number of each row whose sentence an earlier one has."""
    sentences = [row.sentence for row in rows]
    return [row.number for at, row in enumerate(rows) if row.sentence in sentences[:at]]


# ---- The documents that are quoted ----


def place_of(sentence, document):
    """Where the pieces of a sentence stand in a document, one after the other, or None."""
    start, at = None, 0
    for piece in sentence.split(" .. "):
        found_at = document.find(piece, at)
        if found_at < 0:
            return None
        start = found_at if start is None else start
        at = found_at + len(piece)
    return start, at


def quote_problems(rows, documents):
    """(page, line number, problem) of each sentence that no document has."""
    return [(page, row.number, "no document has this sentence") for page, row in rows
            if not any(place_of(row.sentence, document) for document in documents)]


def unquoted(rows, document):
    """The parts of a document that no sentence quotes."""
    covered = bytearray(len(document))
    for _, row in rows:
        place = place_of(row.sentence, document)
        if place:
            covered[place[0]:place[1]] = b"\1" * (place[1] - place[0])
    parts = re.split("\0+", "".join("\0" if mark else letter for letter, mark in zip(document, covered)))
    return [part.strip() for part in parts if re.search(r"\w", part)]


# ---- The program ----


def write(table):
    for name, text in table.written():
        with open(os.path.join(table.folder, name), "w", encoding="utf-8") as file:
            file.write(text)


def check(table, paths):
    documents = [fold(read(path)) for path in paths]
    problems = table.problems() + (quote_problems(table.rows, documents) if documents else [])
    for name, number, problem in problems:
        print(f"docs/traceability/{name}:{number}: {problem}")
    for document in documents:
        for part in unquoted(table.rows, document):
            print(f"not quoted: {part}")
    sentences = [row.sentence for _, row in table.rows]
    strays = sum(not quoted_in(quote.text, sentences) for quote in table.quotes)
    items = table.items()
    generated = [label for *_, label, _ in items if label == "quoted"]
    print(f"traceability: {len(table.rows)} rows on {len(table.pages)} pages, {sum(is_open(row) for _, row in table.rows)} open; "
          f"{len(items)} names, {len(generated)} of them from quotes in specs/; {len(table.quotes)} quotes there, {strays} of no row; "
          f"{len(problems)} problems")
    return 1 if problems else 0


def main(arguments, root=os.path.dirname(os.path.dirname(os.path.abspath(__file__)))):
    table = Table(root)
    if arguments[:1] == ["--write"]:
        write(table)
    elif arguments[:1] == ["--where"] and len(arguments) == 2 and arguments[1]:
        told = table.where(arguments[1])
        print("\n".join(told) if told else f"no sentence and no name has {arguments[1]!r}")
        return 0 if told else 1
    elif arguments[:1] and arguments[0].startswith("--"):
        print(__doc__, file=sys.stderr)
        return 2
    else:
        return check(table, arguments)
    return 0


if __name__ == "__main__":
    # As other programs do where nobody reads on: make where WORD=.. | head.
    signal.signal(signal.SIGPIPE, signal.SIG_DFL)
    sys.exit(main(sys.argv[1:]))
