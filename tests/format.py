#!/usr/bin/env python3
"""Checks docs/FORMAT.md against samples/listing.bin, include/ultra.h and the code.

- Tables whose first column is "offset": members follow one another without a gap, at the offsets that ULTRA_.._OFFSET in the header and
  the constants in crates/ultra_layout/src have. The table "type": numbers and sizes are those of the code and the header.
- Under "Bytes A to B: attribute", a line is: offset in hex, in decimal, in the attribute after +, bytes, member, value, remark, with two
  spaces or more between. The lines are the sample's bytes, each once and in order, taken apart by those tables. A value is the number of
  the bytes, a "text", zero (that closes a text), raw (bytes) or silent.
- The table "rule": the sample, or the line of a program's output, is refused with the number, and 1 to 16 all occur.
- `File.name` is in the one crates/*/specs/File.antt, `crate::file::name` a function in the code, and `name`, path in that file.
"""

import collections
import glob
import itertools
import os
import re
import struct
import sys

Table = collections.namedtuple("Table", "heading first rows")
Member = collections.namedtuple("Member", "offset width kind name")
Row = collections.namedtuple("Row", "hex decimal inner bytes member value remark", defaults=[""])
Block = collections.namedtuple("Block", "start end attribute rows")
Sources = collections.namedtuple("Sources", "root sample header code")


def read(*path):
    """A file's text; of none that is there, nothing."""
    place = os.path.join(*path)
    if not os.path.isfile(place):
        return ""
    with open(place, encoding="utf-8") as file:
        return file.read()


def has(expression, text):
    return re.search(expression, text, re.MULTILINE) is not None


def load(root):
    """What the page is compared with."""
    with open(os.path.join(root, "samples/listing.bin"), "rb") as file:
        sample = file.read()
    names = {path: os.path.basename(path)[:-3].replace("_", " ") for path in glob.glob(os.path.join(root, "crates/ultra_layout/src/*.rt"))}
    code = {"map entry" if name == "entry" else name: read(path) for path, name in names.items()}
    return Sources(root, sample, read(root, "include/ultra.h"), code)


# ---- The page ----


def tables_of(text):
    tables, heading, inside = [], "", False
    for line in text.splitlines():
        heading = line.lstrip("# ").lower() if line.startswith("#") else heading
        cells = [cell.strip() for cell in line.strip("|").split("|")]
        if line.startswith("|") and not inside:
            tables.append(Table(heading, cells[0], []))
        elif line.startswith("|") and set(line) - set("|-"):
            tables[-1].rows.append(cells)
        inside = line.startswith("|")
    return tables


def layout_of(tables):
    """The members of each heading; the width of one that takes the rest is None."""
    return {table.heading: [Member(int(row[0]), None if row[1] == "rest" else int(row[1]), row[2], row[3]) for row in table.rows]
            for table in tables if table.first == "offset"}


def row_of(line):
    cells = (re.split(" {2,}", line) + 7 * [""])[:7]
    run = re.fullmatch(r"([0-9a-f]{2}) x (\d+)", cells[3])
    return Row(*cells)._replace(bytes=bytes.fromhex(run[1]) * int(run[2]) if run else bytes.fromhex(cells[3]))


def blocks_of(text):
    """The annotated bytes, by heading."""
    found = re.findall(r"^### Bytes (\d+) to (\d+): (.*)\n\n```\n((?:[^`\n]*\n)*)```$", text, re.MULTILINE)
    return [Block(int(start), int(end), attribute, [row_of(line) for line in lines.splitlines()]) for start, end, attribute, lines in found]


# ---- The tables against the header and the code ----


def gaps(heading, members):
    at, problems = 0 if heading in ("head", "attribute", "map entry") else 8, []
    for member in members:
        if member.offset != at:
            problems.append(f"{heading} {member.name} is at {member.offset}, what is before it ends at {at}")
        if member.kind[0] == "u" and member.kind != f"u{8 * (member.width or 0)}":
            problems.append(f"{heading} {member.name} is {member.kind}, of {member.width} bytes")
        at = None if member.width is None else member.offset + member.width
    return problems


def offset_problems(layout, header, code):
    """The header has a constant for all but the head, the code for all but those at 0 and the minor version."""
    here = {f"{heading} {member.name}": member.offset for heading in layout for member in layout[heading] if member.kind != "silent"}
    defined = re.findall(r"^#define ULTRA_(\w+)_OFFSET +(\d+)", header, re.MULTILINE)
    in_header = {name.lower().replace("_", " "): int(value) for name, value in defined}
    in_code = {f"{heading} {name.lower().replace('_', ' ').replace('kind', 'type')}": int(value) for heading in layout
               for name, value in re.findall(r"^pub const (\w+): usize = (\d+);", code.get(heading, ""), re.MULTILINE)}
    problems = [f"{name} is at {here.get(name)}, in the header at {in_header.get(name)}" for name in sorted({*here, *in_header})
                if here.get(name) != in_header.get(name) and not name.startswith("head ")]
    return problems + [f"{name} is at {here[name]}, in the code at {in_code.get(name)}" for name in here
                       if here[name] != in_code.get(name, 0) and name != "head minor"]


def size_problems(rows, layout, header, code):
    problems = []
    for number, name, least, written in [row[:4] for row in rows if row[0].isdigit()]:
        macro = name.upper().replace(" ", "_")
        if not has(rf"^pub const (MEMORY_)?{macro}: u32 = {number};", code["types"]):
            problems.append(f"{name} is not of type {number} in the code")
        if "LEAST_SIZE" in code[name] and f"LEAST_SIZE: u32 = {least};" not in code[name]:
            problems.append(f"{name}: the least size is not {least} in the code")
        if written.isdigit() and not has(rf"^#define ULTRA_{macro}_SIZE +{written}$", header):
            problems.append(f"{name}: the size written is not {written} in the header")
        if written.isdigit() and int(written) != layout[name][-1].offset:
            problems.append(f"{name}: the members end at {layout[name][-1].offset}, not at {written}")
    return problems


# ---- The annotated bytes ----


def fields_of(layout, attribute, size):
    """The fields of the head or of an attribute of that size."""
    headings = ["head"] if attribute == "head" else ["attribute", attribute]
    fields = [member._replace(width=member.width or size - member.offset, name=f"{heading} {member.name}")
              for heading in headings for member in layout[heading]]
    if fields[-1].kind != "entries":
        return fields
    entry = layout["map entry"]
    return fields[:-1] + [member._replace(offset=at + member.offset, name=f"map entry {member.name}")
                          for at in range(fields[-1].offset, size, entry[-1].offset + entry[-1].width) for member in entry]


def parts_of(kind, stored):
    """The bytes and the value of each row of a field that is stored so."""
    text, zero, rest = stored.partition(b"\0")
    if kind == "text":
        return [(text, f'"{text.decode("latin-1")}"'), (zero, "zero"), (rest, "silent")]
    return [(stored, {"silent": "silent", "bytes": "raw"}.get(kind, str(int.from_bytes(stored, "little"))))]


def block_of(layout, attribute, start, data):
    """How the bytes of the head or of an attribute have to be annotated."""
    rows = []
    for field in fields_of(layout, attribute, len(data)):
        at = field.offset
        for part, value in parts_of(field.kind, data[at:at + field.width]):
            rows += [Row(f"{start + at:04x}", str(start + at), f"+{at}", part, field.name, value)] if part else []
            at += len(part)
    return Block(start, start + len(data) - 1, attribute, rows)


def sample_blocks(layout, types, sample):
    blocks, at = [block_of(layout, "head", 0, sample[:8])], 8
    while at + 8 <= len(sample):
        number, size = struct.unpack_from("<II", sample, at)
        blocks.append(block_of(layout, types.get(number, "attribute"), at, sample[at:at + max(size, 8)]))
        at += max(size, 8)
    return blocks


def remark_problems(row, header):
    """A remark has no number but the value, in hex or as a name of the header."""
    defined = [re.search(rf"^#define {name} +(\w+)", header, re.MULTILINE) for name in re.findall(r"ULTRA_\w+", row.remark)]
    numbers = [name[1] if name else "-1" for name in defined] + re.findall(r"0x\w+", row.remark)
    digits = has(r"\d", re.sub(r"(ULTRA_|0x)\w+", "", row.remark))
    return [f"{row.hex}: {row.remark} is not {row.value}"] if digits or any(str(int(number, 0)) != row.value for number in numbers) else []


def annotation_problems(blocks, expected, sources):
    """The first heading or row that is not as expected; else the remarks, and that the rows are the sample."""
    here, there = ([line for block in side for line in (block[:3], *(row[:6] for row in block.rows))] for side in (blocks, expected))
    for line, other in itertools.zip_longest(here, there):
        if line != other:
            return [f"annotated {line}, expected {other}"]
    rows = [row for block in blocks for row in block.rows]
    problems = [problem for row in rows for problem in remark_problems(row, sources.header)]
    return problems if b"".join(row.bytes for row in rows) == sources.sample else problems + ["the rows are not the sample's bytes"]


# ---- The rules, and the names that are given ----


def refused_as(root, item):
    """The number that a sample, or a line of a program's output, is refused with."""
    program, colon, line = item.partition(": ")
    expression = rf"^{re.escape(line)}: refused (\d+) at" if colon else r"\Arefused=(\d+),"
    found = re.search(expression, read(root, f"crates/{program}/stdout" if colon else f"samples/{item}.txt"), re.MULTILINE)
    return found[1] if found else None


def rule_problems(rows, sources):
    numbers = {row[1].split()[0] for row in rows}
    problems = [] if numbers == {str(number) for number in range(1, 17)} else [f"the rules have {sorted(numbers)}"]
    for rule, number, _, _, broken in rows:
        digits, name = number.split()
        given = refused_as(sources.root, broken.strip("`"))
        if given != digits or not has(rf"^#define ULTRA_{name} +{digits} ", sources.header):
            problems.append(f"{rule}: {number}, but {broken} is refused as {given}, or that is not its name")
    return problems


def name_problems(text, root):
    """Each name is where the page says, and the page names the folder of a definition."""
    problems = []
    for file, name in sorted(set(re.findall(r"`([A-Z]\w*)\.(\w+)`", text))):
        paths = glob.glob(f"crates/*/specs/{file}.antt", root_dir=root)
        declared = rf"^\s*(?:\w+ )*{name} :|^pub (?:record|data) {name}\b"
        if len(paths) != 1 or os.path.dirname(paths[0]) not in text or not has(declared, read(root, paths[0])):
            problems.append(f"no definition {file}.{name}, or its folder is not named")
    for item in sorted(set(re.findall(r"`(\w+(?:::\w+)+)`", text))):
        crate, *file, name = item.split("::")
        if not has(rf"\bfn {name}[(<]", read(root, "crates", crate, "src", (file or ["lib"])[0] + ".rt")):
            problems.append(f"no function {item}")
    proofs = re.findall(r"`([\w-]+)`,\s(crates/[\w/]+\.antt)", text)
    return problems + [f"no {name} in {path}" for name, path in proofs if f"pub {name} :" not in read(root, path)]


# ---- The program ----


def problems_of(text, sources):
    tables = tables_of(text)
    layout = layout_of(tables)
    sizes, rules = ([row for table in tables if table.first == first for row in table.rows] for first in ("type", "rule"))
    types = {int(row[0]): row[1] for row in sizes if row[0].isdigit()}
    missing = ({"head", "attribute", "map entry"} | set(types.values())) - set(layout)
    if missing or set(types) != set(range(1, 7)):
        return [f"the types are {types}; no table has the members of {sorted(missing)}"]
    problems = [problem for heading in layout for problem in gaps(heading, layout[heading])]
    problems += offset_problems(layout, sources.header, sources.code) + size_problems(sizes, layout, sources.header, sources.code)
    problems += annotation_problems(blocks_of(text), sample_blocks(layout, types, sources.sample), sources)
    return problems + rule_problems(rules, sources) + name_problems(text, sources.root)


def main():
    root = os.path.dirname(os.path.dirname(os.path.abspath(__file__)))
    text, sources = read(root, "docs/FORMAT.md"), load(root)
    problems = problems_of(text, sources)
    for problem in problems:
        print(f"docs/FORMAT.md: {problem}")
    print(f"format: {len(sources.sample)} bytes in {sum(len(block.rows) for block in blocks_of(text))} rows, {len(problems)} problems")
    return 1 if problems else 0


if __name__ == "__main__":
    sys.exit(main())
