#!/usr/bin/env python3
"""Holds docs/HANDOVER.md: its bytes to a sample, its tags to their numbers, to the sample's script and to the code, its offsets to the code.

usage: handover.py [ROOT]     ROOT is the repository's folder

Exit status 1, with a line for each problem.
"""
import pathlib
import re
import sys

PAGE = "docs/HANDOVER.md"
SAMPLE = "samples/payloads/shared_strings.bin"
SCRIPT = "samples/payloads/make_payloads.py"
LIB, RECORD = "crates/handover_format/src/lib.rt", "crates/handover_format/src/records.rt"


def rows(page, head):
    """The cells of each row of the table that has this first cell in its head, below the heading that it is under."""
    found = re.search(rf"^\| {re.escape(head)} \|.*\n\|[-|]+\n((?:\|.*\n)+)", page, re.M)
    return [[cell.strip() for cell in line.strip("|\n").split("|")] for line in found[1].splitlines()] if found else []


def section(page, title):
    return page.partition(f"\n## {title}\n")[2].split("\n## ", 1)[0] + "\n"


def byte_problems(page, sample):
    """Rows whose bytes are not the sample's at their offset, and bytes of the sample in no row."""
    at = 0
    for offset, spelled, _ in rows(section(page, "A payload in bytes"), "offset"):
        data = bytes.fromhex(spelled)
        if int(offset) != at or sample[at : at + len(data)] != data:
            yield f"bytes at {offset}: expected {sample[at : at + len(data)].hex(' ')} at {at}"
        at += len(data)
    if at != len(sample):
        yield f"{at} bytes are shown, and {SAMPLE} has {len(sample)}"


def tag_problems(page, script, lib):
    """Tags whose two numbers differ, or that the script or the code has otherwise."""
    tags = {name: (number, decimal) for name, number, decimal, _ in rows(section(page, "Tags"), "tag")}
    for names, values in re.findall(r"^([A-Z, ]+) = ((?:0x[0-9A-F]{8}(?:, )?)+)$", script, re.M):
        for name, value in zip(names.split(", "), values.split(", ")):
            if name != "MAGIC" and int(tags.get(name, ("0x0",))[0], 16) != int(value, 16):
                yield f"{name}: expected {value.lower()}, as {SCRIPT} has"
    yield from (f"{name}: {number} is {int(number, 16)}" for name, (number, decimal) in tags.items() if int(number, 16) != int(decimal))
    code = dict(re.findall(r"^pub const HANDOVER_(\w+): u32 = (\d+);$", lib, re.M))
    yield from (f"{name}: expected {value}, as {LIB} has" for name, value in code.items() if tags.get(name, ("", ""))[1] != value)
    if len(tags) != 12 or not code:
        yield f"{len(tags)} tags, and {len(code)} in {LIB}"


def record_problems(page, code):
    """Members of a record whose offset or width is not that of the code's load."""
    loads = {name: (at or "0", bits) for name, bits, at in re.findall(r"^ +(\w+): words::load_u(\d+)\(bytes, at(?: \+ (\d+))?\)", code, re.M)}
    shown = {member: (offset, str(8 * int(width))) for offset, width, member, *_ in rows(section(page, "Record"), "offset")}
    if shown != loads:
        yield f"members of a record {shown}, expected {loads}, as {RECORD} loads them"


def problems(root):
    page, script, lib, code = [(root / path).read_text(encoding="utf-8") for path in (PAGE, SCRIPT, LIB, RECORD)]
    return [*byte_problems(page, (root / SAMPLE).read_bytes()), *tag_problems(page, script, lib), *record_problems(page, code)]


def main(arguments):
    found = problems(pathlib.Path(arguments[0] if arguments else "."))
    print("\n".join(f"{PAGE}: {problem}" for problem in found) or f"handover: {PAGE} is as the sample and the code")
    return 1 if found else 0


if __name__ == "__main__":
    sys.exit(main(sys.argv[1:]))
