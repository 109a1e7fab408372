#!/usr/bin/env python3
"""Holds the command line question to the samples: of each NAME.bin it hands back the text of the line `cmdline` in NAME.txt, or the board's
text where there is no such line (request R-5), whatever that text is.

usage: line_samples.py PROGRAM FOLDER     PROGRAM is the driver (crates/call_driver/README.md)

Exit status 1 where an answer is another, or where no sample has a line, an empty one, none, or is refused.
"""

import os
import re
import sys

import driver

COMMAND_LINE = 9
BOARDS = [b"console=serial", b"", b"\0a\0\xff"]


def line_of(listing):
    """(what kind of sample it is, the text of its line or None)"""
    found = re.search(r"^cmdline=(.*)$", listing, re.M)
    if not found:
        return ("refused" if listing.startswith("refused=") else "no line"), None
    text = re.sub(r"%([0-9A-F]{2})", lambda code: chr(int(code[1], 16)), found[1]).encode("latin-1")
    return ("line" if text else "empty line"), text


def problems(name, data, text, answers):
    for board, (_, (number, value, start, length), (buffer, slice_)) in zip(BOARDS, answers):
        expected = board if text is None else text
        place = data[start : start + length] if start else None
        if (number, value, buffer, slice_, place) != (0, 0, data, expected, text):
            yield f"{name}, board {board}: handed back {slice_}, part {start}, {length}; expected {expected}"


def main(arguments):
    if len(arguments) != 2:
        print(__doc__, file=sys.stderr)
        return 2
    program, folder = arguments
    kinds, told = set(), []
    for name in sorted(name[:-4] for name in os.listdir(folder) if name.endswith(".bin")):
        with open(os.path.join(folder, name + ".bin"), "rb") as context, open(os.path.join(folder, name + ".txt"), encoding="ascii") as listing:
            data, (kind, text) = context.read(), line_of(listing.read())
        kinds.add(kind)
        told += problems(name, data, text, driver.asked(program, [driver.frame(COMMAND_LINE, [], [data, board]) for board in BOARDS]))
    told += [f"no sample is of the kind `{kind}`" for kind in ("line", "empty line", "no line", "refused") if kind not in kinds]
    print("\n".join(told) or "line_samples: each hands back its line, or the board's text")
    return 1 if told else 0


if __name__ == "__main__":
    sys.exit(main(sys.argv[1:]))
