#!/usr/bin/env python3
"""Lists where the basic blocks of an archive's functions start in a program that is linked with it, an address a line.

usage: blocks.py ARCHIVE PROGRAM

The program is linked at fixed addresses (-no-pie). blocks.c sets a breakpoint at each.
"""

import os
import re
import subprocess
import sys

sys.dont_write_bytecode = True
sys.path.insert(0, os.path.join(os.path.dirname(os.path.abspath(__file__)), ".."))
import stack  # noqa: E402


def starts_of(function):
    """Offsets in a function at which control arrives by a jump or goes on after one."""
    starts = {function.start.offset}
    order = sorted(function.code)
    after = dict(zip(order, order[1:]))
    for at, instruction in function.code.items():
        if not instruction.name.startswith("j"):
            continue
        target = function.target(instruction)
        starts.update(function.jump_table(instruction, set()) if target is None else set())
        if isinstance(target, stack.Place) and function.holds(target):
            starts.add(target.offset)
        if at in after:
            starts.add(after[at])
    return {at - function.start.offset for at in starts if at in function.states}


def addresses_of(program):
    """The addresses of each name in the program's code."""
    addresses = {}
    for line in subprocess.run(["nm", program], check=True, capture_output=True, text=True).stdout.splitlines():
        match = re.fullmatch(r"([0-9a-f]{16}) [tT] (\S+)", line)
        if match:
            addresses.setdefault(match.group(2), []).append(int(match.group(1), 16))
    return addresses


def main(arguments):
    archive, program = arguments
    addresses = addresses_of(program)
    count = 0
    for function in stack.Archive(archive).functions.values():
        places = addresses.get(function.name, [])
        if len(places) != 1:
            print(f"blocks.py: {function.name} is in the program {len(places)} times, and is left out", file=sys.stderr)
            continue
        for offset in sorted(starts_of(function)):
            print(f"{places[0] + offset:x}")
            count += 1
    if count == 0:
        print("blocks.py: no blocks", file=sys.stderr)
        return 1
    return 0


if __name__ == "__main__":
    sys.exit(main(sys.argv[1:]))
