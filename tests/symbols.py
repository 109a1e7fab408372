#!/usr/bin/env python3
"""Lists what an archive asks of its host and what it gives, and holds both to what is promised.

usage: symbols.py ARCHIVE HEADER

It may ask for memcpy, memmove, memset and memcmp, and has to give just the calls that the header declares.
"""

import re
import subprocess
import sys

HOST = {"memcpy", "memmove", "memset", "memcmp"}


def symbols_of(archive):
    """The names that the archive leaves undefined, and those that it defines for others."""
    undefined, defined = set(), set()
    for line in subprocess.run(["nm", "-g", archive], check=True, capture_output=True, text=True).stdout.splitlines():
        match = re.fullmatch(r"(?:[0-9a-f]{16}| {16}) (\w) (\S+)", line)
        if match:
            (undefined if match.group(1) in "Uvw" else defined).add(match.group(2))
    return undefined - defined, defined


def calls_of(header):
    with open(header, encoding="utf-8") as text:
        return set(re.findall(r"^uint64_t (ultra_\w+)\(", text.read(), flags=re.MULTILINE))


def main(arguments):
    archive, header = arguments
    needed, given = symbols_of(archive)
    declared = calls_of(header)
    print(f"symbols: {archive} needs of its host: {', '.join(sorted(needed)) or 'nothing'}")
    print(f"symbols: it gives {len(given)} calls, the header declares {len(declared)}")
    faults = [f"it needs {name}, which a host does not owe" for name in sorted(needed - HOST)]
    faults += [f"{name} is declared and not given" for name in sorted(declared - given)]
    faults += [f"{name} is given and not declared" for name in sorted(given - declared)]
    faults += ["the header declares no call"] if not declared else []
    for fault in faults:
        print(f"symbols: {fault}", file=sys.stderr)
    return 1 if faults else 0


if __name__ == "__main__":
    sys.exit(main(sys.argv[1:]))
