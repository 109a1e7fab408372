#!/usr/bin/env python3
"""Holds the export program to the samples of exports, to those of contexts that are refused, and to its form (docs/DECISIONS.md, R6.15).

usage: export_samples.py PROGRAM DRIVER FOLDER     DRIVER is the driver (crates/call_driver/README.md), FOLDER is samples

    payloads    Of FOLDER/NAME.bin the program makes FOLDER/exports/NAME.bin, byte for byte, given it at once and in two pieces; for another
                load address the payload differs where that stands, and nowhere else. What the calls on payloads answer is NAME.txt.
    refusals    Of a context that reading refuses it makes no byte, and prints the line of its listing to standard error.
    arguments   Without a load address in decimal digits it says how it is used, in one line on standard error, and makes no byte.
    limits      Both sides of 2^64, of 1,024 records, and of the 65,536 bytes that are read and written.

It always ends with status 0. Exit status 1, with a line for each problem, where one of these does not hold.
"""

import os
import re
import struct
import subprocess
import sys
from collections import namedtuple

# What python would leave beside the samples is none of them.
sys.dont_write_bytecode = True

import payload_samples
import samples

sys.path.insert(0, os.path.join(os.path.dirname(os.path.abspath(__file__)), "..", "samples", "exports"))

from make_exports import FILE, FREE, LAST, LOAD, POINTER, RSDP, SELF, TOP, payload, record
from make_samples import JUNK, PAGE, both, context, kernel, memory_map, module, other, platform

# Each of its bytes is another, so that none can stand in another's place.
OTHER_LOAD = 0x0102030405060708
# Accepted contexts that are not exported: 2^64 - 1, where the RSDP of this one is, and 20 pass 2^64.
NOT_EXPORTED = {"every_type": "refused=15,0"}
# Fewer than these means that the folder is not the one that was meant.
LEAST_PAYLOADS, LEAST_REFUSALS = 8, 20
# The last three are 2^64 and numbers above it: 2^64 and ten times that are 0 in 64 bits, and the other does not get smaller by wrapping.
NO_ADDRESS = [[], ["2097152", "2097152"], [""], ["0x10"], ["-1"], ["+1"], [" 1"], ["1 "], ["2097152\n"], ["1,000"], ["1e3"], ["a"],
              ["18446744073709551616"], ["30000000000000000000"], ["184467440737095516160"]]
USAGE = re.compile(rb"usage: [^\n]*export_context[^\n]*\n")

Told = namedtuple("Told", "out err status")


def run(program, arguments, data, in_pieces):
    """What the program prints to both outputs, and its exit status: None where it does not end."""
    # Unbuffered, so that a piece is in the pipe as soon as it is written.
    process = subprocess.Popen([program, *arguments], bufsize=0, stdin=subprocess.PIPE, stdout=subprocess.PIPE, stderr=subprocess.PIPE)
    try:
        rest = samples.give(process, data) if in_pieces else data
        return Told(*process.communicate(rest, timeout=samples.SECONDS), process.returncode)
    except subprocess.TimeoutExpired:
        process.kill()
        return Told(*process.communicate(), None)


# ---- One run ----


def difference(found, wanted):
    at = next((at for at, (one, two) in enumerate(zip(found, wanted)) if one != two), min(len(found), len(wanted)))
    return f"{len(found)} bytes, expected {len(wanted)}; at {at} `{found[at:at + 8].hex(' ')}`, expected `{wanted[at:at + 8].hex(' ')}`"


def wrong(told, out, err):
    """What the program did besides printing these and ending with status 0."""
    found = [] if told.out == out else ["standard output has " + difference(told.out, out)]
    found += [] if told.err == err else [f"standard error has {told.err[:200]!r}, expected {err!r}"]
    return found + ([] if told.status == 0 else [f"exit status {told.status}"])


def problems_of(export, what, data, load, wanted, in_pieces=False):
    """Where an export for a load address gives something else than the payload that is wanted, or the refusal, which is a line."""
    out, err = (b"", wanted.encode() + b"\n") if isinstance(wanted, str) else (wanted, b"")
    return [f"{what}: {problem}" for problem in wrong(export([str(load)], data, in_pieces), out, err)]


# ---- The samples ----


def loaded_at(made, load):
    """The payload for another load address, which is the start of SELF, its first record."""
    return made[:24] + struct.pack("<Q", load) + made[32:]


def payload_problems(export, name, data, made):
    found = problems_of(export, name, data, LOAD, made)
    found += problems_of(export, f"{name}, in two pieces", data, LOAD, made, in_pieces=True)
    return found + problems_of(export, f"{name}, for {OTHER_LOAD}", data, OTHER_LOAD, loaded_at(made, OTHER_LOAD))


def refusals(folder):
    """(name, line) of each context that reading refuses, and of those that are accepted and not exported."""
    lines = {name: samples.read(os.path.join(folder, name + ".txt")).decode().splitlines()[0] for name in samples.names_of(folder, ".txt")}
    return sorted([item for item in lines.items() if item[1].startswith("refused=")] + list(NOT_EXPORTED.items()))


def sample_problems(export, answers_else, folder):
    """Where the program is not as the samples are; answers_else says whether the calls on a payload answer other lines than its own."""
    exports = os.path.join(folder, "exports")
    names, refused = sorted(samples.names_of(exports, ".bin")), refusals(folder)
    found = []
    for name in names:
        data, made = (samples.read(os.path.join(place, name + ".bin")) for place in (folder, exports))
        found += payload_problems(export, name, data, made) + ([f"{name}: not as its lines say"] if answers_else(exports, name) else [])
    for name, line in refused:
        found += problems_of(export, name, samples.read(os.path.join(folder, name + ".bin")), LOAD, line)
    if len(names) < LEAST_PAYLOADS or len(refused) < LEAST_REFUSALS:
        found.append(f"{len(names)} payloads and {len(refused)} refusals, fewer than there are")
    return found


# ---- The argument ----


def argument_problems(export, data):
    """Where a run without a load address says something else than how the program is used."""
    found, lines = [], set()
    for arguments in NO_ADDRESS:
        told = export(arguments, data, False)
        found += [f"arguments {arguments}: {problem}" for problem in wrong(told, b"", told.err)]
        if not USAGE.fullmatch(told.err):
            found.append(f"arguments {arguments}: standard error has {told.err[:200]!r}, expected a line on how it is used")
        lines.add(told.err)
    return found + ([f"{len(lines)} lines on how it is used, expected one for all"] if len(lines) > 1 else [])


# ---- Limits, on contexts that are too long for samples ----


def of_ranges(count):
    """A context with so many ranges, and its payload, which has three records more."""
    entries = [(PAGE * at, PAGE, 1) for at in range(count)]
    ranges = [record(FREE, address, size) for address, size, _ in entries]
    return both(memory_map(*entries)), payload([record(SELF, LOAD, 118 + 32 * count), *ranges, POINTER, LAST], b"frost\0")


def of_modules(first):
    """A context with 675 modules, of which the first's name has so many bytes and the others' have 63; its payload has 65,498 and those."""
    names = [b"n" * first, *(b"%063d" % at for at in range(1, 675))]
    files, table = [], b"frost\0"
    for at, name in enumerate(names):
        files.append(record(FILE, PAGE * at, at, len(table), len(table) + len(name) + 1))
        table += name + b"\0\0"
    modules = [module(1, name, PAGE * at, at) for at, name in enumerate(names)]
    return context(platform(rsdp=0), kernel(), *modules), payload([record(SELF, LOAD, 65498 + first), *files, LAST], table)


def of_pointer(address):
    """A context with its RSDP at an address, and its payload."""
    records = [record(SELF, LOAD, 118), record(RSDP, address, 20), LAST]
    return context(platform(rsdp=address), kernel()), payload(records, b"frost\0")


def limits(listing, made):
    """(what it is, context, load address, what is wanted), of the listing and its payload and of contexts made here."""
    full, over, most = of_modules(38), of_modules(39), of_ranges(1021)
    bare = of_pointer(917504)[1]
    return [
        ("load address 0", listing, 0, loaded_at(made, 0)),
        ("load address and size sum to 2^64", listing, TOP - 188, loaded_at(made, TOP - 188)),
        ("to 2^64 + 1", listing, TOP - 187, "refused=15,0"),
        ("the highest load address", listing, TOP - 1, "refused=15,0"),
        ("an RSDP up to 2^64", of_pointer(TOP - 20)[0], LOAD, of_pointer(TOP - 20)[1]),
        ("an RSDP up to 2^64 + 1", of_pointer(TOP - 19)[0], LOAD, "refused=15,0"),
        ("1,024 records", most[0], LOAD, most[1]),
        ("1,025 records, which are tried first", of_ranges(1022)[0], TOP - 1, "refused=3,0"),
        ("a payload of 65,536 bytes", full[0], LOAD, full[1]),
        ("a payload of 65,537 bytes", over[0], LOAD, "refused=18,0"),
        ("65,537 bytes up to 2^64", over[0], TOP - 65537, "refused=18,0"),
        ("65,537 bytes up to 2^64 + 1", over[0], TOP - 65536, "refused=15,0"),
        ("a context of 65,536 bytes", both(other(7, 65104)), LOAD, bare),
        ("a context that ends past 65,536 bytes", both(other(7, 65112)), LOAD, "refused=7,432"),
        ("bytes past 65,536", listing + JUNK * 70000, LOAD, made),
    ]


def limit_problems(export, listing, made):
    return [problem for case in limits(listing, made) for problem in problems_of(export, *case)]


def main(arguments):
    if len(arguments) != 3:
        print(__doc__, file=sys.stderr)
        return 2
    program, driver, folder = arguments

    def export(given, data, in_pieces):
        return run(program, given, data, in_pieces)

    def answers_else(exports, name):
        return payload_samples.compare(driver, exports, name)

    listing, made = (samples.read(os.path.join(folder, path)) for path in ("listing.bin", "exports/listing.bin"))
    found = sample_problems(export, answers_else, folder) + argument_problems(export, listing) + limit_problems(export, listing, made)
    print(*(f"export_samples: {problem}" for problem in found), sep="\n", end="\n" if found else "")
    count = len(samples.names_of(os.path.join(folder, "exports"), ".bin"))
    print(f"export_samples: {count} payloads, {len(refusals(folder))} refusals, {len(NO_ADDRESS)} wrong arguments, "
          f"{len(limits(listing, made))} limits; {len(found)} problems")
    return 1 if found else 0


if __name__ == "__main__":
    sys.exit(main(sys.argv[1:]))
