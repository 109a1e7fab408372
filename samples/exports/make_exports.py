#!/usr/bin/env python3
"""Makes the samples of exports: of a context ../NAME.bin the payload that it is exported to, and what the calls on payloads answer of that.

usage: make_exports.py FOLDER            write NAME.bin and NAME.txt of every sample to FOLDER
       make_exports.py --check FOLDER    exit 1 unless FOLDER has just those, byte for byte, and its README.md has their table
       make_exports.py --table           print that table

The records, their strings and the lines are written out by hand from document 002 and requests R-2 and R-6. Nothing here reads a context or
computes a payload of one, so that they hold a program to the documents.
"""

import os
import sys

sys.dont_write_bytecode = True
sys.path.insert(0, os.path.join(os.path.dirname(os.path.abspath(__file__)), "..", "payloads"))

from make_payloads import CMDLINE, FILE, FREE, KERNEL, LAST, LOADER, RESERVED, RSDP, SELF, STACK, TOP, Sample, payload, record
import make_samples

# The load address that all are exported for.
LOAD = 2097152
# Where the platform of most samples says that the RSDP is.
POINTER = record(RSDP, 917504, 20)


def sample(name, shows, data, *lines):
    return Sample(name, shows, "none", data, lines)


SAMPLES = [
    sample("listing", "The context of document 01's listing: SELF, a range, the command line, the RSDP and the end.",
           payload([record(SELF, LOAD, 188), record(FREE, 1048576, 1048576), record(CMDLINE, meta=6), POINTER, LAST], b"frost\0quiet\0"),
           "size=188", "agent=0,frost", "record=0,SELF,0,2097152,188,0,0", "record=1,FREE,0,1048576,1048576,0,0",
           "record=2,CMDLINE,0,0,0,0,6", "meta=quiet", "record=3,RSDP,0,917504,20,0,0", "record=4,END,0,0,0,0,0"),
    sample("every_byte_of_a_text", "A name of 31 bytes and a command line of all that it may hold; the kernel's path is left behind.",
           payload([record(SELF, LOAD, 304), record(CMDLINE, meta=32), POINTER, LAST],
                   bytes(range(1, 32)) + b"\0" + bytes(range(1, 128)) + b"\0"),
           "size=304", "agent=0,%01%02%03%04%05%06%07%08%09%0A%0B%0C%0D%0E%0F%10%11%12%13%14%15%16%17%18%19%1A%1B%1C%1D%1E%1F",
           "record=0,SELF,0,2097152,304,0,0", "record=1,CMDLINE,0,0,0,0,32",
           "meta=%01%02%03%04%05%06%07%08%09%0A%0B%0C%0D%0E%0F%10%11%12%13%14%15%16%17%18%19%1A%1B%1C%1D%1E%1F"
           " !\"#$%25&'()*+,-./0123456789:;<=>?@ABCDEFGHIJKLMNOPQRSTUVWXYZ[\\]^_`abcdefghijklmnopqrstuvwxyz{|}~%7F",
           "record=2,RSDP,0,917504,20,0,0", "record=3,END,0,0,0,0,0"),
    sample("empty_map_and_texts", "An empty map gives no record, an empty command line gives one. Four empty strings, none shared.",
           payload([record(SELF, LOAD, 180), record(FILE, 65536, 6144, 1, 2), record(CMDLINE, meta=3), POINTER, LAST], b"\0\0\0\0"),
           "size=180", "agent=0,", "record=0,SELF,0,2097152,180,0,0", "record=1,FILE,0,65536,6144,1,2", "name=", "meta=",
           "record=2,CMDLINE,0,0,0,0,3", "meta=", "record=3,RSDP,0,917504,20,0,0", "record=4,END,0,0,0,0,0"),
    sample("map_type_of_33_bits", "A range of type 2^32 is RESERVED.",
           payload([record(SELF, LOAD, 150), record(RESERVED, 1048576, 1048576), POINTER, LAST], b"frost\0"),
           "size=150", "agent=0,frost", "record=0,SELF,0,2097152,150,0,0", "record=1,RESERVED,0,1048576,1048576,0,0",
           "record=2,RSDP,0,917504,20,0,0", "record=3,END,0,0,0,0,0"),
    sample("map_of_every_tag",
           "Every tag that a range can get, with 2^32 + 1 as RESERVED and a range of size 0. Modules and line, which stand before the map, "
           "come after it; framebuffer, device tree and the vendor's attribute are left behind, and so is an RSDP address of 0.",
           payload([record(SELF, LOAD, 449), record(FREE, 0, 36864), record(RESERVED, 36864, 28672), record(LOADER, 2031616, 131072),
                    record(RESERVED, 2228224, 16384), record(FREE, 2244608, 0), record(STACK, 2244608, 32768),
                    record(KERNEL, 4194304, 65536), record(RESERVED, 4259840, 8192), record(FILE, 2228224, 6144, 6, 13),
                    record(FILE, 2236416, 8192, 14, 15), record(CMDLINE, meta=16), LAST],
                   b"frost\0initrd\0\0\0\0\0"),
           "size=449", "agent=0,frost", "record=0,SELF,0,2097152,449,0,0", "record=1,FREE,0,0,36864,0,0",
           "record=2,RESERVED,0,36864,28672,0,0", "record=3,LOADER,0,2031616,131072,0,0", "record=4,RESERVED,0,2228224,16384,0,0",
           "record=5,FREE,0,2244608,0,0,0", "record=6,STACK,0,2244608,32768,0,0", "record=7,KERNEL,0,4194304,65536,0,0",
           "record=8,RESERVED,0,4259840,8192,0,0", "record=9,FILE,0,2228224,6144,6,13", "name=initrd", "meta=",
           "record=10,FILE,0,2236416,8192,14,15", "name=", "meta=", "record=11,CMDLINE,0,0,0,0,16", "meta=", "record=12,END,0,0,0,0,0"),
    sample("short_platform", "A platform and a kernel alone: neither map nor modules nor a command line.",
           payload([record(SELF, LOAD, 118), POINTER, LAST], b"frost\0"),
           "size=118", "agent=0,frost", "record=0,SELF,0,2097152,118,0,0", "record=1,RSDP,0,917504,20,0,0", "record=2,END,0,0,0,0,0"),
    sample("module_of_4097_bytes", "A module's size as the context has it, not rounded to pages.",
           payload([record(SELF, LOAD, 157), record(FILE, 8192, 4097, 6, 12), POINTER, LAST], b"frost\0probe\0\0"),
           "size=157", "agent=0,frost", "record=0,SELF,0,2097152,157,0,0", "record=1,FILE,0,8192,4097,6,12", "name=probe", "meta=",
           "record=2,RSDP,0,917504,20,0,0", "record=3,END,0,0,0,0,0"),
    sample("module_name_of_63_bytes", "A module's name that fills its field but for the closing zero.",
           payload([record(SELF, LOAD, 215), record(FILE, 65536, 6144, 6, 70), POINTER, LAST],
                   b"frost\0" + b"012345678901234567890123456789012345678901234567890123456789012\0\0"),
           "size=215", "agent=0,frost", "record=0,SELF,0,2097152,215,0,0", "record=1,FILE,0,65536,6144,6,70",
           "name=012345678901234567890123456789012345678901234567890123456789012", "meta=",
           "record=2,RSDP,0,917504,20,0,0", "record=3,END,0,0,0,0,0"),
    sample("range_to_the_top", "A range that ends at 2^64.",
           payload([record(SELF, LOAD, 150), record(FREE, TOP - 4096, 4096), POINTER, LAST], b"frost\0"),
           "size=150", "agent=0,frost", "record=0,SELF,0,2097152,150,0,0", "record=1,FREE,0,18446744073709547520,4096,0,0",
           "record=2,RSDP,0,917504,20,0,0", "record=3,END,0,0,0,0,0"),
]


def faults():
    """What is wrong with the samples in themselves."""
    names = [one.name for one in SAMPLES]
    yield from (f"{name}: named twice" for name in sorted(set(names)) if names.count(name) > 1)
    for one in SAMPLES:
        size, own = f"size={len(one.data)}", f"record=0,SELF,0,{LOAD},{len(one.data)},0,0"
        if (one.listing[0], one.listing[2]) != (size, own) or one.data[16:48] != record(SELF, LOAD, len(one.data)):
            yield f"{one.name}: {len(one.data)} bytes, which is not told of it"


def table():
    rows = ["| sample | what it shows |", "|---|---|", *(f"| `{one.name}` | {one.shows} |" for one in SAMPLES)]
    return "".join(row + "\n" for row in rows)


def main(arguments):
    make_samples.SAMPLES, make_samples.faults, make_samples.table = SAMPLES, faults, table
    make_samples.OTHERS = {"make_exports.py", "README.md"}
    return make_samples.main(arguments)


if __name__ == "__main__":
    sys.exit(main(sys.argv[1:]))
