#!/usr/bin/env python3
"""Makes the samples of Handover payloads, good and faulty, each with what the library answers of it.

usage: make_payloads.py FOLDER            write NAME.bin and NAME.txt of every sample to FOLDER
       make_payloads.py --check FOLDER    exit 1 unless FOLDER has just those, byte for byte, and its README.md has their table
       make_payloads.py --table           print that table

The lines are written out by hand from document 002 and request R-2, and nothing here computes one, so that they hold a program to the documents.
"""

import os
import struct
import sys

sys.dont_write_bytecode = True
sys.path.insert(0, os.path.join(os.path.dirname(os.path.abspath(__file__)), ".."))

import make_samples
from make_samples import JUNK, TOP, Sample

MAGIC = 0xC001B001
FREE, SELF, STACK, KERNEL, LOADER = 0x00000000, 0xA24F988D, 0xF65B391B, 0xBFC71B20, 0xF1F80C26
FILE, RSDP, FDT, FB = 0xCBC36D3B, 0x8EF29C18, 0xB628BBC1, 0xE2D55685
CMDLINE, RESERVED, END = 0x435140C4, 0xB8841D2D, 0xFFFFFFFF


def record(tag, start=0, size=0, name=0, meta=0, flags=0):
    return struct.pack("<IIQQII", tag, flags, start, size, name, meta)


def payload(records, table, agent=0, size=None, count=None, magic=MAGIC):
    """The head, the records and the table; size and count are theirs unless another is given."""
    body = b"".join(records) + table
    head = struct.pack("<IIII", magic, agent, 16 + len(body) if size is None else size, len(records) if count is None else count)
    return head + body


LAST = record(END)
ABC = b"abc\0"
FREE_PAGE = record(FREE, 4096, 8192)
FREE_LINE = "record=0,FREE,0,4096,8192,0,0"


def refused(number, offset):
    return f"refused={number},{offset}"


def sample(name, shows, boundary, data, *lines):
    return Sample(name, shows, boundary, data, lines)


SAMPLES = [
    sample("every_tag", "Every tag of 002, a framebuffer's four numbers in the last two words, and one that 002 does not define.", "none",
           payload([record(SELF, 0x9000, 459), record(FREE, 0x100000, 0x300000, flags=1), record(RESERVED, 0, 4096),
                    record(KERNEL, 0x200000, 0x10000), record(STACK, 0x80000, 0x4000), record(LOADER, 0x90000, 0x1000),
                    record(FILE, 0x400000, 6144, 6, 11), record(RSDP, 0xE0000, 20), record(FDT, 0x50000, 1024),
                    record(FB, 0xFD000000, 3145728, 0x03000400, 0x00011000), record(CMDLINE, 0, 0, 0, 14),
                    record(7, 1, TOP - 1, 9999, 8888, flags=0xFFFFFFFF), LAST],
                   b"frost\0init\0{}\0quiet splash\0"),
           "size=459", "agent=0,frost", "record=0,SELF,0,36864,459,0,0", "record=1,FREE,1,1048576,3145728,0,0",
           "record=2,RESERVED,0,0,4096,0,0", "record=3,KERNEL,0,2097152,65536,0,0", "record=4,STACK,0,524288,16384,0,0",
           "record=5,LOADER,0,589824,4096,0,0", "record=6,FILE,0,4194304,6144,6,11", "name=init", "meta={}",
           "record=7,RSDP,0,917504,20,0,0", "record=8,FDT,0,327680,1024,0,0", "record=9,FB,0,4244635648,3145728,50332672,69632",
           "record=10,CMDLINE,0,0,0,0,14", "meta=quiet splash", "record=11,7,4294967295,1,18446744073709551615,9999,8888",
           "record=12,END,0,0,0,0,0"),
    sample("shared_strings", "Strings that overlap, share bytes and closing zeros, slack in the table and after it, and bytes past the size.",
           "end of a text: passes",
           payload([record(FILE, 4096, 5, 2, 1, flags=7), record(CMDLINE, 0, 0, 9, 0), record(FILE, 8192, 0, 5, 6), LAST],
                   ABC + JUNK + b"d\0" + JUNK * 2, agent=1) + JUNK * 3,
           "size=153", "agent=1,bc", "record=0,FILE,7,4096,5,2,1", "name=c", "meta=bc", "record=1,CMDLINE,0,0,0,9,0", "meta=abc",
           "record=2,FILE,0,8192,0,5,6", "name=d", "meta=", "record=3,END,0,0,0,0,0"),
    sample("least", "The least payload: the end alone, and an empty agent string.", "none; beside 21 PAYLOAD and 22 STRING",
           payload([LAST], b"\0"), "size=49", "agent=0,", "record=0,END,0,0,0,0,0"),
    sample("every_byte_of_a_string", "A command line of all bytes but 0.", "end of a text: passes",
           payload([record(CMDLINE, meta=1), LAST], b"\0" + bytes(range(1, 256)) + b"\0"),
           "size=337", "agent=0,", "record=0,CMDLINE,0,0,0,0,1",
           "meta=" + "".join(f"%{n:02X}" for n in range(1, 32)) + " !\"#$%25&'()*+,-./0123456789:;<=>?@ABCDEFGHIJKLMNOPQRSTUVWXYZ[\\]^_`"
           "abcdefghijklmnopqrstuvwxyz{|}~" + "".join(f"%{n:02X}" for n in range(127, 256)), "record=1,END,0,0,0,0,0"),
    sample("record_to_the_top", "A range, and the end's, that end at just 2^64.", "top of the address space: passes",
           payload([record(FREE, TOP - 4096, 4096), record(END, TOP - 1, 1)], b"\0"),
           "size=81", "agent=0,", "record=0,FREE,0,18446744073709547520,4096,0,0", "record=1,END,0,18446744073709551615,1,0,0"),
    sample("line_without_a_name", "A command line's word in a file's name's place, far past the table: it names nothing.", "none; beside 22 STRING",
           payload([record(CMDLINE, name=0xFFFFFFFF, meta=0), LAST], ABC), "size=84", "agent=0,abc", "record=0,CMDLINE,0,0,0,4294967295,0",
           "meta=abc", "record=1,END,0,0,0,0,0"),
    sample("refused_01_room_of_15", "15 bytes.", "1 SHORT", payload([LAST], b"\0")[:15], refused(1, 0)),
    sample("sixteen_bytes", "16 bytes, a head that counts one record: not SHORT.", "21 PAYLOAD; beside 1 SHORT", payload([LAST], b"\0")[:16], refused(21, 0)),
    sample("refused_20_magic", "A magic that is one too large.", "20 MAGIC", payload([LAST], b"\0", magic=MAGIC + 1), refused(20, 0)),
    sample("refused_03_no_records", "A count of 0; its size would be refused too.", "3 COUNT", payload([], b"\0", size=0), refused(3, 0)),
    sample("refused_03_count_of_1025", "A count of 1,025, in a file far too short for it.", "3 COUNT", payload([LAST], b"\0", count=1025), refused(3, 0)),
    sample("refused_21_payload", "A size one byte below the end of the records.", "21 PAYLOAD", payload([LAST], b"\0", size=47), refused(21, 0)),
    sample("refused_21_past_the_room", "A size one byte past the end of the file.", "21 PAYLOAD", payload([LAST], b"\0", size=50), refused(21, 0)),
    sample("refused_23_end", "A last record without the end tag.", "23 END", payload([FREE_PAGE, FREE_PAGE], b"\0"), refused(23, 48)),
    sample("refused_23_misplaced", "The end tag in the first of two records.", "23 END", payload([LAST, LAST], b"\0"), refused(23, 16)),
    sample("refused_15_record", "A range that ends one byte past 2^64.", "top of the address space: 15 RANGE",
           payload([FREE_PAGE, record(RESERVED, TOP - 4096, 4097), LAST], b"\0"), refused(15, 48)),
    sample("refused_15_end", "An end record with such a range.", "top of the address space: 15 RANGE",
           payload([FREE_PAGE, record(END, TOP - 1, 2)], b"\0"), refused(15, 48)),
    sample("refused_15_before_23", "The first record breaks 15, the second 23: record goes before number.", "15 RANGE",
           payload([record(FREE, TOP - 1, 2), LAST, LAST], b"\0"), refused(15, 16)),
    sample("refused_15_before_22", "A later record's 15 goes before an earlier one's string.", "15 RANGE",
           payload([record(FILE, name=9, meta=9), record(END, TOP - 1, 2)], b"\0"), refused(15, 48)),
    sample("refused_22_string", "An agent that starts where the table ends.", "end of a text: 22 STRING", payload([FREE_PAGE, LAST], ABC, agent=4), refused(22, 0)),
    sample("agent_at_the_last_byte", "The same agent one byte before, where the table's last byte closes it.", "end of a text: passes",
           payload([FREE_PAGE, LAST], ABC, agent=3), "size=84", "agent=3,", FREE_LINE, "record=1,END,0,0,0,0,0"),
    sample("refused_22_empty_table", "A table of no bytes.", "end of a text: 22 STRING", payload([LAST], b"") + b"\0", refused(22, 0)),
    sample("refused_22_name", "A name that the table ends without a zero; the next byte, past the size, is one.", "end of a text: 22 STRING",
           payload([FREE_PAGE, record(FILE, name=4, meta=0), LAST], ABC + b"d") + b"\0", refused(22, 48)),
    sample("closed_by_the_last_byte", "The same name, closed by the table's last byte.", "end of a text: passes",
           payload([FREE_PAGE, record(FILE, name=4, meta=0), LAST], ABC + b"d\0"),
           "size=118", "agent=0,abc", FREE_LINE, "record=1,FILE,0,0,0,4,0", "name=d", "meta=abc", "record=2,END,0,0,0,0,0"),
    sample("refused_22_file_meta", "A file's meta that starts where the table ends; its name is closed.", "end of a text: 22 STRING",
           payload([FREE_PAGE, record(FILE, name=0, meta=4), LAST], ABC), refused(22, 48)),
    sample("refused_22_meta", "A command line that starts where the table ends.", "end of a text: 22 STRING",
           payload([record(CMDLINE, meta=4), LAST], ABC), refused(22, 16)),
    sample("refused_22_agent_first", "An agent and a file whose strings do not close: the agent goes first.", "22 STRING",
           payload([record(FILE, name=9, meta=9), LAST], ABC, agent=9), refused(22, 0)),
]
SHOWN = (1, 3, 15, 20, 21, 22, 23)


def faults():
    """What is wrong with the samples in themselves."""
    names = [one.name for one in SAMPLES]
    yield from (f"{name}: named twice" for name in sorted(set(names)) if names.count(name) > 1)
    yield from (f"{one.name}: {len(one.data)} bytes" for one in SAMPLES if len(one.data) >= make_samples.LARGEST)
    shown = {one.listing[0].split(",")[0] for one in SAMPLES}
    yield from (f"no sample shows refusal {number}" for number in SHOWN if f"refused={number}" not in shown)


def main(arguments):
    make_samples.SAMPLES, make_samples.faults, make_samples.OTHERS = SAMPLES, faults, {"make_payloads.py", "README.md"}
    return make_samples.main(arguments)


if __name__ == "__main__":
    sys.exit(main(sys.argv[1:]))
