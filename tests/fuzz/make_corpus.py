#!/usr/bin/env python3
"""Makes the seeds of the fuzz target: contexts with a script of calls (see fuzz.c for the form of an input).

usage: make_corpus.py FOLDER            write every seed to FOLDER
       make_corpus.py --kept FOLDER     write those that are kept in the repository
       make_corpus.py --check FOLDER    exit 1 unless FOLDER has just those, byte for byte
"""

import os
import struct
import sys

TOP = 1 << 64
JUNK = 0x5A


def text(value, width, junk=0):
    """A text in its field; one as long as the field is not closed."""
    return (value + b"\0" + bytes([junk]) * width)[:width]


def attribute(kind, body, more=0, junk=0):
    body += bytes([junk]) * more
    return struct.pack("<II", kind, 8 + len(body)) + body


def platform(kind=2, name=b"frost", size=88, junk=0):
    body = struct.pack("<IHH", kind, 1, 4) + text(name, 32, junk) + struct.pack("<QQB", 917504, 0xFFFF800000000000, 4)
    body += bytes([junk]) * 7 + struct.pack("<QQ", 0, 0) + bytes([junk]) * 64
    return attribute(1, body[: size - 8])


def kernel(physical=0x200000, virtual=0xFFFFFFFF80200000, length=0x10000, partition=2, path=b"/boot/k", more=0, junk=0):
    body = struct.pack("<QQQQ", physical, virtual, length, partition) + bytes(range(32)) + struct.pack("<II", 0, 1)
    return attribute(2, body + text(path, 256, junk), more, junk)


def memory_map(*entries):
    return attribute(3, b"".join(struct.pack("<QQQ", *entry) for entry in entries))


def module(kind=1, name=b"probe", address=0x10000, size=0x1800, more=0, junk=0):
    body = bytes([junk]) * 4 + struct.pack("<I", kind) + text(name, 64, junk) + struct.pack("<QQ", address, size)
    return attribute(4, body, more, junk)


def command_line(value=b"quiet", width=8, junk=0):
    return attribute(5, text(value, width, junk))


def framebuffer(width=640, height=480, pitch=1920, bpp=24, form=1, address=0xFD000000, more=0, junk=0):
    return attribute(6, struct.pack("<IIIHHQ", width, height, pitch, bpp, form, address), more, junk)


def vendor(kind=7, size=16):
    return attribute(kind, bytes([JUNK]) * (size - 8))


def context(*attributes, version=(1, 0), reserved=0, count=None):
    return struct.pack("<BBHI", *version, reserved, len(attributes) if count is None else count) + b"".join(attributes)


def both(*attributes, **head):
    """A context with a platform and a kernel before the rest."""
    return context(platform(), kernel(), *attributes, **head)


def seed(data, *script):
    """An input: the buffer's bytes, the script and its length. The script's first byte says how much follows the bytes given."""
    return data + bytes(script) + bytes([len(script)])


MOST = memory_map((0, 4096, 2), (4096, 4096, 1), (65536, 1, 1 << 32))
EVERY_TYPE = context(
    platform(size=96, junk=JUNK), kernel(path=b"/k\xc3\xa9", more=8, junk=JUNK), MOST, module(more=8, junk=JUNK),
    module(2, b"", 0x20000, 0, junk=JUNK), command_line(b"log=1", 32, JUNK), framebuffer(more=8, junk=JUNK), vendor(7), vendor(7, 8),
    vendor(9, 24), version=(2, 7), reserved=0xFFFF)

# A beginning, then an add of each type: numbers by their place in fuzz.c's table, a text by length, place and byte.
BUILD = [
    7, 0,
    1, 2, 1, 4, 9, 5, 255,
    2, 9, 9, 9, 2, 0, 0, 7, 255,
    3, 0, 0, 0, 0, 3, 255, 9, 1, 9, 2, 9, 1,
    4, 1, 9, 9, 0, 4, 255,
    4, 2, 0, 9, 0, 0, 255,
    5, 0, 0, 0, 0, 5, 255,
    6, 6, 6, 9, 1,
]

# Kept in the repository: small, and each of another kind.
KEPT = {
    "listing": seed(both(memory_map((1 << 20, 1 << 20, 1)), command_line()), 0),
    "every_type": seed(EVERY_TYPE, 0),
    "add_to_every_type": seed(EVERY_TYPE, 5, 4, 1, 9, 9, 0, 4, 255, 5, 0, 0, 0, 0, 5, 255, 3, 0, 0, 0, 0, 0, 255),
    "build": seed(b"", *BUILD),
    "short_platform": seed(context(platform(size=56), kernel()), 4, 6, 6, 6, 9, 1),
    "vendor_runs": seed(both(vendor(7), vendor(7, 8), vendor(8), vendor(0xFFFFFFFF)), 5, 3, 0, 0, 0, 0, 0, 255),
    "full_room": seed(both(attribute(5, b"x")[:4] + struct.pack("<I", 65536 - 432) + b"x"), 248, 6, 6, 6, 9, 1),
}

REFUSED = {
    "short": b"\1\0\0\0\2\0\0",
    "version": both(version=(0, 9)),
    "count": both(count=1025),
    "missing": context(platform()),
    "header": both(count=3),
    "size": both(struct.pack("<II", 7, 12) + bytes(8)),
    "size_zero": both(struct.pack("<II", 7, 0)),
    "overrun": both(struct.pack("<II", 7, 16)),
    "type": both(vendor(0)),
    "place": context(kernel(), platform()),
    "place_later": both(platform()),
    "repeat": both(MOST, vendor(), MOST),
    "split": both(vendor(7), vendor(8), vendor(7)),
    "split_modules": both(module(), command_line(), module()),
    "form": both(attribute(3, bytes(16))),
    "form_platform": context(platform(size=48), kernel()),
    "value_map": both(memory_map((0, 1, 1), (1, 1, 0))),
    "value_kernel": context(platform(), kernel(length=1)),
    "value_framebuffer": both(framebuffer(width=641)),
    "text_name": context(platform(name=b"n" * 32), kernel()),
    "text_path": context(platform(), kernel(path=b"boot")),
    "text_line": both(attribute(5, b"12345678"), vendor(7)),
    "range_module": both(module(address=TOP - 4096, size=4097)),
    "range_map": both(memory_map((TOP - 4096, 4097, 1))),
    "order": both(memory_map((0, 4097, 1), (4096, 1, 1))),
    "order_top": both(memory_map((TOP - 4096, 4096, 1), (0, 0, 1))),
}

ACCEPTED = {
    "range_top": both(memory_map((TOP - 4096, 4096, 1)), module(address=TOP - 4096, size=4096), framebuffer(0, 1, 4096, 32, 4, TOP - 4096)),
    "last_pages": both(module(address=4096, size=4097), module(address=8192, size=8192), module(address=TOP - 4096, size=1)),
    "every_address": both(module(address=0, size=TOP - 1)),
    "no_entries": both(memory_map()),
    "empty_line": both(command_line(b"", 8)),
    "many_attributes": both(*[vendor(7, 8)] * 100, *[module()] * 5),
    "one_attribute": context(platform()),
    "nothing": context(),
}

TRY_EACH = [5] + BUILD[2:]
SEEDS = {**KEPT, **{name: seed(data, *TRY_EACH) for name, data in {**REFUSED, **ACCEPTED}.items()}}


def write(folder, seeds):
    os.makedirs(folder, exist_ok=True)
    for name, data in seeds.items():
        with open(os.path.join(folder, name), "wb") as out:
            out.write(data)
    print(f"make_corpus: {len(seeds)} seeds in {folder}")
    return 0


def check(folder):
    kept = {}
    for name in os.listdir(folder):
        with open(os.path.join(folder, name), "rb") as data:
            kept[name] = data.read()
    wrong = sorted(name for name in set(kept) | set(KEPT) if kept.get(name) != KEPT.get(name))
    print(f"make_corpus: {len(kept)} seeds kept, {len(wrong)} not as made", *wrong)
    return 1 if wrong else 0


def main(arguments):
    if len(arguments) == 2 and arguments[0] == "--check":
        return check(arguments[1])
    if len(arguments) == 2 and arguments[0] == "--kept":
        return write(arguments[1], KEPT)
    if len(arguments) == 1 and not arguments[0].startswith("-"):
        return write(arguments[0], SEEDS)
    print(__doc__, file=sys.stderr)
    return 2


if __name__ == "__main__":
    sys.exit(main(sys.argv[1:]))
