#!/usr/bin/env python3
"""Makes the samples: boot contexts, good and faulty, each with its listing.

usage: make_samples.py FOLDER            write NAME.bin and NAME.txt of every sample to FOLDER
       make_samples.py --check FOLDER    exit 1 unless FOLDER has just those, byte for byte, and its README.md has their table
       make_samples.py --table           print that table

The listings are written out by hand from document 01 and nothing here computes one, so that they hold a program to the document.
"""

import os
import struct
import sys
from collections import namedtuple

TOP = 1 << 64
PAGE = 4096
# Above 127, so that no text could hold it: a reader that judges a silent byte refuses it.
JUNK = b"\xa5"
LARGEST = 1500
# What a folder has besides the samples.
OTHERS = {"make_samples.py", "README.md", "payloads", "exports"}

DISK_GUID = bytes.fromhex("A0A1A2A3A4A5A6A7A8A9AAABACADAEAF")
PARTITION_GUID = bytes.fromhex("F0E1D2C3B4A5968778695A4B3C2D1E0F")

# ---- Bytes, by the table of document 01 ----


def text(value, width, silent=b"\0"):
    """A text in its field; one as long as the field is not closed."""
    return (value + b"\0" + silent * width)[:width]


def attribute(kind, body):
    return struct.pack("<II", kind, 8 + len(body)) + body


def platform(kind=2, loader=(1, 4), name=b"frost", rsdp=917504, half=0xFFFF800000000000, depth=4, dtb=0, smbios=0, size=88, silent=b"\0"):
    body = struct.pack("<IHH", kind, *loader) + text(name, 32, silent) + struct.pack("<QQB", rsdp, half, depth)
    body += silent * 7 + struct.pack("<QQ", dtb, smbios) + silent * 64
    return attribute(1, body[: size - 8])


def kernel(physical=0x200000, virtual=0xFFFFFFFF80200000, length=0x10000, partition=2, guids=bytes(32), disk=0, index=1, path=b"/boot/k",
           more=0, silent=b"\0"):
    body = struct.pack("<QQQQ", physical, virtual, length, partition) + guids + struct.pack("<II", disk, index)
    return attribute(2, body + text(path, 256, silent) + silent * more)


def memory_map(*entries, more=b""):
    return attribute(3, b"".join(struct.pack("<QQQ", *entry) for entry in entries) + more)


def module(kind=1, name=b"probe", address=0x10000, size=6144, more=0, silent=b"\0"):
    body = silent * 4 + struct.pack("<I", kind) + text(name, 64, silent) + struct.pack("<QQ", address, size)
    return attribute(4, body + silent * more)


def command_line(value=b"quiet", width=8, silent=b"\0"):
    return attribute(5, text(value, width, silent))


def framebuffer(width=640, height=480, pitch=1920, bpp=24, form=1, address=0xFD000000, more=0, silent=b"\0"):
    return attribute(6, struct.pack("<IIIHHQ", width, height, pitch, bpp, form, address) + silent * more)


def other(kind=7, size=16):
    return attribute(kind, JUNK * (size - 8))


def header(kind, size):
    """A type and a size with nothing after them, whatever the size says."""
    return struct.pack("<II", kind, size)


def context(*attributes, version=(1, 0), reserved=0, count=None):
    return struct.pack("<BBHI", *version, reserved, len(attributes) if count is None else count) + b"".join(attributes)


def both(*attributes, **head):
    """A context with a platform (at 8) and a kernel (at 96) before the rest (from 432)."""
    return context(platform(), kernel(), *attributes, **head)


# ---- Lines that listings share ----

# Of platform() and kernel() as they are without arguments.
PLATFORM = (
    "platform=2", "loader=1.4", "name=frost", "rsdp=917504", "half=18446603336221196288", "depth=4", "dtb=0", "smbios=0")
KERNEL = ("kernel=2097152,18446744071564165120,65536", "partition=2,0,1", "path=/boot/k")

# ---- The samples ----

# shows: one sentence. boundary: the boundary of the customer's file or the refusal number that the sample stands for.
Sample = namedtuple("Sample", "name shows boundary data listing")
SAMPLES = []


def sample(name, shows, boundary, data, *listing):
    SAMPLES.append(Sample(name, shows, boundary, data, listing))


sample(
    "listing", "The context of document 01's listing, 480 bytes; its last attribute ends with the file.", "none; beside 7 OVERRUN",
    both(memory_map((1 << 20, 1 << 20, 1)), command_line()),
    "version=1.0",
    "attributes=4",
    "platform=2",
    "loader=1.4",
    "name=frost",
    "rsdp=917504",
    "half=18446603336221196288",
    "depth=4",
    "dtb=0",
    "smbios=0",
    "kernel=2097152,18446744071564165120,65536",
    "partition=2,0,1",
    "path=/boot/k",
    "map=1",
    "range=1048576,1048576,1",
    "cmdline=quiet",
    "used=480",
)

sample(
    "every_type", "Every type, not in ascending order, with larger sizes, junk in the silent bytes and 61 bytes past the used length.",
    "none",
    context(
        platform(1, (65535, 10), b"\x01\x1f $%&~\x7f", TOP - 1, 0, 255, TOP - 2, 1, size=96, silent=JUNK),
        kernel(partition=3, guids=DISK_GUID + PARTITION_GUID, disk=0xFFFFFFFF, index=7, path=b"/k=1,\n%\x80\xff", more=8, silent=JUNK),
        framebuffer(1024, 768, 4096, 32, 3, more=8, silent=JUNK),
        other(7, 16),
        other(7, 8),
        module(1, b"probe%calibration", more=8, silent=JUNK),
        module(2, b"", 0, 0, silent=JUNK),
        module(2, b"\ttab\x7f ", TOP - PAGE, PAGE, silent=JUNK),
        command_line(b"log=1 room=7%\x1b\x7f", 32, JUNK),
        memory_map((0, 4096, 2), (4096, 0, 1), (65536, TOP - 65536, 1 << 32)),
        other(0xFFFFFFFF, 24),
        version=(2, 15), reserved=0xA5A5,
    ) + framebuffer() + JUNK * 29,
    "version=2.15",
    "attributes=11",
    "platform=1",
    "loader=65535.10",
    "name=%01%1F $%25&~%7F",
    "rsdp=18446744073709551615",
    "half=0",
    "depth=255",
    "dtb=18446744073709551614",
    "smbios=1",
    "kernel=2097152,18446744071564165120,65536",
    "partition=3,4294967295,7",
    "guids=A0A1A2A3A4A5A6A7A8A9AAABACADAEAFF0E1D2C3B4A5968778695A4B3C2D1E0F",
    "path=/k=1,%0A%25%80%FF",
    "fb=1024,768,4096,32,3,4244635648",
    "other=7,16",
    "other=7,8",
    "module=1,65536,6144",
    "modname=probe%25calibration",
    "module=2,0,0",
    "modname=",
    "module=2,18446744073709547520,4096",
    "modname=%09tab%7F ",
    "cmdline=log=1 room=7%25%1B%7F",
    "map=3",
    "range=0,4096,2",
    "range=4096,0,1",
    "range=65536,18446744073709486080,4294967296",
    "other=4294967295,24",
    "used=952",
)

# The path: `/`, then every other byte. The command line: every byte that it may hold.
sample(
    "every_byte_of_a_text", "A name of 31 bytes, a path of 255 and a command line of 127: each the most that its field takes.",
    "end of a text: passes",
    context(
        platform(name=bytes(range(1, 32))),
        kernel(path=b"/" + bytes(range(1, 47)) + bytes(range(48, 256))),
        command_line(bytes(range(1, 128)), 128),
    ),
    "version=1.0",
    "attributes=3",
    "platform=2",
    "loader=1.4",
    "name=%01%02%03%04%05%06%07%08%09%0A%0B%0C%0D%0E%0F%10%11%12%13%14%15%16%17%18%19%1A%1B%1C%1D%1E%1F",
    "rsdp=917504",
    "half=18446603336221196288",
    "depth=4",
    "dtb=0",
    "smbios=0",
    "kernel=2097152,18446744071564165120,65536",
    "partition=2,0,1",
    "path=/"
    "%01%02%03%04%05%06%07%08%09%0A%0B%0C%0D%0E%0F%10%11%12%13%14%15%16%17%18%19%1A%1B%1C%1D%1E%1F"
    " !\"#$%25&'()*+,-.0123456789:;<=>?"
    "@ABCDEFGHIJKLMNOPQRSTUVWXYZ[\\]^_"
    "`abcdefghijklmnopqrstuvwxyz{|}~%7F"
    "%80%81%82%83%84%85%86%87%88%89%8A%8B%8C%8D%8E%8F%90%91%92%93%94%95%96%97%98%99%9A%9B%9C%9D%9E%9F"
    "%A0%A1%A2%A3%A4%A5%A6%A7%A8%A9%AA%AB%AC%AD%AE%AF%B0%B1%B2%B3%B4%B5%B6%B7%B8%B9%BA%BB%BC%BD%BE%BF"
    "%C0%C1%C2%C3%C4%C5%C6%C7%C8%C9%CA%CB%CC%CD%CE%CF%D0%D1%D2%D3%D4%D5%D6%D7%D8%D9%DA%DB%DC%DD%DE%DF"
    "%E0%E1%E2%E3%E4%E5%E6%E7%E8%E9%EA%EB%EC%ED%EE%EF%F0%F1%F2%F3%F4%F5%F6%F7%F8%F9%FA%FB%FC%FD%FE%FF",
    "cmdline="
    "%01%02%03%04%05%06%07%08%09%0A%0B%0C%0D%0E%0F%10%11%12%13%14%15%16%17%18%19%1A%1B%1C%1D%1E%1F"
    " !\"#$%25&'()*+,-./0123456789:;<=>?"
    "@ABCDEFGHIJKLMNOPQRSTUVWXYZ[\\]^_"
    "`abcdefghijklmnopqrstuvwxyz{|}~%7F",
    "used=568",
)

sample(
    "empty_map_and_texts", "A map without entries, an empty name, module name and command line, and a path of `/` alone.", "none",
    context(platform(name=b""), kernel(path=b"/"), memory_map(), module(name=b""), command_line(b"")),
    "version=1.0",
    "attributes=5",
    "platform=2",
    "loader=1.4",
    "name=",
    "rsdp=917504",
    "half=18446603336221196288",
    "depth=4",
    "dtb=0",
    "smbios=0",
    "kernel=2097152,18446744071564165120,65536",
    "partition=2,0,1",
    "path=/",
    "map=0",
    "module=1,65536,6144",
    "modname=",
    "cmdline=",
    "used=552",
)

sample(
    "partition_type_of_33_bits", "A partition type of 2^32 + 3, which is not 3, so that the GUIDs are not listed.", "none",
    context(platform(), kernel(partition=(1 << 32) + 3, guids=DISK_GUID + PARTITION_GUID)),
    "version=1.0",
    "attributes=2",
    *PLATFORM,
    "kernel=2097152,18446744071564165120,65536",
    "partition=4294967299,0,1",
    "path=/boot/k",
    "used=432",
)

# What an export takes and leaves behind: of a map type only the whole 64 bits, and neither framebuffer, tree nor the vendor's bytes.
sample(
    "map_of_every_tag",
    "A map with each type that an export tells apart (R-6), after two modules and a vendor's attribute; an rsdp of 0.",
    "none",
    context(
        platform(rsdp=0, dtb=0x60000, smbios=0xF0000),
        kernel(physical=0x400000),
        command_line(b"", silent=JUNK),
        framebuffer(),
        module(1, b"initrd", 0x220000, 6144, more=8, silent=JUNK),
        module(2, b"", 0x222000, 8192, silent=JUNK),
        other(0x10000, 24),
        memory_map(
            (0, 0x9000, 1), (0x9000, 0x7000, 2), (0x1F0000, 0x20000, 0xFFFF0001), (0x220000, 0x4000, 0xFFFF0002), (0x224000, 0, 1),
            (0x224000, 0x8000, 0xFFFF0003), (0x400000, 0x10000, 0xFFFF0004), (0x410000, 0x2000, (1 << 32) + 1)),
    ),
    "version=1.0",
    "attributes=8",
    "platform=2",
    "loader=1.4",
    "name=frost",
    "rsdp=0",
    "half=18446603336221196288",
    "depth=4",
    "dtb=393216",
    "smbios=983040",
    "kernel=4194304,18446744071564165120,65536",
    "partition=2,0,1",
    "path=/boot/k",
    "cmdline=",
    "fb=640,480,1920,24,1,4244635648",
    "module=1,2228224,6144",
    "modname=initrd",
    "module=2,2236416,8192",
    "modname=",
    "other=65536,24",
    "map=8",
    "range=0,36864,1",
    "range=36864,28672,2",
    "range=2031616,131072,4294901761",
    "range=2228224,16384,4294901762",
    "range=2244608,0,1",
    "range=2244608,32768,4294901763",
    "range=4194304,65536,4294901764",
    "range=4259840,8192,4294967297",
    "used=904",
)

# Short platforms. The bytes after each are the kernel's, which a reader of absent members would list.

sample(
    "platform_of_48_bytes", "A platform of 48 bytes, which ends before its rsdp.", "12 FORM",
    context(platform(size=48), kernel()),
    "refused=12,8",
)

sample(
    "short_platform", "A platform of 56 bytes, the least, without its late members; two attributes, the least.",
    "none; beside 4 MISSING and 12 FORM",
    context(platform(size=56), kernel()),
    "version=1.0",
    "attributes=2",
    "platform=2",
    "loader=1.4",
    "name=frost",
    "rsdp=917504",
    "half=-",
    "depth=-",
    "dtb=-",
    "smbios=-",
    *KERNEL,
    "used=400",
)

sample(
    "short_platform_64", "A platform of 64 bytes, with the higher half base.", "none",
    context(platform(size=64), kernel()),
    "version=1.0",
    "attributes=2",
    "platform=2",
    "loader=1.4",
    "name=frost",
    "rsdp=917504",
    "half=18446603336221196288",
    "depth=-",
    "dtb=-",
    "smbios=-",
    *KERNEL,
    "used=408",
)

sample(
    "short_platform_72", "A platform of 72 bytes, with the depth too.", "none",
    context(platform(size=72), kernel()),
    "version=1.0",
    "attributes=2",
    "platform=2",
    "loader=1.4",
    "name=frost",
    "rsdp=917504",
    "half=18446603336221196288",
    "depth=4",
    "dtb=-",
    "smbios=-",
    *KERNEL,
    "used=416",
)

sample(
    "short_platform_80", "A platform of 80 bytes, with the dtb too.", "none",
    context(platform(size=80), kernel()),
    "version=1.0",
    "attributes=2",
    "platform=2",
    "loader=1.4",
    "name=frost",
    "rsdp=917504",
    "half=18446603336221196288",
    "depth=4",
    "dtb=0",
    "smbios=-",
    *KERNEL,
    "used=424",
)

# The boundaries of the customer's file, each from both sides.

sample(
    "size_of_zero", "A third attribute of size 0, at which a walk would stay.", "end of an attribute: 6 SIZE",
    both(header(7, 0), command_line()),
    "refused=6,432",
)

sample(
    "size_of_eight", "The same with size 8, the least.", "end of an attribute: passes",
    both(header(7, 8), command_line()),
    "version=1.0",
    "attributes=4",
    *PLATFORM,
    *KERNEL,
    "other=7,8",
    "cmdline=quiet",
    "used=456",
)

sample(
    "attribute_end_that_wraps", "A size of 2^32 - 8, whose end looks small in 32 bits.", "end of an attribute: 7 OVERRUN",
    both(header(7, (1 << 32) - 8)),
    "refused=7,432",
)

sample(
    "range_one_page_too_long", "A free range that reaches one page into the reserved range after it.", "seam of two ranges: 16 ORDER",
    both(memory_map((0x400000, 0x101000, 1), (0x500000, PAGE, 2))),
    "refused=16,432",
)

sample(
    "range_that_touches", "The same, with the free range ending where the reserved one starts.", "seam of two ranges: passes",
    both(memory_map((0x400000, 0x100000, 1), (0x500000, PAGE, 2))),
    "version=1.0",
    "attributes=3",
    *PLATFORM,
    *KERNEL,
    "map=2",
    "range=4194304,1048576,1",
    "range=5242880,4096,2",
    "used=488",
)

# After the name stands the address, whose first byte is zero: it closes nothing.
sample(
    "module_name_not_closed", "A module name of 64 bytes, without its closing zero.", "end of a text: 14 TEXT",
    both(module(name=b"0123456789012345678901234567890123456789012345678901234567890123")),
    "refused=14,432",
)

sample(
    "module_name_of_63_bytes", "A module name of 63 bytes and its closing zero.", "end of a text: passes",
    both(module(name=b"012345678901234567890123456789012345678901234567890123456789012")),
    "version=1.0",
    "attributes=3",
    *PLATFORM,
    *KERNEL,
    "module=1,65536,6144",
    "modname=012345678901234567890123456789012345678901234567890123456789012",
    "used=528",
)

sample(
    "platform_name_not_closed", "A platform name of 32 bytes, without its closing zero.", "end of a text: 14 TEXT",
    context(platform(name=b"01234567890123456789012345678901"), kernel()),
    "refused=14,8",
)

sample(
    "path_not_closed", "A path of 256 bytes, without its closing zero.", "end of a text: 14 TEXT",
    context(platform(), kernel(path=b"/" + b"k" * 255)),
    "refused=14,96",
)

# The next attribute's type has zero bytes, which close nothing.
sample(
    "command_line_not_closed", "A command line that fills its attribute, without its closing zero.", "end of a text: 14 TEXT",
    both(attribute(5, b"12345678"), other(7, 8)),
    "refused=14,432",
)

sample(
    "command_line_of_7_bytes", "The same with one byte less and its closing zero.", "end of a text: passes",
    both(attribute(5, b"1234567\0"), other(7, 8)),
    "version=1.0",
    "attributes=4",
    *PLATFORM,
    *KERNEL,
    "cmdline=1234567",
    "other=7,8",
    "used=456",
)

sample(
    "sum_that_wraps", "A range whose address and size sum to 2^64 + 1, which wraps to 1.", "top of the address space: 15 RANGE",
    both(memory_map((TOP - PAGE, PAGE + 1, 1))),
    "refused=15,432",
)

sample(
    "range_to_the_top", "A range that ends at 2^64.", "top of the address space: passes",
    both(memory_map((TOP - PAGE, PAGE, 1))),
    "version=1.0",
    "attributes=3",
    *PLATFORM,
    *KERNEL,
    "map=1",
    "range=18446744073709547520,4096,1",
    "used=464",
)

sample(
    "kernel_sum_that_wraps", "A kernel whose virtual base and size sum to one page above 2^64.", "top of the address space: 15 RANGE",
    context(platform(), kernel(virtual=TOP - PAGE, length=2 * PAGE)),
    "refused=15,96",
)

sample(
    "kernel_to_the_top", "A kernel that ends at 2^64 by both its bases.", "top of the address space: passes",
    context(platform(), kernel(TOP - PAGE, TOP - PAGE, PAGE)),
    "version=1.0",
    "attributes=2",
    *PLATFORM,
    "kernel=18446744073709547520,18446744073709547520,4096",
    "partition=2,0,1",
    "path=/boot/k",
    "used=432",
)

# pitch x height is 2^32, which a product in 32 bits takes for 0.
sample(
    "framebuffer_sum_that_wraps", "A framebuffer whose address and pitch × height sum to 2^64 + 1.", "top of the address space: 15 RANGE",
    both(framebuffer(16384, 65536, 65536, 32, 4, TOP - (1 << 32) + 1)),
    "refused=15,432",
)

sample(
    "framebuffer_to_the_top", "The same, ending at 2^64.", "top of the address space: passes",
    both(framebuffer(16384, 65536, 65536, 32, 4, TOP - (1 << 32))),
    "version=1.0",
    "attributes=3",
    *PLATFORM,
    *KERNEL,
    "fb=16384,65536,65536,32,4,18446744069414584320",
    "used=464",
)

# The refusal numbers, in order, and what passes beside them.

sample(
    "refused_01_short", "Seven bytes.", "1 SHORT",
    b"\1\0\0\0\2\0\0",
    "refused=1,0",
)

sample(
    "empty_file", "No byte at all.", "1 SHORT",
    b"",
    "refused=1,0",
)

sample(
    "head_alone", "Eight bytes, a head that counts two attributes: not SHORT.", "5 HEADER; beside 1 SHORT",
    context(count=2),
    "refused=5,8",
)

sample(
    "refused_02_version", "A major of 0, with a count of 1,025 which is tried later.", "2 VERSION",
    both(version=(0, 9), count=1025),
    "refused=2,0",
)

sample(
    "refused_03_count", "A count of 1,025.", "3 COUNT",
    both(count=1025),
    "refused=3,0",
)

sample(
    "count_of_1024", "A count of 1,024 with two attributes: not COUNT.", "5 HEADER; beside 3 COUNT",
    both(count=1024),
    "refused=5,432",
)

sample(
    "refused_04_missing", "A platform alone.", "4 MISSING",
    context(platform()),
    "refused=4,0",
)

sample(
    "refused_05_header", "A count of three where the file ends with the second attribute.", "5 HEADER",
    both(count=3),
    "refused=5,432",
)

sample(
    "refused_05_header_of_7_bytes", "A third attribute of which the file has seven bytes.", "5 HEADER",
    both(header(7, 8)[:7], count=3),
    "refused=5,432",
)

sample(
    "refused_06_size", "A size of 12, no multiple of 8.", "6 SIZE",
    both(header(7, 12) + bytes(8)),
    "refused=6,432",
)

sample(
    "refused_07_overrun", "A last attribute of size 16, of which the file has 15 bytes.", "7 OVERRUN",
    both(other(7, 16)[:15]),
    "refused=7,432",
)

sample(
    "refused_08_type", "An attribute of type 0.", "8 TYPE",
    both(other(0)),
    "refused=8,432",
)

sample(
    "refused_09_place", "A kernel before the platform.", "9 PLACE",
    context(kernel(), platform()),
    "refused=9,8",
)

sample(
    "refused_09_place_second", "A map as second attribute.", "9 PLACE",
    context(platform(), memory_map(), kernel()),
    "refused=9,96",
)

sample(
    "refused_09_place_later", "A second kernel as third attribute.", "9 PLACE",
    both(kernel()),
    "refused=9,432",
)

sample(
    "refused_10_repeat", "A second map, after a command line.", "10 REPEAT",
    both(memory_map((0, PAGE, 1)), command_line(), memory_map((PAGE, PAGE, 1))),
    "refused=10,480",
)

sample(
    "refused_11_split", "Types 7, 8, 7.", "11 SPLIT",
    both(other(7), other(8), other(7)),
    "refused=11,464",
)

sample(
    "types_together", "Types 7, 7, 8.", "passes; beside 11 SPLIT",
    both(other(7), other(7), other(8)),
    "version=1.0",
    "attributes=5",
    *PLATFORM,
    *KERNEL,
    "other=7,16",
    "other=7,16",
    "other=8,16",
    "used=480",
)

sample(
    "refused_11_split_modules", "Two modules with a command line between them.", "11 SPLIT",
    both(module(), command_line(), module()),
    "refused=11,544",
)

sample(
    "refused_12_form", "A map of 40 bytes: one entry and a third of another.", "12 FORM",
    both(memory_map((0, PAGE, 1), more=bytes(8))),
    "refused=12,432",
)

sample(
    "refused_13_value", "A map entry of type 0.", "13 VALUE",
    both(memory_map((1 << 20, 1 << 20, 0))),
    "refused=13,432",
)

sample(
    "map_type_of_33_bits", "A map entry of type 2^32, whose low 32 bits are 0.", "passes; beside 13 VALUE",
    both(memory_map((1 << 20, 1 << 20, 1 << 32))),
    "version=1.0",
    "attributes=3",
    *PLATFORM,
    *KERNEL,
    "map=1",
    "range=1048576,1048576,4294967296",
    "used=464",
)

sample(
    "pitch_one_byte_short", "A framebuffer whose pitch is one byte less than its width takes.", "13 VALUE",
    both(framebuffer(pitch=1919)),
    "refused=13,432",
)

sample(
    "pitch_that_fits", "The same with the pitch that its width takes.", "passes; beside 13 VALUE",
    both(framebuffer(pitch=1920)),
    "version=1.0",
    "attributes=3",
    *PLATFORM,
    *KERNEL,
    "fb=640,480,1920,24,1,4244635648",
    "used=464",
)

sample(
    "refused_14_text", "A path that does not begin with `/`.", "14 TEXT",
    context(platform(), kernel(path=b"boot/k")),
    "refused=14,96",
)

sample(
    "refused_14_text_byte_128", "A platform name that holds a byte of 128.", "14 TEXT",
    context(platform(name=b"frost\x80"), kernel()),
    "refused=14,8",
)

sample(
    "refused_15_range", "A module whose address and size sum to 2^64 + 1.", "15 RANGE",
    both(module(address=TOP - PAGE, size=PAGE + 1)),
    "refused=15,432",
)

sample(
    "module_to_the_top", "The same, ending at 2^64.", "passes; beside 15 RANGE",
    both(module(address=TOP - PAGE, size=PAGE)),
    "version=1.0",
    "attributes=3",
    *PLATFORM,
    *KERNEL,
    "module=1,18446744073709547520,4096",
    "modname=probe",
    "used=528",
)

sample(
    "module_of_4097_bytes", "A module of 4,097 bytes at 8,192, which holds two pages (R-4); it is listed with its plain size.", "none",
    both(module(address=2 * PAGE, size=PAGE + 1)),
    "version=1.0",
    "attributes=3",
    *PLATFORM,
    *KERNEL,
    "module=1,8192,4097",
    "modname=probe",
    "used=528",
)

sample(
    "refused_16_order", "An entry of size 0 after one that ends at 2^64, a sum that wraps to 0.", "16 ORDER",
    both(memory_map((TOP - PAGE, PAGE, 1), (TOP - 1, 0, 1))),
    "refused=16,432",
)

# Which refusal is given where two could be.

sample(
    "attribute_before_number", "A map out of order, and no byte left for the attribute after it: the earlier attribute's refusal.",
    "16 ORDER before 5 HEADER",
    both(memory_map((0, PAGE + 1, 1), (PAGE, 1, 1)), count=4),
    "refused=16,432",
)

sample(
    "value_before_order", "A map out of order whose last entry has type 0: the lower number.", "13 VALUE before 16 ORDER",
    both(memory_map((0, PAGE + 1, 1), (PAGE, 1, 0))),
    "refused=13,432",
)

# ---- Writing and checking ----

# Samples with bytes past the used length, and how many.
PAST_USED = {"every_type": 61}


def faults_of(one):
    """What is wrong with a sample in itself: its size, or a last line that its length does not bear out."""
    if len(one.data) >= LARGEST:
        yield f"{one.name}: {len(one.data)} bytes"
    key, _, value = one.listing[-1].partition("=")
    if key == "refused" and len(one.listing) != 1:
        yield f"{one.name}: lines besides the refusal"
    if key != "refused" and (key, value) != ("used", str(len(one.data) - PAST_USED.get(one.name, 0))):
        yield f"{one.name}: {len(one.data)} bytes, but {one.listing[-1]}"


def faults():
    """What is wrong with the samples in themselves."""
    names = [one.name for one in SAMPLES]
    yield from (f"{name}: named twice" for name in sorted(set(names)) if names.count(name) > 1)
    for one in SAMPLES:
        yield from faults_of(one)
    if len(SAMPLES[names.index("listing")].data) != 480:
        yield "listing: not of 480 bytes"
    shown = {one.listing[0].split(",")[0] for one in SAMPLES}
    yield from (f"no sample shows refusal {number}" for number in range(1, 17) if f"refused={number}" not in shown)


def files():
    made = {}
    for one in SAMPLES:
        made[one.name + ".bin"] = one.data
        made[one.name + ".txt"] = "".join(line + "\n" for line in one.listing).encode("ascii")
    return made


def table():
    rows = ["| sample | what it shows | boundary or refusal | first line |", "|---|---|---|---|"]
    rows += [f"| `{one.name}` | {one.shows} | {one.boundary} | `{one.listing[0]}` |" for one in SAMPLES]
    return "".join(row + "\n" for row in rows)


def write(folder):
    os.makedirs(folder, exist_ok=True)
    for name, data in files().items():
        with open(os.path.join(folder, name), "wb") as out:
            out.write(data)
    print(f"make_samples: {len(SAMPLES)} samples written to {folder}")
    return 0


def read(path):
    """The bytes of a file; None for what is no file."""
    if not os.path.isfile(path):
        return None
    with open(path, "rb") as data:
        return data.read()


def check(folder):
    made = files()
    names = set(os.listdir(folder)) - OTHERS
    wrong = sorted(name for name in names | set(made) if name not in made or read(os.path.join(folder, name)) != made[name])
    if table().encode() not in (read(os.path.join(folder, "README.md")) or b""):
        wrong.append("the table in README.md")
    print(f"make_samples: {len(SAMPLES)} samples, {len(wrong)} files not as made", *wrong)
    return 1 if wrong else 0


def main(arguments):
    broken = list(faults())
    if broken:
        print(*broken, sep="\n", file=sys.stderr)
        return 1
    if arguments == ["--table"]:
        print(table(), end="")
        return 0
    if len(arguments) == 2 and arguments[0] == "--check":
        return check(arguments[1])
    if len(arguments) == 1 and not arguments[0].startswith("-"):
        return write(arguments[0])
    print(__doc__, file=sys.stderr)
    return 2


if __name__ == "__main__":
    sys.exit(main(sys.argv[1:]))
