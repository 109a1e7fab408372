#!/usr/bin/env python3
"""Tests format.py: on the page as it is, and on pages, headers, code and samples with one thing wrong."""

import os
import sys
import unittest

sys.dont_write_bytecode = True

import format as checker

ROOT = os.path.dirname(os.path.dirname(os.path.abspath(__file__)))
PAGE = checker.read(ROOT, "docs/FORMAT.md")
SOURCES = checker.load(ROOT)
RSDP = "0038   56  +48   00 00 0e 00 00 00 00 00  platform rsdp              917504                0xe0000\n"


def edited(text, old, new):
    """The text with one place changed."""
    if text.count(old) != 1 or old == new:
        raise ValueError(f"{old!r} is there {text.count(old)} times")
    return text.replace(old, new)


class Case(unittest.TestCase):
    def refused(self, expected, page=PAGE, sources=SOURCES):
        problems = checker.problems_of(page, sources)
        self.assertTrue(any(expected in problem for problem in problems), problems)

    def wrong(self, expected, old, new):
        self.refused(expected, edited(PAGE, old, new))


class Rows(Case):
    def row(self, old, new):
        self.wrong("annotated ", RSDP, edited(RSDP, old, new))

    def test_the_page(self):
        self.assertEqual(checker.problems_of(PAGE, SOURCES), [])
        rows = [row for block in checker.blocks_of(PAGE) for row in block.rows]
        self.assertEqual(b"".join(row.bytes for row in rows), SOURCES.sample)
        self.assertEqual(len(SOURCES.sample), 480)

    def test_a_row(self):
        self.row("00 00 0e", "00 00 0f")
        self.row("917504  ", "917505  ")
        self.row("0038", "0039")
        self.row("  56", "  57")
        self.row("+48", "+47")
        self.row("platform rsdp", "platform dtb ")
        self.row("917504", "silent")
        self.wrong("annotated ", RSDP, "")
        self.wrong("annotated ", RSDP, RSDP + RSDP)
        self.wrong("annotated ", '"frost"', '"frosT"')
        self.wrong("annotated ", "00 x 26  ", "00 x 25  ")
        self.wrong("annotated ", "00 x 248", "01 x 248")
        self.wrong("annotated ", "zero                  closes the text\n001e", "silent\n001e")

    def test_the_last_row(self):
        last = PAGE.index("01de  478")
        self.refused("annotated None", PAGE[:last] + PAGE[PAGE.index("\n", last) + 1:])

    def test_a_remark(self):
        self.wrong("0038: 0xe0001 is not 917504", "0xe0000", "0xe0001")
        self.wrong("ULTRA_PLATFORM_BIOS is not 2", "ULTRA_PLATFORM_UEFI", "ULTRA_PLATFORM_BIOS")
        self.wrong("ULTRA_NONE is not 2", "ULTRA_PLATFORM_UEFI", "ULTRA_NONE")
        self.wrong("2 entries is not 32", "one entry", "2 entries")

    def test_a_heading(self):
        self.wrong("annotated (96, 430, 'kernel')", "Bytes 96 to 431", "Bytes 96 to 430")
        self.wrong("annotated (432, 463, 'module')", "to 463: map", "to 463: module")

    def test_every_byte_of_the_sample(self):
        layout, types = checker.layout_of(checker.tables_of(PAGE)), {1: "platform", 2: "kernel", 3: "map", 5: "command line"}
        blocks = checker.blocks_of(PAGE)
        for at in range(-1, len(SOURCES.sample)):
            changed = SOURCES._replace(sample=bytes(byte ^ (i == at) for i, byte in enumerate(SOURCES.sample)))
            problems = checker.annotation_problems(blocks, checker.sample_blocks(layout, types, changed.sample), changed)
            self.assertEqual(problems == [], at < 0, at)


class Tables(Case):
    def test_offsets(self):
        self.wrong("platform rsdp is at 47, in the header at 48", "| 48 | 8 | u64 | rsdp", "| 47 | 8 | u64 | rsdp")
        self.wrong("platform rsdp is at 47, in the code at 48", "| 48 | 8 | u64 | rsdp", "| 47 | 8 | u64 | rsdp")
        self.wrong("head reserved is at 3, what is before it ends at 2", "| 2 | 2 | silent", "| 3 | 2 | silent")
        self.wrong("module name is at 16, what is before it ends at 15", "| 12 | 4 | u32 | type", "| 12 | 3 | u32 | type")
        self.wrong("framebuffer bpp is u16, of 4 bytes", "| 20 | 2 | u16 | bpp", "| 20 | 4 | u16 | bpp")
        self.wrong("framebuffer height is at None, in the header at 12", "| 12 | 4 | u32 | height | see address | 15 |\n", "")

    def test_the_header_and_the_code(self):
        header = edited(SOURCES.header, "ULTRA_MODULE_SIZE_OFFSET    88", "ULTRA_MODULE_SIZE_OFFSET    80")
        self.refused("module size is at 88, in the header at 80", sources=SOURCES._replace(header=header))
        kernel = edited(SOURCES.code["kernel"], "PATH: usize = 80", "PATH: usize = 88")
        self.refused("kernel path is at 80, in the code at 88", sources=SOURCES._replace(code={**SOURCES.code, "kernel": kernel}))
        self.refused("module size is at 88, in the code at None", sources=SOURCES._replace(code={**SOURCES.code, "module": ""}))

    def test_sizes(self):
        self.wrong("platform: the least size is not 48", "| platform | 56 |", "| platform | 48 |")
        self.wrong("platform: the size written is not 80", "| 56 | 88 |", "| 56 | 80 |")
        self.wrong("kernel: the members end at 344", "| 336 | rest |", "| 344 | rest |")
        self.refused("map is not of type 4", edited(edited(PAGE, "| 3 | map |", "| 4 | map |"), "| 4 | module |", "| 3 | module |"))
        self.wrong("the types are ", "| 6 | framebuffer |", "| 7 | framebuffer |")
        self.wrong("no table has the members of ['module']", "### Module", "### Modules")

    def test_rules_and_names(self):
        self.wrong("`refused_03_count` is refused as 3", "3 COUNT", "4 MISSING")
        self.wrong("the rules have", "8 TYPE", "7 OVERRUN")
        self.wrong("or that is not its name", "16 ORDER", "16 RANGE")
        self.wrong("`cases_reading: module at 4096` is refused as None", "module at 2048", "module at 4096")
        self.wrong("no definition Members.bits_suit", "`Members.framebuffer_values`", "`Members.bits_suit`")
        self.wrong("no definition Ranges.page_aligned", "crates/address_ranges/specs", "crates/ranges/specs")
        self.wrong("no function ultra_map::one_pass::settled", "`ultra_map::one_pass::is_settled`", "`ultra_map::one_pass::settled`")
        self.wrong("no reads_all in crates/ultra_acceptance/proofs/Acceptance.antt", "`reads_exactly`", "`reads_all`")


if __name__ == "__main__":
    unittest.main()
