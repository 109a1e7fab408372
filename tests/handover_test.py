#!/usr/bin/env python3
"""Tests handover.py on the page itself with one fault at a time: each is told."""

import pathlib
import sys
import unittest

sys.dont_write_bytecode = True

import handover

ROOT = pathlib.Path(__file__).resolve().parent.parent


def text(path):
    return (ROOT / path).read_text(encoding="utf-8")


class Page(unittest.TestCase):
    def setUp(self):
        self.page, self.sample = text(handover.PAGE), (ROOT / handover.SAMPLE).read_bytes()

    def changed(self, old, new):
        self.assertEqual(self.page.count(old), 1, old)
        return self.page.replace(old, new)

    def test_as_it_is(self):
        self.assertEqual(handover.problems(ROOT), [])

    def test_bytes(self):
        told = list(handover.byte_problems(self.changed("| 149 | 64 00 |", "| 149 | 65 00 |"), self.sample))
        self.assertEqual(told, ["bytes at 149: expected 64 00 at 149"])
        self.assertEqual(len(list(handover.byte_problems(self.page, self.sample + b"\0"))), 1)

    def test_tags(self):
        script, lib = text(handover.SCRIPT), text(handover.LIB)
        told = list(handover.tag_problems(self.changed("| RSDP | 0x8ef29c18 |", "| RSDP | 0x8ef29c19 |"), script, lib))
        self.assertEqual(told, ["RSDP: expected 0x8ef29c18, as samples/payloads/make_payloads.py has", "RSDP: 0x8ef29c19 is 2398264345"])
        told = list(handover.tag_problems(self.page, script, lib.replace("3418582331", "3418582332")))
        self.assertEqual(told, ["FILE: expected 3418582332, as crates/handover_format/src/lib.rt has"])

    def test_a_record(self):
        told = list(handover.record_problems(self.changed("| 28 | 4 | meta |", "| 24 | 4 | meta |"), text(handover.RECORD)))
        self.assertEqual(len(told), 1)


if __name__ == "__main__":
    unittest.main()
