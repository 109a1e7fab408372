#!/usr/bin/env python3
"""Tests export_samples.py: a program that does one thing else is told. A table of what it should print stands in for the program."""

import contextlib
import io
import os
import shutil
import sys
import tempfile
import unittest
from unittest import mock

sys.dont_write_bytecode = True

import export_samples
import samples
from export_samples import LOAD, OTHER_LOAD, Told, loaded_at

SAMPLES = os.path.join(os.path.dirname(os.path.abspath(__file__)), "..", "samples")
USAGE = Told(b"", b"usage: export_context LOAD_ADDRESS\n", 0)
# A context and its payload, of which nothing but the place of the load address counts.
CONTEXT, MADE = b"context", b"head and tag......" + b"flags." + LOAD.to_bytes(8, "little") + b"and the rest"


def sample(*names):
    return samples.read(os.path.join(SAMPLES, *names) + ".bin")


def refused(line):
    return Told(b"", line.encode() + b"\n", 0)


def told_by(wanted):
    return refused(wanted) if isinstance(wanted, str) else Told(wanted, b"", 0)


def one_payload():
    return {(str(LOAD), CONTEXT): Told(MADE, b"", 0), (str(OTHER_LOAD), CONTEXT): Told(loaded_at(MADE, OTHER_LOAD), b"", 0)}


def all_samples():
    """What a program prints of every sample."""
    table = {}
    for name in samples.names_of(os.path.join(SAMPLES, "exports"), ".bin"):
        made = sample("exports", name)
        table[str(LOAD), sample(name)] = Told(made, b"", 0)
        table[str(OTHER_LOAD), sample(name)] = Told(loaded_at(made, OTHER_LOAD), b"", 0)
    for name, line in export_samples.refusals(SAMPLES):
        table[str(LOAD), sample(name)] = refused(line)
    return table


def program(table):
    """An export that prints what a table has of an address and a context, and else how it is used."""
    return lambda arguments, data, in_pieces: table.get((*arguments, data), USAGE)


class Payloads(unittest.TestCase):
    def found(self, change=None, at=LOAD):
        table = one_payload()
        table[str(at), CONTEXT] = (change or (lambda told: told))(table[str(at), CONTEXT])
        return export_samples.payload_problems(program(table), "it", CONTEXT, MADE)

    def test_the_payload(self):
        self.assertEqual(self.found(), [])

    def test_every_wrong_byte(self):
        for at, byte in enumerate(MADE):
            changed = MADE[:at] + bytes([byte ^ 1]) + MADE[at + 1:]
            found = self.found(lambda told: told._replace(out=changed))
            self.assertEqual(len(found), 2)
            self.assertIn(f"it: standard output has {len(MADE)} bytes, expected {len(MADE)}; at {at} `{changed[at]:02x}", found[0])
            self.assertIn("it, in two pieces: ", found[1])

    def test_a_byte_too_few_or_too_many(self):
        self.assertTrue(self.found(lambda told: told._replace(out=MADE[:-1])))
        self.assertTrue(self.found(lambda told: told._replace(out=MADE + b"\0")))
        self.assertTrue(self.found(lambda told: told._replace(out=b"")))

    def test_more_than_the_payload(self):
        self.assertEqual(self.found(lambda told: told._replace(err=b"made\n"))[0], "it: standard error has b'made\\n', expected b''")
        self.assertEqual(self.found(lambda told: told._replace(status=1))[0], "it: exit status 1")
        self.assertEqual(self.found(lambda told: told._replace(status=None))[0], "it: exit status None")

    def test_a_load_address_that_does_not_show(self):
        self.assertEqual(len(self.found(lambda told: told._replace(out=MADE), OTHER_LOAD)), 1)

    def test_a_load_address_that_shows_elsewhere(self):
        self.assertEqual(len(self.found(lambda told: told._replace(out=told.out[:-8] + told.out[24:32]), OTHER_LOAD)), 1)

    def test_a_context_that_is_cut_short_in_pieces(self):
        def export(arguments, data, in_pieces):
            return refused("refused=5,8") if in_pieces else one_payload()[arguments[0], data]

        found = export_samples.payload_problems(export, "it", CONTEXT, MADE)
        self.assertEqual([problem.partition(":")[0] for problem in found], ["it, in two pieces"] * 2)


class Refusals(unittest.TestCase):
    def found(self, told):
        return export_samples.problems_of(program({(str(LOAD), CONTEXT): told}), "it", CONTEXT, LOAD, "refused=5,8")

    def test_the_refusal(self):
        self.assertEqual(self.found(refused("refused=5,8")), [])

    def test_another(self):
        for told in (refused("refused=5,80"), refused("refused=15,8"), Told(b"", b"", 0), Told(b"", b"refused=5,8", 0), USAGE,
                     Told(b"", b"refused=5,8\nrefused=5,8\n", 0), Told(b"refused=5,8\n", b"", 0), Told(MADE, b"refused=5,8\n", 0),
                     Told(b"\0", b"refused=5,8\n", 0), Told(b"", b"refused=5,8\n", 1), Told(b"", b"refused=5,8\n", None)):
            with self.subTest(told):
                self.assertTrue(self.found(told))


class Samples(unittest.TestCase):
    def found(self, table, answers_else=lambda exports, name: False, folder=SAMPLES):
        return export_samples.sample_problems(program(table), answers_else, folder)

    def test_all(self):
        self.assertEqual(self.found(all_samples()), [])

    def test_each(self):
        for key in all_samples():
            with self.subTest(key):
                self.assertTrue(self.found({**all_samples(), key: USAGE}))

    def test_refusals_of_reading_and_of_exporting(self):
        refusals = dict(export_samples.refusals(SAMPLES))
        self.assertEqual(refusals["size_of_zero"], "refused=6,432")
        self.assertEqual(refusals["every_type"], "refused=15,0")
        self.assertNotIn("listing", refusals)

    def test_other_lines(self):
        found = self.found(all_samples(), lambda exports, name: name == "listing" and exports.endswith("exports"))
        self.assertEqual(found, ["listing: not as its lines say"])

    def test_another_folder(self):
        with tempfile.TemporaryDirectory() as folder:
            os.mkdir(os.path.join(folder, "exports"))
            for name in export_samples.NOT_EXPORTED:
                shutil.copy(os.path.join(SAMPLES, name + ".bin"), folder)
            self.assertEqual(self.found(all_samples(), folder=folder), ["0 payloads and 1 refusals, fewer than there are"])


class Arguments(unittest.TestCase):
    def found(self, told, arguments=None):
        """Where all arguments are answered by this, or only these and the others by the line that they should be."""
        return export_samples.argument_problems(lambda given, data, in_pieces: told if arguments in (None, given) else USAGE, CONTEXT)

    def test_how_it_is_used(self):
        self.assertEqual(self.found(USAGE), [])

    def test_something_else(self):
        for told in (Told(b"", b"", 0), Told(USAGE.err, b"", 0), Told(b"\0", USAGE.err, 0), Told(b"", USAGE.err * 2, 0),
                     Told(b"", USAGE.err[:-1], 0), Told(b"", USAGE.err, 2), refused("refused=15,0"), told_by(MADE)):
            with self.subTest(told):
                self.assertTrue(self.found(told))

    def test_each(self):
        for arguments in export_samples.NO_ADDRESS:
            with self.subTest(arguments):
                self.assertTrue(self.found(told_by(MADE), arguments))

    def test_two_lines_on_how_it_is_used(self):
        found = self.found(Told(b"", b"usage: export_context NUMBER\n", 0), ["-1"])
        self.assertEqual(found, ["2 lines on how it is used, expected one for all"])


class Limits(unittest.TestCase):
    LISTING = sample("listing"), sample("exports", "listing")

    def test_each(self):
        table = {(str(load), data): told_by(wanted) for _, data, load, wanted in export_samples.limits(*self.LISTING)}
        self.assertEqual(export_samples.limit_problems(program(table), *self.LISTING), [])
        for key in table:
            found = export_samples.limit_problems(program({**table, key: USAGE}), *self.LISTING)
            self.assertEqual(len({line.partition(":")[0] for line in found}), 1)

    def test_they_are_limits(self):
        self.assertEqual(len(self.LISTING[1]), 188)
        self.assertEqual([len(export_samples.of_modules(first)[1]) for first in (38, 39)], [65536, 65537])
        self.assertEqual(export_samples.of_ranges(1021)[1][12:16], (1024).to_bytes(4, "little"))
        for made in (export_samples.of_modules(38)[1], export_samples.of_ranges(1021)[1], export_samples.of_pointer(1)[1]):
            self.assertEqual(made[8:12] + bytes(4), made[32:40], "the head's size and SELF's")
            self.assertEqual(int.from_bytes(made[8:12], "little"), len(made))
        self.assertIn(65536, [len(data) for _, data, _, _ in export_samples.limits(*self.LISTING)])


class Running(unittest.TestCase):
    """Programs that are run: scripts, for want of the one that is meant."""

    def setUp(self):
        folder = tempfile.TemporaryDirectory()
        self.addCleanup(folder.cleanup)
        self.path = os.path.join(folder.name, "program")

    def run_it(self, text, arguments, data, in_pieces=False):
        with open(self.path, "w", encoding="ascii") as file:
            file.write("#!/bin/sh\n" + text + "\n")
        os.chmod(self.path, 0o700)
        return export_samples.run(self.path, arguments, data, in_pieces)

    def test_outputs_and_status(self):
        self.assertEqual(self.run_it('cat; echo "$# $1" >&2; exit 3', ["0x10", ""], b"\0\xff"), Told(b"\0\xff", b"2 0x10\n", 3))

    def test_two_pieces(self):
        one_read = "dd bs=1000 count=1 2>/dev/null; cat >/dev/null"
        self.assertEqual([self.run_it(one_read, [], b"abcdef", in_pieces).out for in_pieces in (False, True)], [b"abcdef", b"abc"])

    def test_an_input_that_is_not_read(self):
        self.assertEqual(self.run_it("echo no >&2", [], bytes(200000)), Told(b"", b"no\n", 0))

    def test_a_program_that_does_not_end(self):
        with mock.patch.object(samples, "SECONDS", 0.1):
            self.assertEqual(self.run_it("exec sleep 60", [], b""), Told(b"", b"", None))

    def test_all_of_it(self):
        """One that always prints a usage line fails at every sample and limit, and at no argument."""
        self.run_it(f"echo '{USAGE.err.decode().strip()}' >&2", [], b"")
        with mock.patch("payload_samples.compare", return_value=False), contextlib.redirect_stdout(io.StringIO()) as printed:
            self.assertEqual(export_samples.main([self.path, "driver", SAMPLES]), 1)
        told = printed.getvalue()
        for what in ("listing", "listing, in two pieces", f"listing, for {OTHER_LOAD}", "size_of_zero", "every_type", "load address 0"):
            self.assertIn(f"export_samples: {what}: standard ", told)
        self.assertNotIn("arguments [", told)

    def test_wrong_use(self):
        with contextlib.redirect_stderr(io.StringIO()):
            self.assertEqual(export_samples.main(["program", "driver"]), 2)


if __name__ == "__main__":
    unittest.main()
