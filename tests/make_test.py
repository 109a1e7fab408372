#!/usr/bin/env python3
"""Tests what the make targets say and do where a tool is missing, where rt fails and where there is nothing left to do; and the figures.

usage: make_test.py

It runs in a copy of the sources, with an rt of its own that proves nothing and writes down how it was called.
"""

import os
import pathlib
import re
import shutil
import stat
import subprocess
import sys
import tempfile
import unittest

ROOT = pathlib.Path(__file__).resolve().parent.parent
KIT = (ROOT / "kit.txt").read_text(encoding="utf-8").strip()
# What a caller may have set, and make itself sets.
OWN = {"PATH", "CC", "CXX", "PYTHON", "CARGO", "VALGRIND", "RUSTC", "CONTEXT", "PREFIX", "DESTDIR", "MAKEFLAGS", "MFLAGS", "MAKELEVEL"}
COMMAND_AND_PACKAGE = {
    "make": ("make", "make"),
    "bash": ("bash", "bash"),
    "cc": ("cc", "gcc"),
    "c++": ("g++", "g++"),
    "python3": ("python3", "python3"),
    "valgrind": ("valgrind", "valgrind"),
    "objdump": ("objdump", "binutils"),
    "nm": ("nm", "binutils"),
    "ar": ("ar", "binutils"),
}
USED = [command for command, _ in COMMAND_AND_PACKAGE.values()] + """cargo rustc sh echo env cat cmp cp date dirname basename find grep
    install mkdir mktemp mv rm sed sleep tail tee touch""".split()
NEED_RT = ["list CONTEXT=samples/listing.bin", "archive", "call-driver", "install PREFIX=target/p", "check", "format", "test", "tests"]
# The crates whose folders rt is called in, and their arguments and inputs.
MADE_OF = ["ultra", "list_context", "call_driver"]
PASSES = """
echo 'rt: refusals: begins with what a check kept in elsewhere'
echo 'rt: chose --jobs 2 for words'
echo 'fn words::load: proved'
echo made >"$FILE"
echo "rt: running $FILE; to give it other input, run that file yourself"
"""
FAILS = """
echo 'rt: chose --jobs 2 for words'
echo 'rt: the library words did not build, so nothing above it was checked'
echo half >"$FILE"
exit 1
"""


def write_program(path, text):
    path.write_text(f"#!/bin/sh\n{text}", encoding="utf-8")
    path.chmod(path.stat().st_mode | stat.S_IXUSR)


def link_tools(folder, without):
    """Links the programs that the targets use into a folder, but rt and those that are to be missing."""
    for name in USED:
        program = sys.executable if name == "python3" else shutil.which(name)
        if program and name not in without:
            (folder / name).symlink_to(program)


def left_out(folder, names):
    """What the copy does not need. Of the crates, one stands for all."""
    if pathlib.Path(folder) == ROOT / "crates":
        return set(names) - {"words"}
    return {"target", ".git", "__pycache__", "docs"} & set(names)


class MakeTest(unittest.TestCase):
    """A fresh copy of the sources for each test, without target/."""

    def setUp(self):
        self.folder = pathlib.Path(tempfile.mkdtemp())
        self.addCleanup(shutil.rmtree, self.folder)
        self.copy = self.folder / "copy"
        shutil.copytree(ROOT, self.copy, ignore=left_out)
        self.own = self.folder / "own"
        self.own.mkdir()
        self.calls = self.folder / "calls"
        self.calls.touch()
        self.without()

    def without(self, *names):
        """From now on these programs are missing."""
        self.tools = pathlib.Path(tempfile.mkdtemp(dir=self.folder))
        link_tools(self.tools, names)

    def rt_that(self, does, kit=KIT):
        """Puts an rt on the PATH; FILE is what it has to make."""
        for crate in MADE_OF:
            (self.copy / "crates" / crate / "out").mkdir(parents=True, exist_ok=True)
        made = 'CRATE=${PWD##*/}; FILE=out/$CRATE; [ "$1" != lib ] || FILE=out/lib$CRATE.a'
        # Of a program that is run, standard output is the program's.
        streams = "exec 3>&1; [ $1 != run ] || exec >&2"
        write_program(self.own / "rt", f"[ $1 != version ] || {{ echo '{kit}'; exit; }}\n{made}\necho $CRATE: $* >>{self.calls}\n{streams}\n{does}")

    def run_it(self, command):
        """Runs a command of several words in the copy."""
        environment = {name: value for name, value in os.environ.items() if name not in OWN}
        environment["PATH"] = f"{self.own}{os.pathsep}{self.tools}"
        words = [shutil.which(command.split()[0], path=environment["PATH"]) or command.split()[0], *command.split()[1:]]
        return subprocess.run(words, cwd=self.copy, env=environment, capture_output=True, text=True, check=False, timeout=60)

    def calls_of_rt(self):
        return self.calls.read_text(encoding="utf-8").splitlines()


class Missing(MakeTest):
    def test_every_target_says_that_rt_is_missing(self):
        for target in NEED_RT:
            with self.subTest(target):
                ran = self.run_it(f"make {target}")
                self.assertNotEqual(ran.returncode, 0)
                self.assertEqual(ran.stderr.count("rt is not on the PATH"), 1, ran.stderr)
                self.assertIn("Rattle kit", ran.stderr)

    def test_what_is_made_needs_no_rt(self):
        self.rt_that(PASSES)
        self.run_it("make archive list-program")
        (self.own / "rt").unlink()
        ran = self.run_it("make install PREFIX=target/prefix")
        self.assertEqual(ran.returncode, 0, ran.stderr)
        self.assertTrue(os.access(self.copy / "target/prefix/bin/ultra-list", os.X_OK))

    def test_each_tool_is_named_with_its_package(self):
        for name, (command, package) in COMMAND_AND_PACKAGE.items():
            with self.subTest(name):
                self.without(command)
                ran = self.run_it(f"/bin/sh tests/tools.sh {name}")
                self.assertEqual(ran.returncode, 1)
                self.assertIn(f"{command} is not found", ran.stderr)
                self.assertIn(f"apt-get install {package}\n", ran.stderr)

    def test_the_gate_names_all_that_is_missing_before_it_starts(self):
        self.rt_that(PASSES)
        self.without("valgrind", "objdump", "cargo")
        ran = self.run_it("make test")
        self.assertNotEqual(ran.returncode, 0)
        for name in ("valgrind", "objdump", "cargo"):
            self.assertIn(f"{name} is not found", ran.stderr)
        self.assertIn("apt-get install valgrind binutils\n", ran.stderr)
        self.assertEqual(self.calls_of_rt(), [])

    def test_a_target_names_its_tools_before_anything_is_proved_for_it(self):
        self.rt_that(PASSES)
        for target, name in (("compare-archive", "cargo"), ("compare-driven", "cargo"), ("compare-listings", "cargo"), ("bench", "valgrind"),
                             ("test-edges", "cc"), ("test-examples", "cc"), ("test-samples", "python3"), ("test-driver", "python3"),
                             ("test-payload-samples", "python3"),
                             ("test-stack", "objdump"), ("fuzz", "nm"), ("fuzz", "python3"), ("fuzz FUZZ_CC=none", "clang")):
            with self.subTest(target):
                self.without(name)
                ran = self.run_it(f"make {target}")
                self.assertNotEqual(ran.returncode, 0)
                self.assertRegex(ran.stderr, f"{name} is not found|needs {name}")
        self.assertEqual(self.calls_of_rt(), [])

    def test_the_gate_starts_where_nothing_is_missing(self):
        self.rt_that("exit 1")
        ran = self.run_it("make test")
        self.assertNotEqual(ran.returncode, 0)
        self.assertEqual(self.calls_of_rt(), ["copy: ci"])


class Unfit(MakeTest):
    def test_an_old_cargo_is_refused(self):
        for cargo, rustc in (("1.89.0", "1.95.0"), ("1.95.0", "1.63.0"), ("0.99.9", "1.95.0"), ("none", "1.95.0")):
            with self.subTest(cargo=cargo, rustc=rustc):
                write_program(self.own / "cargo", f"echo 'cargo {cargo} (abc 2020-01-01)'")
                write_program(self.own / "rustc", f"echo 'rustc {rustc} (abc 2020-01-01)'")
                ran = self.run_it("tests/tools.sh cargo")
                self.assertEqual(ran.returncode, 1)
                self.assertIn("is too old", ran.stderr)
                self.assertIn("Rust 1.90 or newer", ran.stderr)
                self.assertIn("https://rustup.rs", ran.stderr)

    def test_a_new_cargo_passes(self):
        for version in ("1.90.0", "1.100.0", "2.0.0", "1.91.0-nightly"):
            with self.subTest(version):
                write_program(self.own / "cargo", f"echo 'cargo {version} (abc 2030-01-01)'")
                write_program(self.own / "rustc", f"echo 'rustc {version} (abc 2030-01-01)'")
                self.assertEqual(self.run_it("tests/tools.sh cargo").returncode, 0)

    def test_an_old_python_is_refused(self):
        as_if = f'exec {sys.executable} -c "import sys; sys.version_info = (3, 8, 1); $2"'
        write_program(self.own / "python3", f"[ $1 != --version ] || {{ echo Python 3.8.1; exit; }}\n{as_if}\n")
        ran = self.run_it("tests/tools.sh python3")
        self.assertEqual(ran.returncode, 1)
        self.assertIn("Python 3.8.1, where 3.9 or newer", ran.stderr)

    def test_another_kit_is_a_warning(self):
        self.rt_that(PASSES, kit="rattle-kit-9 logic 00")
        ran = self.run_it("make archive")
        self.assertEqual(ran.returncode, 0)
        self.assertIn(f"proved with `{KIT}` (kit.txt), and rt is `rattle-kit-9 logic 00`", ran.stderr)

    def test_another_rt_is_refused(self):
        write_program(self.own / "rt", "exit 64\n")
        ran = self.run_it("make archive")
        self.assertNotEqual(ran.returncode, 0)
        self.assertIn("is not the Rattle kit's", ran.stderr)


class Made(MakeTest):
    """What rt makes: the archive, and a program."""

    TARGETS = {"archive": "target/staticlib/libultra.a", "list-program": "target/bin/list_context", "call-driver": "target/bin/call_driver"}

    def test_it_shows_what_is_proved_and_nothing_when_up_to_date(self):
        self.rt_that(PASSES)
        for target, file in self.TARGETS.items():
            with self.subTest(target):
                ran = self.run_it(f"make {target}")
                self.assertEqual((ran.returncode, ran.stdout), (0, ""))
                first = f"make: proving the crates that {file} is made of; from nothing this takes some minutes"
                self.assertEqual(ran.stderr.splitlines(), [first, "rt: proving words"])
                self.assertEqual((self.copy / file).read_text(encoding="utf-8"), "made\n")
                again = self.run_it(f"make {target}")
                self.assertEqual((again.returncode, again.stdout, again.stderr), (0, "", ""))
        self.assertEqual(self.calls_of_rt(), ["ultra: lib", "list_context: run --", "call_driver: run --"])

    def test_a_failure_is_passed_on_and_leaves_nothing(self):
        self.rt_that(FAILS)
        for target, file in self.TARGETS.items():
            with self.subTest(target):
                for _ in range(2):
                    ran = self.run_it(f"make {target}")
                    self.assertNotEqual(ran.returncode, 0)
                    self.assertIn("rt: the library words did not build", ran.stderr)
                    log = re.search(r"not proved; (\S+) says why", ran.stderr).group(1)
                    self.assertIn("did not build", (self.copy / log).read_text(encoding="utf-8"))
                    self.assertFalse((self.copy / file).exists())
        self.assertEqual(len(self.calls_of_rt()), 6)

    def test_a_touched_source_starts_rt_again_and_says_nothing(self):
        self.rt_that(PASSES)
        self.run_it("make list-program")
        self.rt_that("echo 'rt: nothing has changed since the last proved build, by out/list_context.stamp, so nothing is checked now'\n")
        (self.copy / "crates.txt").touch()
        ran = self.run_it("make list-program")
        self.assertEqual((ran.returncode, ran.stdout, ran.stderr), (0, "", ""))
        self.assertEqual(self.run_it("make list-program").returncode, 0)
        self.assertEqual(len(self.calls_of_rt()), 2)

    def test_a_source_that_is_changed_meanwhile_is_seen(self):
        self.rt_that(PASSES + "sleep 0.1; touch ../../crates.txt\n")
        self.run_it("make archive")
        self.run_it("make archive")
        self.assertEqual(len(self.calls_of_rt()), 2)

    def test_an_rt_that_makes_nothing_is_a_failure(self):
        self.rt_that("exit 0")
        ran = self.run_it("make archive")
        self.assertNotEqual(ran.returncode, 0)
        self.assertIn("rt passed and made no crates/ultra/out/libultra.a", ran.stderr)

    def test_a_program_that_is_gone_is_made_again(self):
        self.rt_that(PASSES)
        self.run_it("make list-program")
        (self.copy / "target/bin/list_context").unlink()
        self.rt_that("exit 0")
        self.assertEqual(self.run_it("make list-program").returncode, 0)
        self.assertEqual((self.copy / "target/bin/list_context").read_text(encoding="utf-8"), "made\n")

    def test_a_program_is_run_on_what_stands_beside_its_source(self):
        self.rt_that("cat >input; echo printed >&3" + PASSES)
        crate = self.copy / "crates/list_context"
        self.assertEqual(self.run_it("make list-program").returncode, 0)
        self.assertEqual((crate / "input").read_text(encoding="utf-8"), "")
        (crate / "stdin").write_text("given\n", encoding="utf-8")
        (crate / "args").write_text("one\ntwo words\n", encoding="utf-8")
        (self.copy / "crates.txt").touch()
        ran = self.run_it("make list-program")
        self.assertEqual((ran.returncode, ran.stdout), (0, ""))
        self.assertNotIn("printed", (self.copy / "target/list_program.log").read_text(encoding="utf-8"))
        self.assertEqual((crate / "input").read_text(encoding="utf-8"), "given\n")
        self.assertEqual(self.calls_of_rt()[-1], "list_context: run -- one two words")


class Gate(MakeTest):
    """The gate goes on to the tests only where rt ci passed, no must-fail edit bad; and it ends with rt's last line."""

    LAST = "2 passed, 0 failed"

    def gate(self, line, ends=0):
        """Runs the gate, where make notes that it was asked for the tests and does no more."""
        self.rt_that(f"echo '{line}'\necho '{self.LAST}'\nexit {ends}\n")
        write_program(self.own / "make", f"[ $1 = --version ] || echo make: $* >>{self.calls}\n")
        return self.run_it(".ci/run")

    def test_it_passes_where_no_edit_is_bad(self):
        for line in ("rt: ok; handles allowed: none; must-fail edits: 30 refused; every proof and must-fail edit was done in this run",
                     "rt: ok; handles allowed: none; must-fail edits: 30 refused, 0 bad; every proof and must-fail edit was done in this run"):
            with self.subTest(line):
                self.calls.write_text("", encoding="utf-8")
                ran = self.gate(line)
                self.assertEqual((ran.returncode, ran.stdout.splitlines()[-1]), (0, self.LAST), ran.stderr)
                self.assertEqual(self.calls_of_rt(), ["copy: ci", "make: tests"])

    def test_it_fails_where_an_edit_is_bad(self):
        for counts in ("30 refused, 1 bad", "30 refused, 2 of them only by a limit, 10 bad"):
            with self.subTest(counts):
                self.calls.write_text("", encoding="utf-8")
                ran = self.gate(f"rt: ok; handles allowed: none; must-fail edits: {counts}; every proof and must-fail edit was done in this run")
                self.assertNotEqual(ran.returncode, 0)
                self.assertIn("bad must-fail edits", ran.stderr)
                self.assertEqual(self.calls_of_rt(), ["copy: ci"])

    def test_it_fails_where_rt_fails(self):
        ran = self.gate("rt: FAILED: words", 1)
        self.assertNotEqual(ran.returncode, 0)
        self.assertEqual(self.calls_of_rt(), ["copy: ci"])


class Used(MakeTest):
    def test_a_missing_context_is_said_before_anything_is_proved(self):
        self.rt_that(PASSES)
        for words, told in (
            ("make list", "usage: make list CONTEXT=samples/listing.bin"),
            ("make list CONTEXT=none.bin", "there is no file none.bin"),
            ("make -j4 list CONTEXT=it's", "there is no file it's"),
        ):
            ran = self.run_it(words)
            self.assertNotEqual(ran.returncode, 0)
            self.assertIn(told, ran.stderr)
        self.assertEqual(self.calls_of_rt(), [])

    def test_help_names_targets_that_there_are(self):
        said = self.run_it("make help")
        self.assertEqual((said.returncode, said.stderr), (0, ""))
        told = set(re.findall(r"make ([a-z-]+)", said.stdout))
        known = set(re.findall(r"^([a-z-]+):", self.run_it("make -pq help").stdout, re.MULTILINE))
        self.assertIn("list", told)
        self.assertEqual(told - known, set())


class Figures(MakeTest):
    """`make figures`: a line for each, with how it is counted, also where the archive or what reads it is missing."""

    def figures(self):
        """(figure, how it is counted) by what is counted."""
        ran = self.run_it("make figures")
        self.assertEqual((ran.returncode, ran.stderr), (0, ""))
        lines = [re.fullmatch(r"(\w.*?) +([\d,]+|-)  (\S.*)", line) for line in ran.stdout.splitlines()]
        self.assertNotIn(None, lines, ran.stdout)
        return {line[1]: (line[2], line[3]) for line in lines}

    def make_archive(self):
        """An archive of one function, which takes its return address and nothing else."""
        folder = self.copy / "target/staticlib"
        folder.mkdir(parents=True)
        (folder / "one.c").write_text("int one(int n) { return n + 1; }\n", encoding="utf-8")
        subprocess.run(["cc", "-O1", "-c", "one.c"], cwd=folder, check=True)
        subprocess.run(["ar", "rcs", "libultra.a", "one.o"], cwd=folder, check=True)

    def test_without_an_archive(self):
        found = self.figures()
        self.assertEqual((len(found), found["crates"]), (10, ("1", "folders of crates/")))
        self.assertEqual(found["lines of programs that run it"], ("0", "src/ of cases_*, call_*, framed_*, example_*"))
        self.assertEqual(found["bytes of libultra.a"], ("-", "not made yet: make archive"))
        code = (self.copy / "crates/words/src").rglob("*.rt")
        self.assertEqual(found["lines of code"][0], str(sum(len(file.read_text(encoding="utf-8").splitlines()) for file in code)))

    def test_with_an_archive(self):
        self.make_archive()
        found = self.figures()
        size = (self.copy / "target/staticlib/libultra.a").stat().st_size
        self.assertEqual((len(found), found["bytes of libultra.a"]), (11, (f"{size:,}", "target/staticlib/libultra.a")))
        self.assertEqual(found["bytes of stack, deepest call"], ("8", "tests/stack.py"))

    def test_without_objdump(self):
        self.make_archive()
        self.without("objdump")
        self.assertEqual(self.figures()["bytes of stack, deepest call"], ("-", "objdump is not found: make tools"))


if __name__ == "__main__":
    sys.exit(not unittest.main(exit=False).result.wasSuccessful())
