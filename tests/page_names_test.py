#!/usr/bin/env python3
"""Tests page_names.py on a small repository in a folder of its own: it passes, and each slip that is put into it is told."""

import contextlib
import io
import pathlib
import sys
import tempfile
import unittest

sys.dont_write_bytecode = True

import page_names

FILES = {
    "README.md": """# Title

`make where WORD=..` finds it, and `make
test-list` tries it. The crates are cases_* and ultra_rules; target/no_such.log says why. See include/ultra.h.

```
make list CONTEXT=samples/listing.bin   # as it is
```

Here with 4 lines:

```
version=1.0
..
used=480
```

```c
int in_no_file;
```

| | Name | In crates/ |
|---|---|---|
| means | `aligned`; `kernel_values`, `module_values` | ultra_rules/specs/Ranges.antt; ultra_rules/specs/Members.antt |
| the check | `values` | ultra_rules/src/kernel.rt, module.rt |
| the test | `module at 2048: refused 13` | cases_reading/stdout |
| a wrong program | `spec_pages`, and more | ultra_rules/must-fail |
""",
    "docs/CALLS.md": """# Calls

| No. | Given when |
|---|---|
| 1 SHORT | below 8 |
| 2 FORM | `requires` |
""",
    "crates/refusals/specs/Refusals.antt": '-- "below 8"\nabbrev pub SHORT : ℕ\nSHORT = 1\n\n-- "a part", 01\nabbrev pub FORM : ℕ\nFORM = 2\n',
    "docs/CHANGES.md": "`make gone` ran cases_gone, `Gone` and gone.rt: 3 GONE.\n",
    "docs/PROMISES.md": """# Promises

One record, `Demand` (ultra_rules Demand), proved as `demand`; `Ranges` (ultra_rules Ranges).

| Promise | Field of `Demand` | Test |
|---|---|---|
| a | `begins`, `ends` | cases_reading, `test-list` |

| Promise | Stated | Test |
|---|---|---|
| a | by the language, without `requires` | `compare` |
| b | `StepsExactly`, ultra_rules Steps | cases_reading |
| c | `EveryStep`, the same, proved as `each_step` | (a) |
| d | `begins` of `Demand`, ultra_rules Demand (a) | 1 SHORT |

| Promise | Stated | Proved |
|---|---|---|
| a | `aligned`, ultra_rules Ranges | `aligned_..`, Steps |
| b | the same | `steps_exactly`, ultra_rules Steps |
| c | `Says`, ultra_rules proofs/Steps | `each_step` |
| d | ultra_rules Members | contract of `values` |
""",
    "tests/README.md": "# Tests\n\n| Test | What |\n|---|---|\n| `test-list` | `make list CONTEXT=NAME.bin`; `make -j4 compare` |\n",
    "Makefile": "include tests/all.mk\n.PHONY: list\nN ?= 1\nlist where: x\n\t@echo no: target\n",
    "tests/all.mk": "test-list: list\ncompare:\n",
    "tests/other.mk": "other:\n",
    "include/ultra.h": "#define ULTRA_OK 0\n#define ULTRA_SHORT 1\n#define ULTRA_FORM  2 /* x */\n#define ULTRA_SIZE_MAX 9\n",
    "crates/refusals/src/lib.rt": "pub const SHORT: u16 = 1;\n\npub const FORM: u16 = 2;\n",
    "samples/listing.txt": "version=1.0\nattributes=2\nplatform=2\nused=480\n",
    "samples/listing.bin": "",
    "crates/cases_reading/stdout": "module at 0: read\nmodule at 2048: refused 13 at 8\n",
    "crates/ultra_rules/must-fail/spec_pages.edit": "wrong: x\n",
    "crates/ultra_rules/specs/Ranges.antt": "pub aligned : A\npub Ranges : A\n",
    "crates/ultra_rules/specs/Members.antt": "pub kernel_values : A\npub module_values : A\n",
    "crates/ultra_rules/specs/Steps.antt": "pub StepsExactly : A\npub EveryStep : A\n",
    "crates/ultra_rules/specs/Demand.antt": "pub record Demand : Type 0 where\n  begins : A\n  ends : A\n",
    "crates/ultra_rules/proofs/Demand.antt": "pub demand : Demand\n",
    "crates/ultra_rules/proofs/Steps.antt": "pub steps_exactly : A\npub each_step : A\npub aligned_so : A\npub record Says : A where\n",
    "crates/ultra_rules/src/kernel.rt": "pub fn values() {}\n",
    "crates/ultra_rules/src/module.rt": "pub fn values() {}\n",
}


class Case(unittest.TestCase):
    def setUp(self):
        folder = tempfile.TemporaryDirectory()
        self.addCleanup(folder.cleanup)
        self.root = pathlib.Path(folder.name)
        for path, text in FILES.items():
            (self.root / path).parent.mkdir(parents=True, exist_ok=True)
            (self.root / path).write_text(text, encoding="utf-8")

    def told_of(self, path, old, new):
        """The problems of the repository with one text changed in one file."""
        self.assertEqual(FILES[path].count(old), 1, (path, old))
        (self.root / path).write_text(FILES[path].replace(old, new), encoding="utf-8")
        told = list(page_names.problems(self.root))
        (self.root / path).write_text(FILES[path], encoding="utf-8")
        return told

    def slip(self, path, old, new, *expected):
        """With the slip, these are told of the page, in any order, and nothing else."""
        with self.subTest(new):
            self.assertEqual(sorted(self.told_of(path, old, new)), sorted(f"{path}: {problem}" for problem in expected))

    def main(self):
        said = io.StringIO()
        with contextlib.redirect_stdout(said):
            status = page_names.main([str(self.root)])
        return status, said.getvalue()

    def test_passes(self):
        self.assertEqual(list(page_names.problems(self.root)), [])
        self.assertEqual(self.main()[0], 0)
        self.assertRegex(self.main()[1], r"\Apage names: 4 pages, \d+ names\n\Z")

    def test_a_problem_is_a_failure(self):
        (self.root / "tests/README.md").write_text("`make wher`\n", encoding="utf-8")
        self.assertEqual(self.main(), (1, "tests/README.md: `wher` is no target\n"))

    def test_targets(self):
        self.slip("README.md", "`make where", "`make wher", "`wher` is no target")
        self.slip("README.md", "make\ntest-list", "make\ntest-lists", "`test-lists` is no target")
        self.slip("README.md", "make list", "make lst", "`lst` is no target")
        self.slip("README.md", "`make where", "`make other", "`other` is no target")
        self.slip("README.md", "# Title\n", "# Title\n\n    make lst\n", "`lst` is no target")
        self.slip("tests/README.md", "| `test-list`", "| `test-layouts`", "`test-layouts` is no target",
                  "`test-layouts` is no name that a file gives")
        self.slip("tests/README.md", "-j4 compare", "-j4 list compar", "`compar` is no target")
        self.slip("docs/PROMISES.md", "`test-list`", "`test-seedz`", "`test-seedz` is no target",
                  "`test-seedz` is no name that a file gives")
        self.slip("docs/PROMISES.md", "`compare`", "`aligned`", "`aligned` is no target")

    def test_names(self):
        self.slip("docs/PROMISES.md", "| cases_reading, `", "| cases_readng, `", "`cases_readng` is no name that a file gives")
        self.slip("README.md", "and ultra_rules;", "and ultra_rule;", "`ultra_rule` is no name that a file gives")
        self.slip("README.md", "cases_*", "casses_*", "`casses_` is no name that a file gives")
        self.slip("README.md", "finds it,", "finds `Memberss`,", "`Memberss` is no name that a file gives")
        self.slip("README.md", "version=1.0\n", "version=1.0\nultra_rule\n", "`ultra_rule` is no name that a file gives",
                  "the excerpt is not of samples/listing.txt")
        self.slip("docs/CALLS.md", "`requires`", "`requires", "a backtick that is not closed: | 2 FORM | `requires |")

    def test_files(self):
        self.slip("README.md", "include/ultra.h", "include/ulta.h", "include/ulta.h: no such file")
        self.slip("README.md", "include/ultra.h", "includes/ultra.h", "includes/ultra.h: no such file")

    def test_refusals(self):
        table = "the table of refusals is not that of crates/refusals/src/lib.rt"
        self.slip("docs/CALLS.md", "2 FORM", "2 FROM", "2 FROM is no refusal of crates/refusals/src/lib.rt", table)
        self.slip("docs/CALLS.md", "2 FORM", "3 FORM", "3 FORM is no refusal of crates/refusals/src/lib.rt", table)
        self.slip("docs/CALLS.md", "| 2 FORM | `requires` |\n", "", table)
        self.slip("docs/CALLS.md", "No.", "Number", table)
        self.slip("docs/PROMISES.md", "1 SHORT", "1 FORM", "1 FORM is no refusal of crates/refusals/src/lib.rt")
        self.slip("include/ultra.h", "ULTRA_FORM  2", "ULTRA_FORM  3", "its refusals are not the first of crates/refusals/src/lib.rt")
        self.slip("docs/CALLS.md", "below 8", "below 9",
                  "SHORT is given when `below 9`, expected `below 8` (crates/refusals/specs/Refusals.antt)")

    def test_stated(self):
        steps, proofs = "crates/ultra_rules/specs/Steps.antt", "crates/ultra_rules/proofs/Steps.antt"
        self.slip("docs/PROMISES.md", "StepsExactly", "StepsExactlx", "`StepsExactlx` is no name that a file gives",
                  f"`StepsExactlx` is not in {steps}", f"`steps_exactlx` is not in {proofs}")
        self.slip("docs/PROMISES.md", "StepsExactly", "Ranges", f"`Ranges` is not in {steps}", f"`ranges` is not in {proofs}")
        self.slip("docs/PROMISES.md", "`StepsExactly`, ultra_rules Steps", "`StepsExactly` ultra_rules Steps",
                  "`StepsExactly` stands in no file: `StepsExactly` ultra_rules Steps",
                  "`EveryStep` stands in no file: `EveryStep`, the same, proved as `each_step`",
                  "`each_step` stands in no file: `EveryStep`, the same, proved as `each_step`")
        self.slip("docs/PROMISES.md", "`begins` of", "`kernel_values` of",
                  "`Demand.kernel_values` is not in crates/ultra_rules/specs/Demand.antt")
        self.slip("docs/PROMISES.md", "ultra_rules Members", "ultra_rules Steppes", "crates/ultra_rules/specs/Steppes.antt: no such file")
        self.slip("docs/PROMISES.md", "`Says`, ultra_rules proofs/Steps", "`Says`, ultra_rules Steps", f"`Says` is not in {steps}")

    def test_proved(self):
        proofs = "crates/ultra_rules/proofs/Steps.antt"
        self.slip("docs/PROMISES.md", ", proved as `each_step`", "", f"`every_step` is not in {proofs}")
        self.slip("docs/PROMISES.md", "same, proved as `each_step`", "same, proved as `demand`", f"`demand` is not in {proofs}")
        self.slip("docs/PROMISES.md", "| `each_step`", "| `demand`", f"`demand` is not in {proofs}")
        self.slip("docs/PROMISES.md", "| `each_step`", "| `each_step` in Steps", "``each_step` in Steps` does not say where it is proved")
        self.slip("docs/PROMISES.md", "aligned_..", "alined_..", f"`alined_..` is not in {proofs}")
        self.slip("docs/PROMISES.md", "`steps_exactly`, ultra_rules Steps", "`steps_exactly`",
                  "crates/ultra_rules/proofs/Ranges.antt: no such file", "`steps_exactly` is not in crates/ultra_rules/proofs/Ranges.antt")

    def test_records(self):
        self.slip("docs/PROMISES.md", "`ends`", "`aligned`", "`Demand.aligned` is not in crates/ultra_rules/specs/Demand.antt")
        self.slip("docs/PROMISES.md", "(ultra_rules Demand), proved as `demand`", "(ultra_rules Demand), proved as `each_step`",
                  "`each_step` is not in crates/ultra_rules/proofs/Demand.antt")
        self.slip("docs/PROMISES.md", "`Ranges` (ultra_rules Ranges)", "`Ranges` (ultra_rules Steps)",
                  "`Ranges` is not in crates/ultra_rules/specs/Steps.antt")
        self.slip("docs/PROMISES.md", "`Ranges` (ultra_rules Ranges)", "`Ranges` (Ranges)", "`Ranges` (Ranges) names no crate")
        self.slip("docs/PROMISES.md", "Field of `Demand`", "Field of `Ranges`",
                  *(f"`Ranges.{name}` is not in crates/ultra_rules/specs/Ranges.antt" for name in ("begins", "ends")))
        self.slip("docs/PROMISES.md", "Field of `Demand`", "Field of `Says`", "`Says` stands in no file")

    def test_no_statements(self):
        (self.root / "docs/PROMISES.md").write_text("# Promises\n", encoding="utf-8")
        self.assertEqual(list(page_names.problems(self.root)), ["docs/PROMISES.md: no row says where a promise is stated"])

    def test_listing(self):
        excerpt = "the excerpt is not of samples/listing.txt"
        lines = "expected one excerpt of samples/listing.txt with \"..\", and \"with 4 lines:\" before it"
        self.slip("README.md", "version=1.0", "version=1.1", excerpt)
        self.slip("README.md", "used=480", "used=488", excerpt)
        self.slip("README.md", "version=1.0\n", "version=1.0\nplatform=2\n", excerpt)
        self.slip("README.md", "used=480\n", "used=480\nend\n", excerpt)
        self.slip("README.md", "4 lines", "5 lines", lines)
        self.slip("README.md", "\n..\n", "\n", lines)

    def test_trail(self):
        self.slip("README.md", "Ranges.antt", "Rangess.antt", "ultra_rules/specs/Rangess.antt: no such file",
                  "crates/ultra_rules/specs/Rangess.antt: no such file")
        self.slip("README.md", "`aligned`", "`EveryStep`", "`EveryStep` is not in crates/ultra_rules/specs/Ranges.antt")
        self.slip("README.md", "`module_values`", "`aligned`", "`aligned` is not in crates/ultra_rules/specs/Members.antt")
        self.slip("README.md", "refused 13", "refused 14", "`module at 2048: refused 14` is not in crates/cases_reading/stdout")
        self.slip("README.md", "`spec_pages`", "`aligned`", "crates/ultra_rules/must-fail/aligned.edit: no such file")
        self.slip("README.md", "`values`", "the contracts", "not as many names as files: the contracts")
        self.slip("README.md", "`aligned`; ", "", "not as many names as files: `kernel_values`, `module_values`",
                  *(f"`{name}` is not in crates/ultra_rules/specs/Ranges.antt" for name in ("kernel_values", "module_values")))
        self.slip("README.md", "In crates/", "In", "no table with the column \"In crates/\"")

    def test_a_name_that_went(self):
        told = self.told_of("crates/ultra_rules/src/module.rt", "values", "value")
        self.assertEqual(told, ["README.md: `values` is not in crates/ultra_rules/src/module.rt"])


if __name__ == "__main__":
    unittest.main()
