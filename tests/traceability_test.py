#!/usr/bin/env python3
"""Tests traceability.py, short_names.py and spec_quotes.py on a small repository in a folder of its own."""

import contextlib
import io
import os
import sys
import tempfile
import unittest

sys.dont_write_bytecode = True

import short_names
import spec_quotes
import traceability

RULES = """-- "At the top"
use Prim.{ℕ}

-- "major is at least 1", and "minor is free"
pub record Meets (fewest : ℕ) : Type 0 where
  -- "**the** count is 2 to
  -- 1,024"
  pub enough : 1 ≤ 2
  pub most : 2 ≤ 3
  -- "one of two"; "two of two"
  pub one : 1 ≤ 1
  pub two : 1 ≤ 2

-- ---- "a section"
abbrev pub room_of : List ℕ → ℕ
room_of b =
    -- "within the definition"
    min (length b) 65536

helper : ℕ

pub data Rules (b : List ℕ) : ℕ → Type 0 where
  short : room_of b < 8 → Rules b SHORT

unfoldable pub both_of : ℕ

-- "of a private one"
other : ℕ
pub another : ℕ
"""
FILES = {
    "crates/rules/specs/Rules.antt": RULES,
    "crates/rules/proofs/Rules.antt": "helper : ℕ\n\nmodule (b : ℕ) where\n  pub says_decoded : ℕ\n",
    "crates/rules/specs/Shared.antt": "pub one : ℕ\n",
    "crates/other/specs/Shared.antt": "pub one : ℕ\n",
    "crates/rules/src/lib.rt": 'pub const SHORT: u32 = 1;\n\npub extern "C" fn ultra_read(buf: &[u8]) -> u64\n',
    "crates/rules/src/head.rt": """pub struct Cursor {
    pub index: u32,
}

impl Cursor {
    pub fn step(self, buf: &[u8]) -> Step
    {
        called(buf);
    }
}

pub enum Step {
    End,
    Attribute(Header, Cursor)
}
""",
    "crates/rules/proofs/head/Cursor/step/Answers.antt": "step : ℕ\n",
    "crates/rules/proofs/head/Cursor/step/Invariants.antt": "loop : ℕ\n",
    "crates/rules/must-fail/wrong.edit": "old\n",
    "crates/cases_a/stdout": "map of 40 - 1: no\nmap of 40: refused 12\n  part length 0\n",
    "crates/cases_b/stdout": "map of 40: done\n",
    "tests/model.rs": "impl<'a> Attribute<'a> {\n    pub fn at(room: &'a [u8]) -> Self {\n    }\n}\n",
    "tests/layout.c": "#define SPOIL(number) \\\n    number\n\nstatic void see_map(int a)\n{\n    called(a);\n}\n",
    "tests/tests.py": "LIMIT = 3\n\n\ndef main():\n    called()\n",
    "tests/tests.mk": ".PHONY: all\n\ntest-c test-d: test-header\n\tcalled\n",
    "samples/every.txt": "used=480\n",
    "docs/notes.md": "## How it is written\n\n| A1 | The room. |\n",
    "docs/README.md": "# Below\n",
    "README.md": "# Above\n",
    "target/tests.py": "BUILT = 1\n",
    "docs/traceability/README.md": "# Index\n\n" + traceability.INDEX_HEAD + "\nThe end.\n",
}


def row(sentence, *lines):
    return "\n".join([f'**"{sentence}"**', *lines]) + "\n\n"


class Case(unittest.TestCase):
    def setUp(self):
        folder = tempfile.TemporaryDirectory()
        self.addCleanup(folder.cleanup)
        self.root = folder.name
        for path, text in FILES.items():
            self.write(path, text)
        self.page(*(row(f"sentence {n}", "- stated: `Rules.room_of`") for n in range(traceability.FEWEST_ROWS)), name="02-full.md")

    def write(self, path, text):
        place = os.path.join(self.root, path)
        os.makedirs(os.path.dirname(place), exist_ok=True)
        with open(place, "w", encoding="utf-8") as file:
            file.write(text)
        return place

    def page(self, *rows, name="01-page.md"):
        self.write("docs/traceability/" + name, "# A page\n\n" + "".join(rows).rstrip("\n") + "\n")

    def run_main(self, *arguments):
        said = io.StringIO()
        with contextlib.redirect_stdout(said), contextlib.redirect_stderr(said):
            status = traceability.main(list(arguments), self.root)
        return status, said.getvalue()

    def problems(self, *rows):
        """What is wrong with a page of these rows, once it is written."""
        self.page(*rows)
        self.assertEqual(self.run_main("--write")[0], 0)
        return [problem for _, _, problem in traceability.Table(self.root).problems()]

    def read(self, name):
        return short_names.read(os.path.join(self.root, "docs/traceability", name))


class ShortNames(Case):
    def places(self, name):
        return short_names.Names(self.root).places(name)

    def none(self, *names):
        for name in names:
            self.assertEqual(self.places(name), [], name)

    def test_definitions(self):
        specs, proofs = "crates/rules/specs/Rules.antt", "crates/rules/proofs/Rules.antt"
        for name, place in {"Meets": (specs, 5), "Meets.most": (specs, 9), "room_of": (specs, 15), "short": (specs, 23), "Rules": (specs, 22),
                            "both_of": (specs, 25), "says_decoded": (proofs, 4)}.items():
            self.assertEqual(self.places("Rules." + name), [place], name)
        self.none("Rules.most", "Rules.helper", "Rules.room", "Rules.fewest", "Rules.Meets.short", "Rules.b", "Meets.most", "room_of")

    def test_the_crate_before(self):
        self.assertEqual(self.places("rules/Shared.one"), [("crates/rules/specs/Shared.antt", 1)])
        self.none("Shared.one", "rules/Rules.room_of")

    def test_functions(self):
        self.assertEqual(self.places("rules::SHORT"), [("crates/rules/src/lib.rt", 1)])
        self.assertEqual(self.places("rules::ultra_read"), [("crates/rules/src/lib.rt", 3)])
        head = "crates/rules/src/head.rt"
        for name, line in {"Cursor": 1, "Cursor::index": 2, "Cursor::step": 6, "Step::End": 13, "Step::Attribute": 14}.items():
            self.assertEqual(self.places("rules::head::" + name), [(head, line)], name)
        self.none("rules::lib::SHORT", "rules::head::step", "rules::head::Cursor::called", "rules::head::Cursor::End", "rules::buf")

    def test_files(self):
        self.assertEqual(self.places("layout.c"), [("tests/layout.c", 0)])
        self.assertEqual(self.places("wrong.edit"), [("crates/rules/must-fail/wrong.edit", 0)])
        self.assertEqual(self.places("must-fail"), [("crates/rules/must-fail", 0)])
        self.assertEqual(self.places("README.md"), [("README.md", 0)])
        self.assertEqual(len(self.places("stdout")), 2)
        self.none("ayout.c", "lob.c", "/etc/hosts", "../x", "target/tests.py", "", "layout.c:see_map")

    def test_names_of_files(self):
        for name, line in {"layout.c: SPOIL": 1, "layout.c: see_map": 4, "tests.py: LIMIT": 1, "tests.py: main": 4, "tests.mk: test-d": 3,
                           "model.rs: Attribute.at": 2, "notes.md: A1": 3, "notes.md: How it is written": 1, "every.txt: used": 1,
                           "cases_a/stdout: map of 40": 2, "cases_a/stdout: part length 0": 3}.items():
            self.assertEqual([number for _, number in self.places(name)], [line], name)
        self.none("layout.c: called", "tests.py: called", "tests.mk: all", "tests.mk: test-header", "cases_a/stdout: map of 4",
                  "cases_a/stdout: of 40", "notes.md: The room.", "wrong.edit: old", "must-fail: x")

    def test_short_files(self):
        names = short_names.Names(self.root)
        for path, short in {"crates/rules/specs/Rules.antt": "Rules", "crates/other/specs/Shared.antt": "other/Shared",
                            "crates/rules/src/lib.rt": "rules", "crates/rules/src/head.rt": "rules::head", "README.md": "README.md",
                            "docs/README.md": "docs/README.md", "crates/cases_a/stdout": "cases_a/stdout"}.items():
            self.assertEqual(names.short_of(path), short)


class Quotes(Case):
    def test_what_a_comment_is_about(self):
        found = {quote.text: quote.name for quote in spec_quotes.all_quotes(short_names.Names(self.root))}
        self.assertEqual(found, {
            "At the top": None, "major is at least 1": "Rules.Meets", "minor is free": "Rules.Meets",
            "the count is 2 to 1,024": "Rules.Meets.enough", "one of two": None, "two of two": None, "a section": None,
            "within the definition": "Rules.room_of", "of a private one": None})

    def test_the_rows_of_a_quote(self):
        sentences = ["7 TYPE .. type 0", "no type 0 at all.", "of type 0 or 1", "type 1 size 8"]
        for text, expected in {"type 0": [0], "no type 0 at all": [1], "type 0 at all": [1], "at all": [], "of type 0": [2],
                               "type 1 size": [3], "so: no type 0 at all; type 1 size 8": [1, 3], "type 0 or 2": []}.items():
            self.assertEqual(spec_quotes.quoted_in(text, sentences), [sentences[n] for n in expected], text)
        self.assertEqual(spec_quotes.quoted_in("at least 8", ["a is at least 8", "b is at least 8"]), [])


class Rows(Case):
    def test_good_rows(self):
        self.assertEqual(self.problems(
            row("s", "- stated: `Rules.room_of` (a note), `notes.md: A1`", "- checked: `rules::SHORT`", "- proved: `Rules.says_decoded`",
                "- run in cases_a/stdout: `map of 40`, `part length 0`", "- run: `every.txt: used`", "- must fail: `wrong.edit`"),
            row("t", "- note: by its reader"), row("u", "- open: request R-1")), [])

    def test_names(self):
        self.assertEqual(self.problems(row("s", "- stated: `Rules.lob`, `stdout`", "- run in layout.c: `see_lob`")), [
            "`Rules.lob` is nowhere", "`layout.c: see_lob` is nowhere", "`stdout` is at crates/cases_a/stdout:0, crates/cases_b/stdout:0"])

    def test_kinds(self):
        self.assertEqual(self.problems(row("s", "- checked: `Rules.room_of`", "- proved: `Rules.room_of`", "- must fail: `Rules.room_of`")), [
            f"`Rules.room_of` is in crates/rules/specs/Rules.antt, not in a crate's {kind}" for kind in ("must-fail", "proofs", "src")])
        self.assertEqual(self.problems(row("s", "- prooved: `Rules.room_of`", "- none: x", "- note:")),
                         ["no label 'none'", "no label 'prooved'", "nothing after 'note'"])

    def test_nothing_but_a_sentence(self):
        self.assertEqual(self.problems(row("s"), row("t", "- note: x")), ["nothing but its sentence"])
        self.assertEqual(self.problems('"not marked as a sentence"\n- note: x\n'), ["below no sentence: - note: x"])

    def test_quoted_by_hand_too(self):
        good = row("major is at least 1", "- stated: `Rules.room_of`")
        self.assertEqual(self.problems(good), [])
        self.assertIn("- quoted: `Rules.Meets`\n- stated: `Rules.room_of`\n", self.read("01-page.md"))
        self.assertEqual(self.problems(row("major is at least 1", "- stated: `Rules.Meets`")), ["`Rules.Meets` is quoted already"])

    def test_twice_and_to_do(self):
        self.assertEqual(self.problems(row("s  t", "- note: x"), row("s t", "- note: y"), row("u", "- note: TODO")),
                         ["this sentence again", "says TODO"])
        self.assertEqual(self.problems(row("sentence 1", "- note: on another page")), [])

    def test_a_long_line(self):
        self.assertEqual(self.problems(row("s", "- note: x"), "a" * 161), ["161 columns, more than 160"])

    def test_names_of_the_index(self):
        index = self.read("README.md")
        self.write("docs/traceability/README.md", index + '\n    **"s"**\n    - run in layout.c: `see_map`\n\n| `Rules.room_of`, `lob` | x |\n')
        self.assertEqual(self.problems(row("s", "- note: x")), ["`lob` is nowhere"])
        self.write("docs/traceability/README.md", index + '\n    **"s"**\n    - run in layout.c: `see_lob`\n')
        self.assertEqual(self.problems(row("s", "- note: x")), ["`layout.c: see_lob` is nowhere"])

    def test_too_few_rows(self):
        os.remove(os.path.join(self.root, "docs/traceability/02-full.md"))
        self.assertEqual(self.problems(row("s", "- note: x")), ["1 rows, fewer than 100"])


class Writing(Case):
    def test_a_row(self):
        many = ", ".join(["`Rules.Meets.enough`"] * 8)
        self.page("Text.\n\n", row("s", "- note: x", f"- stated: {many}", "- run: `every.txt: used`", "- quoted: `Rules.old`"), "## More\n")
        self.run_main("--write")
        lines = self.read("01-page.md").splitlines()
        self.assertEqual(lines[:5], ["# A page", "", "Text.", "", '**"s"**'])
        self.assertEqual(lines[6:], ["  " + ", ".join(["`Rules.Meets.enough`"] * 3), "- run: `every.txt: used`", "- note: x", "", "## More"])
        self.assertLessEqual(max(map(len, lines)), traceability.WIDTH)

    def test_nothing_is_lost(self):
        text = "a `b c` (d), `e, f"
        self.assertEqual(" ".join(traceability.fill(text)), text)

    def test_the_index_and_the_files(self):
        self.page(row("s", "- open: R-1"), row("t", "- run: `every.txt: used`"))
        self.run_main("--write")
        self.run_main("--write")
        self.assertEqual(self.read("README.md"), "# Index\n\n" + traceability.INDEX_HEAD
                         + "| [A page](01-page.md) | 2 | 1 |\n| [A page](02-full.md) | 100 | - |\n\nThe end.\n")
        self.assertEqual(self.read("FILES.md"), traceability.FILES_HEAD
                         + "- [Rules](../../crates/rules/specs/Rules.antt)\n- [every.txt](../../samples/every.txt)\n")

    def test_what_was_not_written(self):
        self.assertEqual(self.problems(row("major is at least 1", "- note: x")), [])
        for name in ("01-page.md", "README.md", "FILES.md"):
            text = self.read(name)
            self.write("docs/traceability/" + name, text.replace("Rules", "Rule") if name != "README.md" else text.replace("100", "99"))
            found = traceability.Table(self.root).problems()
            self.assertEqual([(file, problem) for file, _, problem in found], [(name, "not as `make traceability` writes it")])
            self.write("docs/traceability/" + name, text)


class Documents(Case):
    def test_sentences(self):
        document = spec_quotes.fold("# Title\n\n**Room** is the\nsmaller, `/` of 16..47 bytes. The end.")
        for sentence, there in {"Room is the smaller, `/` of 16..47 bytes.": True, "Room .. of 16..47 bytes. .. end": True,
                                "Room is the larger": False, "end .. Room": False}.items():
            rows = [("p", traceability.Row(1, sentence, []))]
            self.assertEqual(traceability.quote_problems(rows, [document]) == [], there)

    def test_what_is_left(self):
        rows = [("p", traceability.Row(1, "b .. d", []))]
        self.assertEqual(traceability.unquoted(rows, "a. b c d. e"), ["a.", ". e"])

    def test_status(self):
        self.assertEqual(self.problems(row("**say** \"so\"", "- note: x")), [])
        has = self.write("has.txt", 'say "so". ' + " ".join(f"sentence {n}." for n in range(traceability.FEWEST_ROWS)) + " More.")
        status, said = self.run_main(has)
        self.assertEqual(status, 0)
        self.assertIn("not quoted: . More.\n", said)
        self.assertIn("101 rows on 2 pages, 0 open; 100 names, 0 of them from quotes in specs/; 9 quotes there, 9 of no row; 0 problems", said)
        self.assertEqual(self.run_main(self.write("lacks.txt", "sentence 1."))[0], 1)


class Main(Case):
    def test_where(self):
        self.page(row("Page aligned", "- checked: `rules::head::Cursor::step`", "- run in layout.c: `see_map`"))
        for word in ("page", "rules::head::Cursor::step", "SEE_map"):
            status, said = self.run_main("--where", word)
            self.assertEqual(status, 0)
            self.assertIn('docs/traceability/01-page.md:3: "Page aligned"\n', said)
            self.assertIn("crates/rules/src/head.rt:6, proof: crates/rules/proofs/head/Cursor/step/Invariants.antt, "
                          "crates/rules/proofs/head/Cursor/step/Answers.antt\n", said)
            self.assertIn("tests/layout.c:4\n", said)
        self.assertIn("Rules.Meets: crates/rules/specs/Rules.antt:5\n", self.run_main("--where", "Rules.Meets")[1])
        self.assertEqual(self.run_main("--where", "lob")[0], 1)

    def test_status(self):
        self.assertEqual(self.problems(row("s", "- note: x")), [])
        self.assertEqual(self.run_main()[0], 0)
        self.page(row("s", "- stated: `lob`"))
        status, said = self.run_main()
        self.assertEqual(status, 1)
        self.assertIn("docs/traceability/01-page.md:3: `lob` is nowhere\n", said)
        self.assertEqual(self.run_main("--where")[0], 2)
        self.assertEqual(self.run_main("--lob")[0], 2)


if __name__ == "__main__":
    unittest.main()
