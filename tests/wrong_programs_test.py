#!/usr/bin/env python3
"""Tests wrong_programs.py on two small crates in a folder of their own."""

import contextlib
import io
import os
import sys
import tempfile
import unittest

sys.dont_write_bytecode = True

import wrong_programs

SECTIONS = [("Calls", "", ["`read`"]), ("Others", "A note.", ["`begin`, `add`", "a refusal"])]

FILES = {
    "crates/one/src/lib.rt": "if a < b {\n    return b;\n}\nif a < c {\n    return c;\n}\n",
    "crates/two/specs/Rules.antt": "most = 1024\n",
    "crates/one/must-fail/at_the_end.edit": "wrong: the end counts\nof: read\nfile: src/lib.rt\nold: a < b\nnew: a <= b\n",
    "crates/one/must-fail/exchanged.edit": "wrong: b and c exchanged\nof: begin, add\nA comment.\nfile: src/lib.rt\n"
    "old: return b;\nnew: return first;\nold: return c;\nnew: return b;\nold: return first;\nnew: return c;\n",
    "crates/two/must-fail/spec_more.edit": "wrong: 1,025 pass\nof: read\nfile: specs/Rules.antt\nold: 1024\nnew: 1025\n",
    "docs/wrong_programs_untried.txt": "# A comment.\n\nof: a refusal\nwrong: a refusal is lost\n",
}

ROWS = """\
## Calls

| What is wrong | Label | Crate |
|---|---|---|
| **`read`** | | |
| the end counts | `at_the_end` | one |
| 1,025 pass | `spec_more` | two |

## Others

A note.

| What is wrong | Label | Crate |
|---|---|---|
| **`begin`, `add`** | | |
| b and c exchanged | `exchanged` | one |
| **a refusal** | | |
| a refusal is lost | no edit | |
"""

END = "crates/one/must-fail/at_the_end.edit"
EXCHANGED = "crates/one/must-fail/exchanged.edit"
MORE = "crates/two/must-fail/spec_more.edit"


class Folder(unittest.TestCase):
    def setUp(self):
        holder = tempfile.TemporaryDirectory()
        self.addCleanup(holder.cleanup)
        self.root = holder.name
        for path, text in FILES.items():
            self.put(path, text)

    def put(self, path, text):
        whole = os.path.join(self.root, path)
        os.makedirs(os.path.dirname(whole), exist_ok=True)
        with open(whole, "w", encoding="utf-8") as file:
            file.write(text)

    def change(self, path, old, new):
        self.assertEqual(FILES[path].count(old), 1)
        self.put(path, FILES[path].replace(old, new))

    def run_main(self, *arguments):
        """(status, what was printed)."""
        said = io.StringIO()
        with contextlib.redirect_stdout(said):
            status = wrong_programs.main(list(arguments), self.root, SECTIONS)
        return status, said.getvalue()

    def page(self):
        return wrong_programs.read(os.path.join(self.root, wrong_programs.PAGE))

    def refused(self, said):
        """Writing is refused, for what is said."""
        status, printed = self.run_main("--write")
        self.assertEqual(status, 1, printed)
        self.assertIn(said, printed)


class Page(Folder):
    def test_what_is_written(self):
        status, said = self.run_main("--write")
        self.assertEqual(status, 0, said)
        self.assertEqual(self.page(), wrong_programs.INTRODUCTION + "\n" + ROWS)
        self.assertIn("3 edits of 2 crates, 1 that no edit tries, 0 problems", said)

    def test_it_passes_as_written(self):
        self.run_main("--write")
        self.assertEqual(self.run_main()[0], 0)

    def test_no_page(self):
        self.assertEqual(self.run_main()[0], 1)

    def test_page_changed_by_hand(self):
        self.run_main("--write")
        self.put(wrong_programs.PAGE, self.page().replace("the end counts", "the end"))
        status, said = self.run_main()
        self.assertEqual(status, 1)
        self.assertIn("+| the end counts |", said)

    def test_edit_changed_after_the_page(self):
        self.run_main("--write")
        self.change(END, "the end counts", "the end is counted")
        self.assertEqual(self.run_main()[0], 1)

    def test_nothing_is_written_where_an_edit_is_wrong(self):
        self.run_main("--write")
        before = self.page()
        self.change(END, "of: read", "of: reads")
        self.assertEqual(self.run_main("--write")[0], 1)
        self.assertEqual(self.page(), before)


class Problems(Folder):
    def test_no_wrong(self):
        self.change(END, "wrong: the end counts\n", "")
        self.refused("one/at_the_end: it needs one `wrong:`")

    def test_wrong_twice(self):
        self.change(END, "of: read\n", "of: read\nwrong: more\n")
        self.refused("one/at_the_end: it needs one `wrong:`")

    def test_wrong_empty(self):
        self.change(END, "wrong: the end counts\n", "wrong:\n")
        self.refused("one/at_the_end: its `wrong:` is empty")

    def test_of_after_the_file(self):
        self.change(END, "of: read\nfile: src/lib.rt\n", "file: src/lib.rt\nof: read\n")
        self.refused("one/at_the_end: it needs one `of:`")

    def test_unknown_group(self):
        self.change(END, "of: read", "of: reading")
        self.refused("one/at_the_end: `of: reading` is no group")

    def test_unknown_group_of_what_is_untried(self):
        self.put(wrong_programs.UNTRIED, "of: a refusal\nwrong: it is lost\nof: nothing\nwrong: more\n")
        self.refused("`of: nothing` is no group")

    def test_group_without_a_row(self):
        self.put(wrong_programs.UNTRIED, "")
        self.refused("group a refusal: no edit is of it")

    def test_untried_line_of_another_kind(self):
        self.put(wrong_programs.UNTRIED, FILES[wrong_programs.UNTRIED] + "wrong it is late\n")
        self.refused("neither `of:`, `wrong:` nor a comment: wrong it is late")

    def test_two_of_one_crate_say_the_same(self):
        self.change(EXCHANGED, "wrong: b and c exchanged", "wrong: the end counts")
        self.refused("one/exchanged: one/at_the_end says the same")

    def test_two_crates_may_say_the_same(self):
        self.change(MORE, "wrong: 1,025 pass", "wrong: the end counts")
        self.assertEqual(self.run_main("--write")[0], 0)

    def test_too_long(self):
        self.change(END, "the end counts", "n" * 111)
        self.refused("one/at_the_end: the text is too long, 111")

    def test_row_too_long(self):
        self.put(f"crates/one/must-fail/{'l' * 60}.edit", FILES[END].replace("the end counts", "n" * 100))
        self.refused("the text is too long, 100")

    def test_group_there_twice(self):
        twice = SECTIONS + [("More", "", ["`read`"])]
        self.assertEqual(wrong_programs.group_problems(wrong_programs.read_edits(self.root)[0], twice)[-1], "group read: it is there twice")

    def test_bar(self):
        self.change(END, "the end counts", "the end | counts")
        self.refused("a | would end the cell")

    def test_no_edit(self):
        for path in END, EXCHANGED, MORE:
            os.remove(os.path.join(self.root, path))
        self.refused("there is no edit")


class Replacements(Folder):
    def test_old_not_there(self):
        self.change(END, "old: a < b", "old: a < d")
        self.refused("one/at_the_end: its `old:` is 0 times in src/lib.rt: a < d")

    def test_old_twice(self):
        self.change(END, "old: a < b", "old: a < ")
        self.refused("one/at_the_end: its `old:` is 2 times in src/lib.rt")

    def test_crate_changed_after_the_edit(self):
        self.change("crates/two/specs/Rules.antt", "1024", "2048")
        self.refused("two/spec_more: its `old:` is 0 times")

    def test_a_later_step_finds_what_an_earlier_one_left(self):
        self.change(EXCHANGED, "old: return first;", "old: return last;")
        self.refused("one/exchanged: its `old:` is 0 times in src/lib.rt: return last;")

    def test_a_later_step_finds_two_that_an_earlier_one_made(self):
        self.change(EXCHANGED, "new: return first;", "new: return c;")
        self.refused("one/exchanged: its `old:` is 2 times in src/lib.rt: return c;")

    def test_no_new(self):
        self.change(EXCHANGED, "new: return first;\n", "")
        self.refused("one/exchanged: no `new:` for `old: return b;`")

    def test_no_new_at_the_end(self):
        self.change(END, "new: a <= b\n", "")
        self.refused("one/at_the_end: no `new:` for `old: a < b`")

    def test_no_old(self):
        self.change(END, "old: a < b\n", "")
        self.refused("one/at_the_end: no `old:` for `new: a <= b`")

    def test_no_blank(self):
        self.change(END, "old: a < b", "old:a < b")
        self.refused("rt passes over `old:a < b`")

    def test_an_empty_new_is_a_replacement(self):
        self.change(END, "new: a <= b\n", "new:\n")
        self.assertEqual(self.run_main("--write")[0], 0)

    def test_nothing_changed(self):
        self.change(END, "new: a <= b", "new: a < b")
        self.refused("one/at_the_end: it changes nothing")

    def test_no_such_file(self):
        self.change(END, "file: src/lib.rt", "file: src/main.rt")
        self.refused("`file: src/main.rt` is no file of the crate's")

    def test_file_out_of_the_crate(self):
        self.change(END, "file: src/lib.rt", "file: src/../../two/specs/Rules.antt")
        self.refused("is no file of the crate's")

    def test_file_of_another_part(self):
        self.put("crates/one/notes/lib.rt", FILES["crates/one/src/lib.rt"])
        self.change(END, "file: src/lib.rt", "file: notes/lib.rt")
        self.refused("`file: notes/lib.rt` is no file of the crate's")


if __name__ == "__main__":
    unittest.main()
