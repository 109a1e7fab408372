#!/usr/bin/env python3
"""Tests readme.py on a small repository in a folder of its own: it passes, and each fault that is put into it is told."""

import contextlib
import io
import pathlib
import sys
import tempfile
import unittest

sys.dont_write_bytecode = True

import readme

SAMPLE = bytes(range(48))
ROWS = "".join(f"{at:6}  + {SAMPLE[at:at + 8].hex(' ')}   what\n" for at in range(0, 40, 8))
FILES = {
    "README.md": f"""# Title

See [calls](docs/CALLS.md#the-calls-of-c), [here](#title), [samples](samples) and [far](https://example.com/nowhere).
`[no link](nowhere)`

```
{ROWS}[no link](nowhere)
```

```c
int one(void)
{{
    return 1;
}}
```

```rust
fn two() -> u32 {{
    2
}}
```
""",
    "docs/CALLS.md": "# Calls\n\n## The calls, of `C`\n\n[back](../README.md)\n\n## Twice\n\n## Twice\n\n[second](#twice-1)\n",
    "docs/deep/PAGE.md": "# Deep\n\n[up](../CALLS.md#calls)\n",
    "tests/README.md": "# Tests\n",
    "examples/one.c": "#include <x.h>\n\nint one(void)\n{\n    return 1;\n}\n\nint more;\n",
    "crates/two/src/lib.rt": "fn two() -> u32 {\n    2\n}\n",
    "crates/two/README.md": "# Two\n",
}


class Case(unittest.TestCase):
    def setUp(self):
        folder = tempfile.TemporaryDirectory()
        self.addCleanup(folder.cleanup)
        self.root = pathlib.Path(folder.name)
        for path, text in FILES.items():
            (self.root / path).parent.mkdir(parents=True, exist_ok=True)
            (self.root / path).write_text(text, encoding="utf-8")
        (self.root / "samples").mkdir()
        (self.root / "samples/listing.bin").write_bytes(SAMPLE)

    def change(self, path, old, new):
        text = (self.root / path).read_text(encoding="utf-8")
        self.assertEqual(text.count(old), 1, (path, old))
        (self.root / path).write_text(text.replace(old, new), encoding="utf-8")

    def told(self, *expected):
        self.assertEqual(readme.problems(self.root), list(expected))

    def main(self):
        said = io.StringIO()
        with contextlib.redirect_stdout(said):
            status = readme.main([str(self.root)])
        return status, said.getvalue()

    def test_passes(self):
        self.told()
        self.assertEqual(self.main(), (0, "readme: 5 pages, 6 links, 2 blocks of code\n"))
        (self.root / "tests/README.md").write_text("[no](where)\n", encoding="utf-8")
        self.assertEqual(self.main(), (1, "tests/README.md: where: no such file\n"))

    def test_size(self):
        text = (self.root / "README.md").read_text(encoding="utf-8")
        (self.root / "README.md").write_text(text + " " * (10240 - len(text)), encoding="utf-8")
        self.told()
        (self.root / "README.md").write_text(text + " " * (10241 - len(text)), encoding="utf-8")
        self.told("README.md: 10241 bytes, expected 1 to 10240")

    def test_no_readme(self):
        (self.root / "README.md").unlink()
        self.assertIn("README.md: 0 bytes, expected 1 to 10240", readme.problems(self.root))

    def test_code_that_changed(self):
        self.change("examples/one.c", "return 1", "return 2")
        self.told("README.md: a block of `c` that is in no file of examples/*.c, include/ultra.h: `int one(void)`")

    def test_code_of_part_of_a_line(self):
        self.change("crates/two/src/lib.rt", "fn two", "pub fn two")
        self.told("README.md: a block of `rust` that is in no file of crates/*/src/**/*.rt: `fn two() -> u32 {`")

    def test_code_of_another_language(self):
        self.change("README.md", "```rust", "```c")
        self.told("README.md: a block of `c` that is in no file of examples/*.c, include/ultra.h: `fn two() -> u32 {`",
                  "README.md: no block of `rust`")
        self.change("README.md", "```c\nfn", "```C\nfn")
        self.told("README.md: a block of `C`, which nothing compiles", "README.md: no block of `rust`")

    def test_code_of_a_page(self):
        self.change("docs/deep/PAGE.md", "# Deep\n", "# Deep\n\n```c\nint two;\n```\n\n```c\n```\n")
        self.told("docs/deep/PAGE.md: a block of `c` that is in no file of examples/*.c, include/ultra.h: `int two;`",
                  "docs/deep/PAGE.md: an empty block of `c`")

    def test_a_block_that_is_not_closed(self):
        self.change("docs/deep/PAGE.md", "# Deep\n", "# Deep\n\n```c\nint two;\n")
        self.told("docs/deep/PAGE.md: a block that is not closed")

    def test_a_file_that_is_gone(self):
        self.change("crates/two/README.md", "# Two\n", "# Two\n\n[calls](../../docs/CALL.md)\n")
        self.told("crates/two/README.md: ../../docs/CALL.md: no such file")

    def test_a_heading_that_is_gone(self):
        self.change("docs/CALLS.md", "## The calls, of `C`", "## The calls")
        self.told("README.md: docs/CALLS.md#the-calls-of-c: no such heading")
        self.change("docs/CALLS.md", "#twice-1", "#twice-2")
        self.change("docs/CALLS.md", "## The calls\n", "```\n## The calls of C\n```\n")
        self.told("README.md: docs/CALLS.md#the-calls-of-c: no such heading", "docs/CALLS.md: #twice-2: no such heading")

    def test_the_picture(self):
        self.change("README.md", "08 09 0a", "08 09 0b")
        self.told("README.md: `08 09 0b 0b 0c 0d 0e 0f` at 8, expected `08 09 0a 0b 0c 0d 0e 0f` as in samples/listing.bin")
        self.change("README.md", "     8  + ", "  2000  + ")
        self.told("README.md: `08 09 0b 0b 0c 0d 0e 0f` at 2000, expected `` as in samples/listing.bin")
        self.change("README.md", "  2000  + ", "  ")
        self.told("README.md: 4 rows of bytes, expected 5 at least")


if __name__ == "__main__":
    unittest.main()
