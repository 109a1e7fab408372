#!/usr/bin/env python3
"""Prints how much there is of what, each figure with how it is counted. No text keeps them: they change with every commit.

usage: figures.py

The last two are of the archive, as `make archive` made it last.
"""

import pathlib
import re
import shutil
import subprocess
import sys

ROOT = pathlib.Path(__file__).resolve().parent.parent
STACK = ROOT / "tests/stack.py"
FUNCTION = re.compile(r'^ *(?:pub )?(?:extern "C" )?fn ', re.MULTILINE)
# Crates that are no part of the library or its promises: they run it.
RUNS = ("cases_", "call_", "framed_", "example_")


def files(folders, *patterns):
    """The files under the folders that have one of the patterns, each once."""
    return sorted({file for folder in folders for pattern in patterns for file in folder.rglob(pattern)})


def lines(found):
    return sum(file.read_bytes().count(b"\n") for file in found)


def functions(found):
    return sum(len(FUNCTION.findall(file.read_text(encoding="utf-8"))) for file in found)


def parts(crates, name):
    """The folder of that name in each of the crates."""
    return [crate / name for crate in crates]


def of_sources(root):
    """The figures that the repository itself has: what, how much, how it is counted."""
    crates = sorted(folder for folder in (root / "crates").iterdir() if folder.is_dir())
    running = [crate for crate in crates if crate.name.startswith(RUNS)]
    runs = ", ".join(f"{name}*" if name.endswith("_") else name for name in RUNS)
    library = [crate for crate in crates if crate not in running]
    tests = files([root / "tests", root / "samples"], "*.[ch]", "*.rs", "*.py", "*.sh")
    return [
        ("crates", len(crates), "folders of crates/"),
        ("lines of code", lines(files(parts(library, "src"), "*.rt")), f"src/ of every crate but {runs}"),
        ("lines of definitions and statements", lines(files(parts(library, "specs"), "*.antt")), "specs/ of the same crates"),
        ("lines of proofs", lines(files(parts(library, "proofs"), "*.antt")), "proofs/ of the same crates"),
        ("functions, each proved", functions(files(parts(crates, "src"), "*.rt")), "`fn` in src/ of every crate"),
        ("wrong programs, each refused", len(files(parts(crates, "must-fail"), "*.edit")), "must-fail/*.edit of every crate"),
        ("lines of programs that run it", lines(files(parts(running, "src"), "*.rt")), f"src/ of {runs}"),
        ("lines of tests", lines(tests), "C, Rust, Python and shell in tests/ and samples/"),
        ("samples", len(files([root / "samples"], "*.bin")), "samples/*.bin"),
    ]


def deepest_stack(path):
    """The bytes of stack that the deepest call of an archive takes, as the table of stack.py says; None where it makes none."""
    told = subprocess.run([sys.executable, STACK, path, "0", "0"], capture_output=True, text=True, check=False).stdout
    deepest = re.search(r"^deepest: \w+, (\d+) bytes", told, re.MULTILINE)
    return int(deepest[1]) if deepest else None


def of_archive(path):
    """The figures of the archive; None stands for one that cannot be had."""
    if not path.exists():
        return [("bytes of libultra.a", None, "not made yet: make archive")]
    stack = deepest_stack(path)
    missing = stack is None and not shutil.which("objdump")
    return [
        ("bytes of libultra.a", path.stat().st_size, "target/staticlib/libultra.a"),
        ("bytes of stack, deepest call", stack, "objdump is not found: make tools" if missing else "tests/stack.py"),
    ]


def main():
    for what, figure, counted in of_sources(ROOT) + of_archive(ROOT / "target/staticlib/libultra.a"):
        print(f"{what:36}{'-' if figure is None else format(figure, ','):>8}  {counted}")


if __name__ == "__main__":
    main()
