#!/usr/bin/env python3
"""Tests stack.py: against gcc's own -fstack-usage, at its limit, and on code that it must refuse.

usage: stack_test.py FOLDER     FOLDER is for what is compiled
"""

import os
import subprocess
import sys

HERE = os.path.dirname(os.path.abspath(__file__))
CC = os.environ.get("CC", "gcc")
NO_LIMIT = "1000000"
PLAIN = ["-fno-stack-protector", "-fno-asynchronous-unwind-tables", "-fcf-protection=none"]
SHAPES = ["-O0", "-O1", "-O2", "-Os", "-O2 -fno-omit-frame-pointer", "-O2 -fPIC", "-O2 -fno-pic -ffunction-sections"]
BAD = {
    "RECURSION": "recursion: exported -> exported",
    "MUTUAL": "recursion: ",
    "INDIRECT_CALL": "an indirect call",
    "INDIRECT_JUMP": "not through a jump table",
    "VARIABLE": "the stack pointer changes",
    "UNKNOWN": "calls unknown",
    "UNBALANCED": "leaves the function with 8 bytes",
    "TWO_DEPTHS": "with two depths",
    "MOVED": "the stack pointer changes",
    "NOTHING": "exports no function",
}

checks = 0
failures = 0


def check(holds, message):
    global checks, failures
    checks += 1
    if not holds:
        failures += 1
        print(f"stack_test.py: {message}", file=sys.stderr)


def compile_archive(folder, source, options):
    thing = os.path.join(folder, "thing")
    for suffix in (".o", ".a", ".su"):
        if os.path.exists(thing + suffix):
            os.remove(thing + suffix)
    subprocess.run([CC, "-w", *PLAIN, *options, "-fstack-usage", "-c", os.path.join(HERE, "stack", source), "-o", thing + ".o"], check=True)
    subprocess.run(["ar", "rcs", thing + ".a", thing + ".o"], check=True)
    return thing


def figures(archive, *limits):
    return subprocess.run([sys.executable, os.path.join(HERE, "stack.py"), archive, *limits], capture_output=True, text=True, check=False)


def usage(path):
    """What gcc says of each function: its frame with the return address."""
    with open(path, encoding="utf-8") as lines:
        return {line.split(":")[-1].split("\t")[0]: int(line.split("\t")[1]) for line in lines}


def own_figures(archive):
    done = figures(archive)
    check(done.returncode == 0, f"{archive}: {done.stderr.strip()}")
    return {line.split()[1]: int(line.split()[0]) for line in done.stdout.splitlines()}


def deepest_of(text, call):
    """The figure and the path of a call in the table."""
    for line in text.splitlines():
        if line.split()[0] == call:
            return int(line.split()[1]), line
    return None, ""


def test_shape(folder, options):
    thing = compile_archive(folder, "good.c", ["-mno-red-zone", *options])
    told, own = usage(thing + ".su"), own_figures(thing + ".a")
    check(len(told) == 11 and told == own, f"{options}: gcc says {told}, stack.py {own}")

    deepest, line = deepest_of(figures(thing + ".a", NO_LIMIT, NO_LIMIT).stdout, "all")
    path = told["all"] + told["table"] + told["copy"] + (8 if "memcpy" in line else 0)
    check(deepest == path, f"{options}: all -> table -> copy takes {path}, stack.py says {deepest}")
    largest = max(told.values())
    check(figures(thing + ".a", str(deepest), str(largest)).returncode == 0, f"{options}: refused at its limits")
    check(figures(thing + ".a", str(deepest - 1), str(largest)).returncode == 1, f"{options}: a call passed above its limit")
    check(figures(thing + ".a", str(deepest), str(largest - 1)).returncode == 1, f"{options}: a function passed above its limit")

    deepest, _ = deepest_of(figures(thing + ".a", NO_LIMIT, NO_LIMIT).stdout, "many")
    check(deepest == told["many"] + 24, f"{options}: three arguments on the stack are not counted")


def test_red_zone(folder):
    thing = compile_archive(folder, "good.c", ["-O2"])
    own = own_figures(thing + ".a")["many"]
    check(8 + 50 <= own <= 8 + 128, f"50 bytes below the stack pointer: stack.py says {own}")


def test_bad(folder, name, wanted):
    thing = compile_archive(folder, "bad.c", ["-O2", "-fno-optimize-sibling-calls" if name == "MUTUAL" else "-O2", f"-D{name}"])
    done = figures(thing + ".a", NO_LIMIT, NO_LIMIT)
    check(done.returncode == 1 and wanted in done.stderr, f"{name}: exit status {done.returncode}, {done.stderr.strip()!r}, not {wanted!r}")


def main(arguments):
    folder = arguments[0]
    os.makedirs(folder, exist_ok=True)
    for shape in SHAPES:
        test_shape(folder, shape.split())
    test_red_zone(folder)
    for name, wanted in BAD.items():
        test_bad(folder, name, wanted)
    print(f"stack_test: {checks} checks, {failures} failed")
    return 1 if failures or not checks else 0


if __name__ == "__main__":
    sys.exit(main(sys.argv[1:]))
