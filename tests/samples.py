#!/usr/bin/env python3
"""Holds a listing program to the samples: what it prints for each NAME.bin has to be NAME.txt, byte for byte.

usage: samples.py PROGRAM FOLDER

Each context is given twice: at once, and in two pieces, since a read may give less than it was asked for.
"""

import difflib
import fcntl
import os
import struct
import subprocess
import sys
import termios
import time

# Fewer than this means that the folder is not the one that was meant.
LEAST = 20
SECONDS = 10
PAUSE = 0.002
# How long the second piece waits for the first to be read.
WAIT = 1.0


def names_of(folder, ending):
    return {name[: -len(ending)] for name in os.listdir(folder) if name.endswith(ending)}


def read(path):
    with open(path, "rb") as data:
        return data.read()


def unread(pipe):
    """How many bytes of a pipe nobody has read yet."""
    return struct.unpack("i", fcntl.ioctl(pipe, termios.FIONREAD, bytes(4)))[0]


def give(process, data):
    """Gives half of the bytes, waits until they are read, so that the program's read falls short, and leaves the rest."""
    half = len(data) // 2
    try:
        process.stdin.write(data[:half])
        time.sleep(PAUSE)
        end = time.monotonic() + WAIT
        while unread(process.stdin) and process.poll() is None and time.monotonic() < end:
            time.sleep(PAUSE)
    except BrokenPipeError:
        pass
    return data[half:]


def run(program, data, in_pieces):
    """What the program prints, and what else it did that it should not have done."""
    # Unbuffered, so that a piece is in the pipe as soon as it is written.
    process = subprocess.Popen([program], bufsize=0, stdin=subprocess.PIPE, stdout=subprocess.PIPE, stderr=subprocess.PIPE)
    try:
        rest = give(process, data) if in_pieces else data
        printed, complaint = process.communicate(rest, timeout=SECONDS)
    except subprocess.TimeoutExpired:
        process.kill()
        printed, _ = process.communicate()
        return printed, [f"not finished after {SECONDS} s"]
    wrong = [] if process.returncode == 0 else [f"exit status {process.returncode}"]
    return printed, wrong + ([f"standard error has {complaint[:200]!r}"] if complaint else [])


def lines_of(listing):
    """Lines for a diff, in a form that shows every byte and a missing end of line."""
    return [repr(line)[1:] for line in listing.splitlines(keepends=True)]


def compare(program, folder, name, in_pieces):
    """Prints and answers whether the program fails on a sample."""
    expected = read(os.path.join(folder, name + ".txt"))
    printed, wrong = run(program, read(os.path.join(folder, name + ".bin")), in_pieces)
    if printed != expected:
        wrong.append("output differs")
    if wrong:
        print(f"samples: {name}, {'in two pieces' if in_pieces else 'at once'}: {'; '.join(wrong)}")
        for line in difflib.unified_diff(lines_of(expected), lines_of(printed), name + ".txt", "printed", lineterm=""):
            print("    " + line)
    return bool(wrong)


def main(arguments):
    if len(arguments) != 2:
        print(__doc__, file=sys.stderr)
        return 2
    program, folder = os.path.abspath(arguments[0]), arguments[1]
    contexts, listings = names_of(folder, ".bin"), names_of(folder, ".txt")
    alone = sorted(contexts ^ listings)
    for name in alone:
        print(f"samples: {name} has no {'listing' if name in contexts else 'context'}")
    compared = sorted(contexts & listings)
    failed = [name for name in compared for in_pieces in (False, True) if compare(program, folder, name, in_pieces)]
    print(f"samples: {len(compared)} listings compared")
    if len(compared) < LEAST:
        print(f"samples: fewer than {LEAST}")
    return 1 if alone or failed or len(compared) < LEAST else 0


if __name__ == "__main__":
    sys.exit(main(sys.argv[1:]))
