#!/usr/bin/env python3
"""Checks the driver's page against the program and the published calls.

usage: driver.py PAGE PROGRAM

Every published call of Rattle is in the page's table once. A frame of as many numbers and strings as a row says is answered by as many as it
says; one more of either, and the number after the last row, is malformed. The limits on the page are the program's. The calls on Handover
payloads answer what CASES has, written by hand. The page's example prints what its comment says; it names the program by its path from the
repository's root, so this runs there.
"""

import os
import pathlib
import re
import struct
import subprocess
import sys

import published

BLOCK = re.compile(r"^```python\n(.*?)^```$", re.MULTILINE | re.DOTALL)
SAID = re.compile(r"^print\(.*\) +# (\[.*?\])", re.MULTILINE)
ROW = re.compile(r"^\| (\d+) \| `([\w:]+)` \| (\d+), (\d+) \|[^|\n]*\|[^|\n]*\| (\d+), (\d+) \|", re.MULTILINE)
# What the page says of its limits, and frames (call, numbers, strings) at a limit.
LIMITS = [
    (r"it has at most ([\d,]+) bytes", lambda most: (1, [], [bytes(most)])),
    (r"there may be at most ([\d,]+) of them", lambda most: (15, [], [b"", bytes(8 * most)])),
    (r"A frame may give at most ([\d,]+) modules", lambda most: (25, [], [b"", bytes(88 * most)])),
    (r"as there are whole, at most ([\d,]+), each", lambda most: (32, [], [b"", b"", bytes(8 * most), b""])),
    (r"A frame of a call has at most ([\d,]+) bytes", lambda most: (17, [], [b"", bytes(most - 24)])),
]
MALFORMED = 0xFFFFFFFF
KEPT = None  # in the place of the buffer: the one that is there


# ---- Frames ----


def eights(numbers):
    """Numbers of 8 bytes each."""
    return struct.pack(f"<{len(numbers)}Q", *numbers)


def string(given):
    """A string with its length before it."""
    return struct.pack("<I", 0xFFFFFFFF) if given is KEPT else struct.pack("<I", len(given)) + given


def frame(call, numbers, strings):
    rest = eights(numbers) + b"".join(map(string, strings))
    return struct.pack("<4I", call, len(numbers), len(strings), len(rest)) + rest


def answer_at(said, at):
    """((call, numbers, strings) of the answer at a place, the place after it)."""
    call, n, s, rest = struct.unpack_from("<4I", said, at)
    numbers, end, strings = list(struct.unpack_from(f"<{n}Q", said, at + 16)), at + 16 + 8 * n, []
    for _ in range(s):
        (length,) = struct.unpack_from("<I", said, end)
        strings.append(said[end + 4 : end + 4 + length])
        end += 4 + length
    if end != at + 16 + rest:
        raise ValueError(f"an answer of call {call} says that {rest} bytes follow its head, and {end - at - 16} do")
    return (call, numbers, strings), end


def asked(program, frames):
    """(call, numbers, strings) of each answer."""
    said = subprocess.run([program], input=b"".join(frames), capture_output=True, timeout=60, check=True).stdout
    answers, at = [], 0
    while at < len(said):
        answer, at = answer_at(said, at)
        answers.append(answer)
    return answers


# ---- Handover payloads: a head of magic, agent, size and count; records; the table of strings ----

END = "ffffffff 00000000 0000000000000000 0000000000000000 00000000 00000000"
LEAST = bytes.fromhex("01b001c0 00000000 31000000 01000000" + END + "00")
# Of a FILE, a CMDLINE, whose word at 24 is a plain number, and the end.
PAYLOAD = bytes.fromhex(
    "01b001c0 00000000 83000000 03000000"
    "3b6dc3cb 01000000 0000200000000000 3412000000000000 05000000 0a000000"
    "c4405143 00000000 0000000000000000 0000000000000000 07000000 0d000000" + END
) + b"boot\0init\0{}\0quiet\0"
# The CMDLINE's meta starts where the table ends.
UNCLOSED = PAYLOAD[:76] + bytes.fromhex("13000000") + PAYLOAD[80:]
# What PAYLOAD is written from: the words that are set, and the numbers of strings that are not named, count for nothing.
RECORDS = bytes.fromhex(
    "3b6dc3cb 01000000 0000200000000000 3412000000000000 aaaaaaaa bbbbbbbb"
    "c4405143 00000000 0000000000000000 0000000000000000 07000000 cccccccc" + END
)
PARTS = [11, 4, 7, 4, 5, 2, 99, 99, 0, 5, 99, 99, 99, 99]
RUN = b"quiet{}initboot"


def written(room, parts, run=RUN):
    """A call that writes PAYLOAD into that many bytes, all of them 238."""
    return frame(32, [], [b"\xee" * room, RECORDS, parts, run])


NO_CALL = (MALFORMED, [], [])
# (what it is, the frame, its answer)
CASES = [
    ("the least payload", frame(26, [], [LEAST]), (26, [0, 49], [LEAST])),
    ("its agent", frame(27, [], [LEAST]), (27, [0, 49, 0, 48, 0], [LEAST])),
    ("its agent's string", frame(28, [], [LEAST]), (28, [0, 0, 48, 0], [LEAST, b""])),
    ("its end", frame(29, [0], [LEAST]), (29, [0, 49, 0xFFFFFFFF] + [0] * 9, [LEAST])),
    ("past its end", frame(29, [1], [LEAST]), (29, [3, 49] + [0] * 10, [LEAST])),
    ("an index of 33 bits", frame(29, [1 << 32], [LEAST]), (29, [3, 49] + [0] * 10, [LEAST])),
    ("no bytes", frame(26, [], [b""]), (26, [1, 0], [b""])),
    ("another magic", frame(26, [], [b"\0" + LEAST[1:]]), (26, [20, 0], [b"\0" + LEAST[1:]])),
    ("a byte too few", frame(26, [], [LEAST[:48]]), (26, [21, 0], [LEAST[:48]])),
    ("a payload of three records", frame(26, [], [PAYLOAD + b"more"]), (26, [0, 131], [PAYLOAD + b"more"])),
    ("its agent", frame(27, [], [PAYLOAD]), (27, [0, 131, 0, 112, 4], [PAYLOAD])),
    ("its agent's string", frame(28, [], [PAYLOAD]), (28, [0, 0, 112, 4], [PAYLOAD, b"boot"])),
    ("a FILE", frame(29, [0], [PAYLOAD]), (29, [0, 131, 0xCBC36D3B, 1, 0x200000, 0x1234, 5, 10, 117, 4, 122, 2], [PAYLOAD])),
    ("its name", frame(30, [0], [PAYLOAD]), (30, [0, 0, 117, 4], [PAYLOAD, b"init"])),
    ("its meta", frame(31, [0], [PAYLOAD]), (31, [0, 0, 122, 2], [PAYLOAD, b"{}"])),
    ("a CMDLINE", frame(29, [1], [PAYLOAD]), (29, [0, 131, 0x435140C4, 0, 0, 0, 7, 13, 0, 0, 125, 5], [PAYLOAD])),
    ("it has no name", frame(30, [1], [PAYLOAD]), (30, [0, 0, 0, 0], [PAYLOAD, b""])),
    ("its meta", frame(31, [1], [PAYLOAD]), (31, [0, 0, 125, 5], [PAYLOAD, b"quiet"])),
    ("no record's name", frame(30, [3], [PAYLOAD]), (30, [0, 0, 0, 0], [PAYLOAD, b""])),
    ("no record's meta", frame(31, [1 << 32], [PAYLOAD]), (31, [0, 0, 0, 0], [PAYLOAD, b""])),
    ("a string that does not close", frame(26, [], [UNCLOSED]), (26, [22, 48], [UNCLOSED])),
    ("its agent", frame(27, [], [UNCLOSED]), (27, [22, 48, 0, 0, 0], [UNCLOSED])),
    ("its agent's string", frame(28, [], [UNCLOSED]), (28, [0, 0, 0, 0], [UNCLOSED, b""])),
    ("its FILE", frame(29, [0], [UNCLOSED]), (29, [22, 48] + [0] * 10, [UNCLOSED])),
    ("its FILE's name", frame(30, [0], [UNCLOSED]), (30, [0, 0, 0, 0], [UNCLOSED, b""])),
    ("its FILE's meta", frame(31, [0], [UNCLOSED]), (31, [0, 0, 0, 0], [UNCLOSED, b""])),
    ("a write with just the room", written(131, eights(PARTS)), (32, [0, 131], [PAYLOAD])),
    ("a byte too little room", written(130, eights(PARTS)), (32, [18, 0], [b"\xee" * 130])),
    ("no record", frame(32, [], [b"kept", RECORDS[:31], eights(PARTS), RUN]), (32, [3, 0], [b"kept"])),
    ("a zero in a string", written(140, eights(PARTS), b"quiet{}in\0tboot"), (32, [22, 0], [b"\xee" * 140])),
    ("9 numbers and a part of one", written(140, eights(PARTS[:10])[:79]), (32, [22, 0], [b"\xee" * 140])),
    ("10 numbers and a part of one", written(140, eights(PARTS)[:87]), (32, [0, 131], [PAYLOAD + b"\xee" * 9])),
    ("9,000 numbers and a part of one", written(140, eights(PARTS + [0] * 8986) + b"\0" * 7), (32, [0, 131], [PAYLOAD + b"\xee" * 9])),
    ("9,001 numbers", written(133, eights(PARTS + [0] * 8987)), NO_CALL),
    ("no index", frame(29, [], [LEAST]), NO_CALL),
    ("an index that is not taken", frame(28, [0], [LEAST]), NO_CALL),
    ("no run", frame(32, [], [LEAST, RECORDS, eights(PARTS)]), NO_CALL),
    ("a run that is kept", frame(32, [], [LEAST, RECORDS, eights(PARTS), KEPT]), NO_CALL),
    ("a length that passes the frame", struct.pack("<5I", 26, 0, 1, 53, 50) + LEAST, NO_CALL),
    ("a length that leaves a byte", struct.pack("<5I", 26, 0, 1, 53, 48) + LEAST, NO_CALL),
    ("what was written is kept", frame(31, [1], [KEPT]), (31, [0, 0, 125, 5], [PAYLOAD + b"\xee" * 9, b"quiet"])),
    ("a shorter write over it", frame(32, [], [KEPT, RECORDS[64:], eights([0, 0]), b""]), (32, [0, 49], [LEAST + PAYLOAD[49:] + b"\xee" * 9])),
]


# ---- Problems ----


def table_problems(page, calls):
    """A line for each call that is not in the table once, and for each row that is no published call or out of order."""
    rows = ROW.findall(page)
    names = [name for _, name, *_ in rows]
    found = [f"{call}: {names.count(call)} rows, expected 1" for call in calls if names.count(call) != 1]
    found += [f"{name}: no published call" for name in names if name not in calls]
    if [int(number) for number, *_ in rows] != list(range(1, len(rows) + 1)):
        found.append("the calls' numbers do not go up from 1")
    return found


def shape_problems(page, ask):
    """A line for each row whose counts are not the program's."""
    rows = [(name, *map(int, counts)) for number, name, *counts in ROW.findall(page)]
    frames, wanted = [], []
    for call, (name, n, s, n_back, s_back) in enumerate(rows, 1):
        frames += [frame(call, [0] * n, [b""] * s), frame(call, [0] * (n + 1), [b""] * s), frame(call, [0] * n, [b""] * (s + 1))]
        wanted += [(name, (call, n_back, s_back)), (f"{name}, a number more", (MALFORMED, 0, 0)), (f"{name}, a string more", (MALFORMED, 0, 0))]
    frames += [frame(len(rows) + 1, [0] * n, [b""] * s) for n in range(12) for s in range(6)]
    wanted += [("the call after the last", (MALFORMED, 0, 0))] * 72
    answers = [(call, len(numbers), len(strings)) for call, numbers, strings in ask(frames)]
    if len(answers) != len(wanted):
        return [f"{len(answers)} answers to {len(wanted)} frames"]
    return sorted({f"{name}: answered {answer}, expected {want}" for answer, (name, want) in zip(answers, wanted) if answer != want})


def limit_problems(page, ask):
    """A line for each limit of the page that is not the program's: at the limit a call is made, one past it it is not."""
    found = []
    for pattern, at in LIMITS:
        limits = re.findall(pattern, " ".join(page.split()))
        for limit in limits:
            most = int(limit.replace(",", ""))
            calls = [ask([frame(*at(size))])[0][0] for size in (most, most + 1)]
            if [call == MALFORMED for call in calls] != [False, True]:
                found.append(f"{limit} is not a limit of the program: answered by calls {calls}")
        if len(limits) != 1:
            found.append(f"{len(limits)} limits of the form {pattern!r}, expected 1")
    return found


def case_problems(ask):
    """A line for each case of a payload that is answered by something else."""
    answers = ask([sent for _, sent, _ in CASES])
    if len(answers) != len(CASES):
        return [f"{len(answers)} answers to {len(CASES)} cases"]
    return [f"{what}: answered {answer}, expected {want}" for answer, (what, _, want) in zip(answers, CASES) if answer != want]


def example_problems(page, program):
    """A line where the page has not one example, or it prints something else than its comment says."""
    blocks = BLOCK.findall(page)
    said = SAID.findall(blocks[0]) if len(blocks) == 1 else []
    if len(said) != 1 or f'"{program}"' not in blocks[0] or not os.path.isfile(program):
        return [f"not one example that runs {program} and says in a comment what it prints"]
    run = subprocess.run([sys.executable, "-c", blocks[0]], capture_output=True, text=True, timeout=60, check=False)
    if run.returncode != 0 or run.stdout.strip() != said[0]:
        return [f"the example prints {run.stdout.strip()!r} and not {said[0]!r}\n{run.stderr}"]
    return []


def main(arguments):
    if len(arguments) != 2:
        print(__doc__, file=sys.stderr)
        return 2
    path, program = arguments
    page = published.read(pathlib.Path(path))
    tables = published.read(pathlib.Path(published.PAGE))
    calls = [call.path for calls_of in (published.calls_from_rattle, published.calls_on_payloads) for call in calls_of(tables, pathlib.Path("."))]

    def ask(frames):
        return asked(program, frames)

    found = table_problems(page, calls) + shape_problems(page, ask) + limit_problems(page, ask) + case_problems(ask)
    found += example_problems(page, program)
    good = f"driver: {len(calls)} published calls in its table; {len(CASES)} cases of payloads and its example answer"
    print("\n".join(f"{path}: {problem}" for problem in found) or good)
    return 1 if found else 0


if __name__ == "__main__":
    sys.exit(main(sys.argv[1:]))
