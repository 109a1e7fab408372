#!/usr/bin/env python3
"""Holds the calls on Handover payloads to the samples: what they answer of each NAME.bin, by lines, has to be NAME.txt, byte for byte.

usage: payload_samples.py PROGRAM FOLDER     PROGRAM is the driver (crates/call_driver/README.md)

The lines are described in samples/payloads/README.md. All of a payload is asked for in frames to one run of the program: reading, the agent with
its string, and of every index up to the first that is refused the record with its strings.
"""

import difflib
import os
import sys

import driver

# 002, "Handover Tags"
TAGS = {0x00000000: "FREE", 0xA24F988D: "SELF", 0xF65B391B: "STACK", 0xBFC71B20: "KERNEL", 0xF1F80C26: "LOADER", 0xCBC36D3B: "FILE",
        0x8EF29C18: "RSDP", 0xB628BBC1: "FDT", 0xE2D55685: "FB", 0x435140C4: "CMDLINE", 0xB8841D2D: "RESERVED", 0xFFFFFFFF: "END"}
READ, AGENT, AGENT_NAME, RECORD, NAME, META = range(26, 32)
# More records than a sample has, and fewer samples than there are.
MOST, LEAST = 20, 20


def spelled(text):
    """A text as the listing spells it."""
    return "".join(chr(byte) if 32 <= byte < 127 and byte != 37 else f"%{byte:02X}" for byte in text)


def frames_of(data):
    """What is asked of one payload: the bytes once, and then the buffer that is there."""
    asked = [driver.frame(READ, [], [data]), driver.frame(AGENT, [], [driver.KEPT]), driver.frame(AGENT_NAME, [], [driver.KEPT])]
    for index in range(MOST):
        asked += [driver.frame(call, [index], [driver.KEPT]) for call in (RECORD, NAME, META)]
    return asked


def at_part(data, part):
    """The bytes of the payload at a part."""
    start, length = part
    return data[start : start + length]


def string_line(data, key, part, slice_part, text):
    """The line of a string that is named, its part told alike by the question and by the call that hands it back; none of one that is not."""
    if part != slice_part or at_part(data, part) != text:
        return [f"{key} at {slice_part} with {len(text)} bytes, expected {part} with {at_part(data, part)}"]
    return [f"{key}={spelled(text)}"] if part != [0, 0] else []


def record_lines(data, index, asked, name, meta):
    _, (_, _, tag, *words, name_start, name_length, meta_start, meta_length), _ = asked
    lines = ["record=" + ",".join([str(index), TAGS.get(tag, str(tag)), *map(str, words)])]
    lines += string_line(data, "name", [name_start, name_length], name[1][2:], name[2][1])
    return lines + string_line(data, "meta", [meta_start, meta_length], meta[1][2:], meta[2][1])


def lines_of(data, answers):
    """The lines that the answers to frames_of make."""
    reading, agent, agent_name, *records = answers
    if any(strings[0] != data for _, _, strings in answers):
        return ["a call that reads changed the buffer"]
    number, value = reading[1]
    if number:
        told = {tuple(answer[1][:2]) for answer in [agent, *records[::3]]}
        empty = all(not any(answer[1][2:]) and answer[2][1:] in ([], [b""]) for answer in answers)
        return [f"refused={number},{value}"] + ([] if told == {(number, value)} and empty else ["a question answers besides"])
    lines = [f"size={value}", f"agent={agent[1][2]}," + spelled(agent_name[2][1])]
    if agent[1][:2] != [0, value] or agent[1][3:] != agent_name[1][2:] or at_part(data, agent[1][3:]) != agent_name[2][1]:
        lines.append(f"agent answers {agent[1]}, its string {agent_name[1]}")
    count = sum(answer[1][0] == 0 for answer in records[::3])
    for index in range(count):
        lines += record_lines(data, index, *records[3 * index : 3 * index + 3])
    past = {tuple(answer[1]) for answer in records[3 * count :: 3]}
    return lines + ([] if past == {(3, value, *[0] * 10)} else [f"past the count {past}"])


def compare(program, folder, name):
    """Prints and answers whether the program fails on a sample."""
    with open(os.path.join(folder, name + ".bin"), "rb") as payload, open(os.path.join(folder, name + ".txt"), encoding="ascii") as text:
        data, expected = payload.read(), text.read().splitlines()
    found = lines_of(data, driver.asked(program, frames_of(data)))
    for line in difflib.unified_diff(expected, found, name + ".txt", "answered", lineterm=""):
        print("    " + line)
    return found != expected


def main(arguments):
    if len(arguments) != 2:
        print(__doc__, file=sys.stderr)
        return 2
    program, folder = arguments
    names = [{name[:-4] for name in os.listdir(folder) if name.endswith(ending)} for ending in (".bin", ".txt")]
    failed = sorted(names[0] ^ names[1]) + [name for name in sorted(names[0] & names[1]) if compare(program, folder, name)]
    print(f"payload_samples: {len(names[0])} samples, {len(failed)} not as their lines say", *failed)
    return 1 if failed or len(names[0]) < LEAST else 0


if __name__ == "__main__":
    sys.exit(main(sys.argv[1:]))
