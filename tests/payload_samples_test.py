#!/usr/bin/env python3
"""Tests payload_samples.py on answers made here: the lines are told, and whatever an answer has that it should not have."""

import sys
import unittest

sys.dont_write_bytecode = True

import payload_samples

# The strings are at 65, 70 and 72.
DATA = bytes(65) + b"ab\0\0\0c\0%\x7f\0"


def answers(*records, reading=(0, 90), agent=(0, 90, 1, 65, 2), agent_slice=(0, 0, 65, 2), agent_text=b"ab"):
    """Answers to frames_of(DATA): those of the records given, and then of none."""
    made = [(26, list(reading), [DATA]), (27, list(agent), [DATA]), (28, list(agent_slice), [DATA, agent_text])]
    for index in range(payload_samples.MOST):
        if index < len(records):
            made += records[index]
        else:
            past = [3, reading[1]] if reading[0] == 0 else list(reading)
            made += [(29, past + [0] * 10, [DATA]), (30, [0] * 4, [DATA, b""]), (31, [0] * 4, [DATA, b""])]
    return made


def record(tag, name=(0, 0), meta=(0, 0), texts=(b"", b""), slices=None):
    slices = slices or (name, meta)
    return [(29, [0, 90, tag, 1, 2, 3, 4, 5, *name, *meta], [DATA]), (30, [0, 0, *slices[0]], [DATA, texts[0]]), (31, [0, 0, *slices[1]], [DATA, texts[1]])]


class Lines(unittest.TestCase):
    def told(self, made, *lines):
        self.assertEqual(payload_samples.lines_of(DATA, made), list(lines))

    def test_frames(self):
        self.assertEqual(len(payload_samples.frames_of(DATA)), len(answers()))

    def test_a_payload(self):
        self.told(answers(record(0xCBC36D3B, (70, 1), (72, 2), (b"c", b"%\x7f")), record(8)),
                  "size=90", "agent=1,ab", "record=0,FILE,1,2,3,4,5", "name=c", "meta=%25%7F", "record=1,8,1,2,3,4,5")

    def test_an_empty_string_that_is_named(self):
        self.told(answers(record(0x435140C4, (0, 0), (72, 0))), "size=90", "agent=1,ab", "record=0,CMDLINE,1,2,3,4,5", "meta=")

    def test_a_refusal(self):
        refusal = {"reading": (22, 16), "agent": (22, 16, 0, 0, 0), "agent_slice": (0, 0, 0, 0), "agent_text": b""}
        self.told(answers(**refusal), "refused=22,16")
        self.told(answers(**{**refusal, "agent": (22, 0, 0, 0, 0)}), "refused=22,16", "a question answers besides")
        self.told(answers(**{**refusal, "agent_text": b"ab"}), "refused=22,16", "a question answers besides")

    def test_another_part(self):
        self.told(answers(agent_slice=(0, 0, 66, 2)), "size=90", "agent=1,ab", "agent answers [0, 90, 1, 65, 2], its string [0, 0, 66, 2]")
        self.told(answers(record(0xCBC36D3B, (70, 1), (72, 0), (b"c", b""), ((71, 1), (72, 0)))),
                  "size=90", "agent=1,ab", "record=0,FILE,1,2,3,4,5", "name at [71, 1] with 1 bytes, expected [70, 1] with b'c'", "meta=")
        self.told(answers(record(0xCBC36D3B, (70, 1), (72, 0), (b"cd", b""))),
                  "size=90", "agent=1,ab", "record=0,FILE,1,2,3,4,5", "name at [70, 1] with 2 bytes, expected [70, 1] with b'c'", "meta=")

    def test_a_part_elsewhere(self):
        self.told(answers(agent=(0, 90, 1, 64, 2), agent_slice=(0, 0, 64, 2)),
                  "size=90", "agent=1,ab", "agent answers [0, 90, 1, 64, 2], its string [0, 0, 64, 2]")
        self.told(answers(record(0x435140C4, (0, 0), (71, 1), (b"", b"c"))),
                  "size=90", "agent=1,ab", "record=0,CMDLINE,1,2,3,4,5", "meta at [71, 1] with 1 bytes, expected [71, 1] with b'\\x00'")

    def test_past_the_count(self):
        made = answers(record(8))
        made[6] = (29, [3, 91] + [0] * 10, [DATA])
        self.assertEqual(payload_samples.lines_of(DATA, made)[:3], ["size=90", "agent=1,ab", "record=0,8,1,2,3,4,5"])
        self.assertTrue(payload_samples.lines_of(DATA, made)[3].startswith("past the count"))

    def test_a_buffer_that_changed(self):
        made = answers()
        made[1] = (27, made[1][1], [b"other"])
        self.told(made, "a call that reads changed the buffer")


if __name__ == "__main__":
    unittest.main()
