#!/usr/bin/env python3
"""Tests driver.py: pages that are not the program's, and other answers to its cases, are refused. A table stands in for the program."""

import struct
import unittest

import driver

PAGE = """
it has at most 40 bytes; there may be at most 3 of them. A frame may give at most 1 modules. They are taken as many as there are whole, at
most 2, each of 8 bytes. A frame of a call has at most 200 bytes.

| 1 | `a::read` | 0, 1 | | | 4, 1 | major, minor | |
| 2 | `a::step` | 2, 1 | index, offset | | 8, 1 | | |
"""
CALLS = ["a::read", "a::step"]
SHAPES = {1: (0, 1, 4, 1), 2: (2, 1, 8, 1), 15: (0, 2, 2, 1), 17: (0, 2, 2, 1), 25: (0, 2, 3, 1), 32: (0, 4, 2, 1)}
# Those that are there for the limits alone: the bytes of a frame beside the string that is limited, and how many that string may have.
LIMITED = {15: (24, 24), 17: (0, 200), 25: (24, 175), 32: (32, 16)}


def program(frames, known=(1, 2)):
    """What a program of two calls answers."""
    answers = []
    for sent in frames:
        call, n, s, _ = struct.unpack_from("<4I", sent)
        length = struct.unpack_from("<I", sent, 16)[0] if n == 0 and s else 0
        beside, most = LIMITED.get(call, (0, 200))
        fits = length <= 40 and len(sent) - beside <= most and len(sent) <= 200
        taken = SHAPES.get(call, (None,) * 4) if call in (*known, *LIMITED) else (None,) * 4
        answers.append((call, [0] * taken[2], [b""] * taken[3]) if (n, s) == taken[:2] and fits else driver.NO_CALL)
    return answers


WRITTEN = [answer for *_, answer in driver.CASES]


class Tables(unittest.TestCase):
    def test_a_page_that_fits(self):
        self.assertEqual(driver.table_problems(PAGE, CALLS), [])
        self.assertEqual(driver.shape_problems(PAGE, program), [])
        self.assertEqual(driver.limit_problems(PAGE, program), [])

    def test_a_call_that_is_missing_or_unknown(self):
        self.assertTrue(driver.table_problems(PAGE, [*CALLS, "a::list"]))
        self.assertTrue(driver.table_problems(PAGE, CALLS[:1]))
        self.assertTrue(driver.table_problems(PAGE.replace("| 2 | `a::step`", "| 2 | `a::read`"), CALLS))

    def test_numbers_out_of_order(self):
        self.assertTrue(driver.table_problems(PAGE.replace("| 2 | `", "| 3 | `"), CALLS))


class Shapes(unittest.TestCase):
    def test_other_counts(self):
        for old, new in (("| 0, 1 |", "| 1, 1 |"), ("| 0, 1 |", "| 0, 2 |"), ("| 4, 1 |", "| 3, 1 |"), ("| 8, 1 |", "| 8, 2 |")):
            with self.subTest(old):
                self.assertTrue(driver.shape_problems(PAGE.replace(old, new), program))

    def test_a_call_that_the_page_has_not(self):
        page = "\n".join(line for line in PAGE.splitlines() if "a::step" not in line)
        self.assertTrue(driver.shape_problems(page, program))

    def test_a_call_that_the_program_has_not(self):
        self.assertTrue(driver.shape_problems(PAGE, lambda frames: program(frames, known=(1,))))

    def test_an_answer_too_few(self):
        self.assertTrue(driver.shape_problems(PAGE, lambda frames: program(frames)[1:]))


class Limits(unittest.TestCase):
    def test_other_limits(self):
        for old, new in (("most 40", "most 41"), ("most 40", "most 39"), ("most 3 ", "most 4 "), ("most 1 ", "most 2 "), ("most 2,", "most 3,"),
                         ("most 2,", "most 1,"), ("most 200", "most 201")):
            with self.subTest(new):
                self.assertTrue(driver.limit_problems(PAGE.replace(old, new), program))

    def test_a_limit_that_is_gone(self):
        self.assertTrue(driver.limit_problems(PAGE.replace("at most 3 of", "three of"), program))


class Cases(unittest.TestCase):
    def test_the_answers_as_they_are_written(self):
        self.assertEqual(driver.case_problems(lambda _: WRITTEN), [])

    def test_another_answer(self):
        for at, (what, _, (call, numbers, strings)) in enumerate(driver.CASES):
            for other in ((call + 1, numbers, strings), (call, [*numbers, 0], strings), (call, numbers, [*strings, b""])):
                with self.subTest(what):
                    answers = [*WRITTEN[:at], other, *WRITTEN[at + 1 :]]
                    self.assertEqual(len(driver.case_problems(lambda _, answers=answers: answers)), 1)

    def test_an_answer_too_few(self):
        self.assertTrue(driver.case_problems(lambda _: WRITTEN[1:]))


class Answers(unittest.TestCase):
    def test_one_after_the_other(self):
        said, at, found = b"".join(driver.frame(*answer) for answer in WRITTEN), 0, []
        while at < len(said):
            answer, at = driver.answer_at(said, at)
            found.append(answer)
        self.assertEqual(found, WRITTEN)

    def test_lengths_that_do_not_add_up(self):
        said = bytearray(driver.frame(26, [0, 49], [driver.LEAST]))
        said[12] -= 1
        with self.assertRaises(ValueError):
            driver.answer_at(bytes(said), 0)


class Examples(unittest.TestCase):
    def test_none(self):
        self.assertTrue(driver.example_problems(PAGE, "none"))


if __name__ == "__main__":
    unittest.main()
