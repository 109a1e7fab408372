#!/usr/bin/env python3
"""Finds what the comments of crates/*/specs/*.antt quote, and the definitions that each quote is about.

A comment is about the definition that follows it; within a definition, about that one. At the top of a file, as the heading of a section
(-- ----), or with several quotes before several members, it does not say which definition is meant, and is about none.

A quote belongs to the row whose sentence it is (or one of whose pieces, between " .. "), else to the only row that has it as a part, and
to each row whose sentence it contains. Fewer than three words tell no part.
"""

import collections
import re

from short_names import indent_of

Quote = collections.namedtuple("Quote", "path number text name")
FEWEST_WORDS = 3


def fold(text):
    return " ".join(text.replace("**", "").split())


def is_comment(line):
    return line.lstrip().startswith("--")


def comments(lines):
    """(start, end) of each run of comment lines, counted from 0."""
    at = 0
    while at < len(lines):
        start = at
        while at < len(lines) and is_comment(lines[at]):
            at += 1
        if at > start:
            yield start, at
        at += 1


def about(names, path, lines, start, end):
    """The line number of the definition that the comment is about, or None; and whether others follow it without a comment."""
    defined = sorted(number for at, number in names.at if at == path)
    if end < len(lines) and indent_of(lines[end]) and end + 1 not in defined:
        return max((number for number in defined if number <= start), default=None), False
    after = next((at for at in range(end, len(lines)) if not lines[at].strip() or is_comment(lines[at])), len(lines))
    run = [number for number in defined if end < number <= after and indent_of(lines[number - 1]) == indent_of(lines[end])]
    return (run[0] if run[:1] == [end + 1] else None), len(run) > 1


def quotes_in(names, path):
    """Each quote of a file, with the name of the definition that it is about, or None."""
    lines = names.lines(path)
    for start, end in comments(lines):
        texts = re.findall(r'"([^"]*)"', " ".join(line.strip().lstrip("- ") for line in lines[start:end]))
        number, more = about(names, path, lines, start, end)
        told = number and "----" not in lines[start] and not (more and len(texts) > 1)
        yield from (Quote(path, start + 1, fold(text), names.at[path, number] if told else None) for text in texts)


def all_quotes(names):
    paths = [path for path in names.paths if re.fullmatch(r"crates/\w+/specs/\w+\.antt", path)]
    return [quote for path in paths for quote in quotes_in(names, path)]


def trimmed(text):
    return text.strip(" .,;:")


def tells(text):
    return len(text.split()) >= FEWEST_WORDS


def quoted_in(text, sentences):
    """The sentences that a quote belongs to."""
    said = trimmed(text)
    same = [sentence for sentence in sentences if said in map(trimmed, [sentence, *sentence.split(" .. ")])]
    if same:
        return same
    around = [sentence for sentence in sentences if tells(said) and said in sentence]
    inside = [sentence for sentence in sentences if tells(sentence) and trimmed(sentence) in said]
    return (around if len(around) == 1 else []) + inside


def names_by_sentence(quotes, sentences):
    """The names of each sentence that is quoted before a definition, each once."""
    found = {}
    for quote in quotes:
        for sentence in quoted_in(quote.text, sentences):
            if quote.name and quote.name not in found.setdefault(sentence, []):
                found[sentence].append(quote.name)
    return found
