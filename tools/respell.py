#!/usr/bin/env python3
"""Gives this repository's own definitions and lemmas the spelling of today's Rattle: words in snake case.

usage: tools/respell.py [ROOT]      once, after the kit's port.py: rewrites crates/*/specs, proofs and src by tools/respelled.txt
       tools/respell.py --text      what stands on standard input, as a line of an .antt file

Each line of respelled.txt is an old name and its new one. Where a definition and a law about it differed in spelling alone (`bytesAt` and
`bytes-at`), the definition has the plain name and the law the ending `_law`. In code only the clauses have such names; strings stay.
"""

import os
import re
import sys

HERE = os.path.dirname(os.path.realpath(__file__))
TOKEN = re.compile(r"[^\s(){}.,;\[\]«»⟨⟩:`\"|=λ]+")
STRING = re.compile(r'(b?"(?:[^"\\]|\\.)*")')


def names():
    with open(os.path.join(HERE, "respelled.txt"), encoding="utf-8") as f:
        return dict(line.split() for line in f)


def respelled(text, new):
    return TOKEN.sub(lambda t: new.get(t.group(), t.group()), text)


def in_code(text, new):
    """In code no name that a function could have is one of ours: those with a hyphen or a capital are."""
    new = {old: name for old, name in new.items() if re.search(r"-|[A-Z]", old)}
    return "".join(part if i % 2 else respelled(part, new) for i, part in enumerate(STRING.split(text)))


def main(argv):
    new = names()
    if argv == ["--text"]:
        sys.stdout.write(respelled(sys.stdin.read(), new))
        return
    root = os.path.join(argv[0] if argv else os.path.dirname(HERE), "crates")
    for folder, dirs, files in os.walk(root):
        dirs[:] = sorted(d for d in dirs if d != "out")
        for name in sorted(files):
            if not name.endswith((".antt", ".rt")):
                continue
            path = os.path.join(folder, name)
            with open(path, encoding="utf-8") as f:
                text = f.read()
            turned = respelled(text, new) if name.endswith(".antt") else in_code(text, new)
            if turned != text:
                with open(path, "w", encoding="utf-8") as f:
                    f.write(turned)


if __name__ == "__main__":
    main(sys.argv[1:])
