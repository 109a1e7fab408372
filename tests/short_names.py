#!/usr/bin/env python3
"""Finds where a short name of docs/traceability/ stands, by the rules of its README.md, "How short names resolve"."""

import os
import re


def read(path):
    with open(path, encoding="utf-8") as file:
        return file.read()


def paths_below(root):
    """The path of each file, from the root; what is hidden or built is left out."""
    for folder, folders, files in os.walk(root):
        folders[:] = sorted(name for name in folders if name not in ("target", "out") and not name.startswith((".", "__")))
        for name in sorted(files):
            yield os.path.relpath(os.path.join(folder, name), root)


# ---- What a file names: (name, line number) of each ----


def indent_of(line):
    return len(line) - len(line.lstrip())


def members(lines, opening, direct, inside):
    """Names by two expressions: `direct` anywhere, and in the block of an `opening` (its owner) at the block's own indentation also
    `inside`. A member is owner.name."""
    owner, outer, inner, owners = None, 0, None, set()
    for number, line in enumerate(lines, 1):
        if not line.strip():
            continue
        if owner and indent_of(line) <= outer:
            owner = None
        opened = re.match(opening, line)
        if opened:
            owner, outer, inner = opened[1], indent_of(line), None
            if owner not in owners:
                yield owner, number
            owners.add(owner)
            continue
        inner = indent_of(line) if owner and inner is None else inner
        named = re.match(direct, line) or (re.match(inside, line) if owner and indent_of(line) == inner else None)
        if named:
            yield (f"{owner}.{named[1]}" if owner else named[1]), number


def antt_names(lines):
    return members(lines, r"\s*pub (?:record|data) (\S+)", r"\s*(?:[a-z]+ )?pub ([^\s(]+) :", r"\s+([^\s(]+) :")


RUST_ITEM = r"\s*(?:pub(?:\(\w+\))? )?(?:extern \"C\" )?(?:const )?(?:unsafe )?"


def rust_names(lines):
    return members(lines, RUST_ITEM + r"(?:struct|enum|trait|impl(?:<[^>]*>)?) (\w+)", RUST_ITEM + r"(?:fn|const|mod|type) ([A-Za-z_]\w*)",
                   r"\s*(?:pub )?(\w+)(?:[:,({]|$)")


PATTERNS = {
    ".c": [r"(?:[A-Za-z_][\w \t*]*[ \t*])?(\w+)\s*[(\[]", r"#define (\w+)", r"(?:struct|enum|union) (\w+)"],
    ".py": [r"\s*(?:def|class) (\w+)", r"(\w+) ="],
    ".md": [r"#+ (.*)", r"\| *([^|]*?) *\|"],
}
PATTERNS[".h"] = PATTERNS[".c"]


def names_in(path, lines):
    kind = os.path.splitext(path)[1]
    if kind == ".antt":
        return antt_names(lines)
    if kind in (".rt", ".rs"):
        return rust_names(lines)
    if kind == ".mk" or os.path.basename(path) == "Makefile":
        targets = [(re.match(r"(?![.\s])([^:=#]+):(?!=)", line), number) for number, line in enumerate(lines, 1)]
        return [(name, number) for target, number in targets if target for name in target[1].split()]
    found = [(re.match(pattern, line), number) for number, line in enumerate(lines, 1) for pattern in PATTERNS.get(kind, [])]
    return [(match[1], number) for match, number in found if match]


def line_of(path, text, name):
    """The number of the first line that gives the name, or None."""
    lines = text.splitlines()
    if os.path.basename(path) == "stdout" or path.endswith(".txt"):
        begins = re.compile(re.escape(name) + r"(?!\w)([:=]?)")
        found = [(not match[1], number) for number, line in enumerate(lines, 1) if (match := begins.match(line.strip()))]
        return min(found)[1] if found else None
    return next((number for known, number in names_in(path, lines) if known == name), None)


# ---- Short names ----

THEORY = re.compile(r"crates/(\w+)/(?:specs|proofs)/(\w+)\.antt")
PROGRAM = re.compile(r"crates/(\w+)/src/(.+)\.rt")


def shared_stems(paths):
    """The names of .antt files that several crates have."""
    found = {match.groups() for match in map(THEORY.fullmatch, paths) if match}
    stems = [stem for _, stem in found]
    return {stem for stem in stems if stems.count(stem) > 1}


def code_file(path, shared):
    """What the short names of an .antt file of specs/ or proofs/, or of an .rt file of src/, begin with; None of any other file."""
    theory, program = THEORY.fullmatch(path), PROGRAM.fullmatch(path)
    if theory:
        crate, stem = theory.groups()
        return f"{crate}/{stem}" if stem in shared else stem
    if program:
        return "::".join([program[1], *(part for part in program[2].split("/") if part not in ("lib", "main"))])
    return None


def coded(path, lines, shared):
    """(short name, line number) of what such a file defines."""
    file = code_file(path, shared)
    if file and path.endswith(".antt"):
        stem = file.rpartition("/")[2] + "."
        yield from ((f"{file}.{name.removeprefix(stem)}", number) for name, number in antt_names(lines))
    elif file:
        yield from ((f"{file}::{name.replace('.', '::')}", number) for name, number in rust_names(lines))


class Names:
    """Every short name of a repository."""

    def __init__(self, root):
        self.root = root
        self.paths = sorted(paths_below(root))
        self.folders = {folder for path in self.paths for folder in parents(path)}
        self.shared = shared_stems(self.paths)
        self.short, self.at = {}, {}
        for path in self.paths:
            if code_file(path, self.shared):
                for name, number in coded(path, self.lines(path), self.shared):
                    self.short.setdefault(name, []).append((path, number))
                    self.at[path, number] = name

    def lines(self, path):
        return read(os.path.join(self.root, path)).splitlines()

    def files(self, end):
        """The files and folders whose path is this or ends in it."""
        everything = [*self.paths, *sorted(self.folders)]
        return [end] if end in everything else [path for path in everything if path.endswith("/" + end)]

    def short_of(self, path):
        """What names a file in short: how the names in it begin, or the least end of its path that names it alone."""
        parts = path.split("/")
        ends = ["/".join(parts[at:]) for at in range(len(parts) - 1, -1, -1)]
        return code_file(path, self.shared) or next(end for end in ends if self.files(end) == [path])

    def places(self, name):
        """(path, line number) of each place that has this name; the number of a whole file is 0."""
        if name in self.short:
            return self.short[name]
        file, colon, inner = name.partition(": ")
        paths = self.files(file)
        if not colon:
            return [(path, 0) for path in paths]
        lines = [(path, line_of(path, read(os.path.join(self.root, path)), inner)) for path in paths if path in self.paths]
        return [(path, number) for path, number in lines if number]

    def problem(self, name):
        """What is wrong with a name, or None."""
        places = self.places(name)
        if not places:
            return f"`{name}` is nowhere"
        where = ", ".join(f"{path}:{number}" for path, number in places)
        return f"`{name}` is at {where}" if len(places) > 1 else None


def parents(path):
    while path := os.path.dirname(path):
        yield path
