#!/usr/bin/env python3
"""Holds README.md and the pages that it leads to: their code, their links, its size and its picture of a context.

usage: readme.py [ROOT]     ROOT is the repository's folder

    size       README.md has at most 10,240 bytes.
    code       Every block of C in README.md and docs/ is whole lines of a file in examples/ or of include/ultra.h, and every block of
               Rattle (marked `rust`) of a file in crates/*/src: what the tests compile. README.md has one of each at least. A block that
               is marked as anything else could go stale unseen, and is a problem; one without a mark is no code.
    links      Every relative link of README.md, docs/, tests/README.md, samples/README.md and crates/*/README.md leads to a file or a
               folder, and its #anchor to a heading of that page.
    picture    A row of README.md that has an offset and eight bytes has those of samples/listing.bin; there are 5 such rows at least.

Exit status 1, with a line for each problem.
"""
import pathlib
import re
import sys

README = "README.md"
MOST_BYTES = 10240
FEWEST_ROWS = 5
SAMPLE = "samples/listing.bin"
# Where the tests compile a language from.
SOURCES = {"c": ("examples/*.c", "include/ultra.h"), "rust": ("crates/*/src/**/*.rt",)}
LINKED = (README, "docs/**/*.md", "tests/README.md", "samples/README.md", "crates/*/README.md")
WITH_CODE = (README, "docs/**/*.md")
FENCE = re.compile(r"^```(.*)\n((?:.*\n)*?)```[ \t]*$", re.M)
LINK = re.compile(r"\[[^\]]*\]\(([^)\s]+)\)")
PICTURED = re.compile(r"^ *(\d+)[ |+]+((?:[0-9a-f]{2} ){7}[0-9a-f]{2})\b", re.M)


def read(file):
    return file.read_text(encoding="utf-8") if file.is_file() else ""


def found(root, patterns):
    """The files that one of the patterns names, each once."""
    return sorted({file for pattern in patterns for file in root.glob(pattern) if file.is_file()})


def prose(text):
    """A page without its blocks."""
    return FENCE.sub("", text)


# ---- Size ----


def size_problems(root):
    size = len(read(root / README).encode())
    if not 0 < size <= MOST_BYTES:
        yield f"{README}: {size} bytes, expected 1 to {MOST_BYTES}"


# ---- Code ----


def blocks(text):
    """(language, code) of each block that is marked as a language."""
    return [(language.strip(), code) for language, code in FENCE.findall(text) if language.strip()]


def block_problem(language, code, sources):
    """What is wrong with a block, or None."""
    if language not in SOURCES:
        return f"a block of `{language}`, which nothing compiles"
    if not code.strip():
        return f"an empty block of `{language}`"
    if not any(f"\n{code}" in f"\n{source}" for source in sources[language]):
        return f"a block of `{language}` that is in no file of {', '.join(SOURCES[language])}: `{code.strip().splitlines()[0]}`"
    return None


def code_problems(root):
    sources = {language: [read(file) for file in found(root, patterns)] for language, patterns in SOURCES.items()}
    for page in found(root, WITH_CODE):
        told = [block_problem(language, code, sources) for language, code in blocks(read(page))]
        if len(re.findall(r"^```", read(page), re.M)) % 2:
            told.append("a block that is not closed")
        yield from (f"{page.relative_to(root)}: {problem}" for problem in told if problem)
    shown = {language for language, _ in blocks(read(root / README))}
    yield from (f"{README}: no block of `{language}`" for language in SOURCES if language not in shown)


# ---- Links ----


def anchors(text):
    """What #.. can lead to on a page: its headings in small letters, with hyphens for blanks and without other signs."""
    names = []
    for heading in re.findall(r"^#+ +(.*?) *$", prose(text), re.M):
        plain = re.sub(r"\[([^\]]*)\]\([^)]*\)", r"\1", heading).lower()
        name = re.sub(r"[^\w\- ]", "", plain).replace(" ", "-")
        names.append(f"{name}-{names.count(name)}" if name in names else name)
    return names


def links(text):
    """The relative links of a page; what is in code is none."""
    plain = re.sub(r"`[^`\n]*`", "", prose(text))
    return [link for link in LINK.findall(plain) if not re.match(r"[a-z]+:", link)]


def link_problem(page, link):
    """What is wrong with a link, or None."""
    path, mark, anchor = link.partition("#")
    target = page.parent / path if path else page
    if not target.exists():
        return f"{link}: no such file"
    if mark and anchor not in anchors(read(target)):
        return f"{link}: no such heading"
    return None


def link_problems(root):
    for page in found(root, LINKED):
        told = (link_problem(page, link) for link in links(read(page)))
        yield from (f"{page.relative_to(root)}: {problem}" for problem in told if problem)


# ---- The picture ----


def picture_problems(root):
    sample = (root / SAMPLE).read_bytes() if (root / SAMPLE).is_file() else b""
    rows = PICTURED.findall(read(root / README))
    if len(rows) < FEWEST_ROWS:
        yield f"{README}: {len(rows)} rows of bytes, expected {FEWEST_ROWS} at least"
    for offset, shown in rows:
        there = sample[int(offset):int(offset) + 8].hex(" ")
        if shown != there:
            yield f"{README}: `{shown}` at {offset}, expected `{there}` as in {SAMPLE}"


def problems(root):
    """A line for each problem."""
    return [*size_problems(root), *code_problems(root), *link_problems(root), *picture_problems(root)]


def main(arguments):
    root = pathlib.Path(arguments[0] if arguments else ".")
    told = problems(root)
    pages = found(root, LINKED)
    counted = sum(len(links(read(page))) for page in pages), sum(len(blocks(read(page))) for page in found(root, WITH_CODE))
    print("\n".join(told) or f"readme: {len(pages)} pages, {counted[0]} links, {counted[1]} blocks of code")
    return 1 if told else 0


if __name__ == "__main__":
    sys.exit(main(sys.argv[1:]))
