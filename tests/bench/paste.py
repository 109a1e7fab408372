"""Puts figures in their place in a document: between its two marks, instead of what stands there.

    paste.py DOCUMENT FIGURES
"""

import sys
from pathlib import Path

BEGIN, END = "<!-- figures of make bench -->\n", "<!-- end of the figures -->\n"


def main():
    if len(sys.argv) != 3:
        sys.exit(__doc__)
    document, figures = Path(sys.argv[1]), Path(sys.argv[2]).read_text(encoding="utf-8")
    text = document.read_text(encoding="utf-8")
    if text.count(BEGIN) != 1 or text.count(END) != 1:
        sys.exit(f"{document} has not each mark once")
    before, rest = text.split(BEGIN)
    document.write_text(before + BEGIN + "\n" + figures.strip() + "\n\n" + END + rest.split(END)[1], encoding="utf-8")


if __name__ == "__main__":
    main()
