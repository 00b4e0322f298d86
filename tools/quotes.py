#!/usr/bin/env python3
"""Tells where a page quotes a definition or a clause that does not stand so in its file.

    python3 tools/quotes.py [PAGE ..]        at the top of the repository; without a page docs/PROMISE.md

A quotation is a fenced block whose first line names its file below crates/, as

    ```antt module/specs/Promise.antt

Each paragraph of it has to stand in that file, word for word and whole, but for line breaks and the blanks beside them: of
antt a paragraph of the file without the comments above it, of rust the head of a function up to its body. A fenced block of
antt or rust without a file is an error too. The exit status is 1 where something differs.
"""
import re
import sys
from pathlib import Path

FENCE = re.compile(r"^```(\w*) ?(\S*)\n(.*?)^```$", re.M | re.S)
COMMENT = re.compile(r"^--.*\n", re.M)


def words(text):
    """The text with every run of blanks and line breaks as one blank."""
    return " ".join(text.split())


def paragraphs(text):
    """The paragraphs of a text, each as its words."""
    return [words(paragraph) for paragraph in re.split(r"\n\s*\n", text.strip("\n"))]


def stands(kind, source, paragraph):
    """Whether a quoted paragraph stands whole in the text of a file."""
    if kind == "antt":
        return paragraph in paragraphs(COMMENT.sub("", source))
    return paragraph + " {" in words(source)


def differences(page):
    """The quotations of a page that differ, each with its line, and how many paragraphs were compared."""
    text = Path(page).read_text()
    wrong, compared = [], 0
    for fence in FENCE.finditer(text):
        kind, name, body = fence.groups()
        if kind not in ("antt", "rust"):
            continue
        line = text.count("\n", 0, fence.start()) + 1
        source = Path("crates") / name
        if not name or not source.is_file():
            wrong.append(f"{page}:{line}: no such file: {name or 'none named'}")
            continue
        for paragraph in paragraphs(body):
            compared += 1
            if not stands(kind, source.read_text(), paragraph):
                wrong.append(f"{page}:{line}: not in {source}: {paragraph[:100]}")
    return wrong, compared


def main():
    wrong, compared = [], 0
    for page in sys.argv[1:] or ["docs/PROMISE.md"]:
        found, count = differences(page)
        wrong += found
        compared += count
    print("\n".join(wrong + [f"{compared} quotations, {len(wrong)} differ"]))
    return 1 if wrong or not compared else 0


if __name__ == "__main__":
    sys.exit(main())
