#!/usr/bin/env python3
"""Reads mutants/: the mistakes that a proof or a test has to refuse. Each text there has a crate's, or those of some C.

usage: checks/lib/mutants.py NAME DIRECTORY    writes each mutant of mutants/NAME.txt as DIRECTORY/TITLE.edit

A mutant is a section with a heading `## TITLE`. It has groups of lines `file:`, `old:` and `new:` (CONTRIBUTING, "An
edit"), and `seen by:` if a test has to see it. An empty line ends it.
"""

import os
import re
import sys

TOP = os.path.realpath(os.path.join(os.path.dirname(os.path.realpath(__file__)), "..", ".."))


def read(path):
    """The text of each mutant of a file, by its title; none if there is no file."""
    if not os.path.exists(path):
        return {}
    with open(path, encoding="utf-8") as it:
        parts = re.split(r"(?m)^## (.+)\n", it.read())
    titles, texts = parts[1::2], parts[2::2]
    # the empty line before the next heading isn't the mutant's
    found = {title: text.removesuffix("\n") + "\n" * (not text.endswith("\n\n")) for title, text in zip(titles, texts)}
    if len(found) < len(titles):
        sys.exit(f"{path}: two mutants have one title: {', '.join(sorted({it for it in titles if titles.count(it) > 1}))}")
    return found


def of(name):
    return read(f"{TOP}/mutants/{name}.txt")


def write(path, mutants):
    with open(path, "w", encoding="utf-8") as it:
        it.write("\n".join(f"## {title}\n{text}" for title, text in sorted(mutants.items())))


def main():
    if len(sys.argv) != 3:
        sys.exit(__doc__.split("\n\n")[1])
    mutants = of(sys.argv[1])
    if not mutants:
        sys.exit(f"mutants/{sys.argv[1]}.txt has no mutant")
    os.makedirs(sys.argv[2], exist_ok=True)
    for title, text in mutants.items():
        with open(f"{sys.argv[2]}/{title}.edit", "w", encoding="utf-8") as it:
            it.write(text)


if __name__ == "__main__":
    main()
