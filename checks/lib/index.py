#!/usr/bin/env python3
"""Makes docs/INDEX.md of the comments in crates/: what each crate is, its laws, and its definitions.

usage: checks/lib/index.py [--compare]

A crate's sentence is the first of its lib.rt. A law is a public function with an empty body: its words are the first
sentence of its doc comment, or the first clause of a long one. A definition is listed if its comment begins with its name, as in `-- *A legal run.* ..`.
With --compare it writes nothing, and ends with 1 if the page differs from what it would write.
"""

import os
import re
import sys
from glob import glob

os.chdir(os.path.join(os.path.dirname(os.path.realpath(__file__)), "..", ".."))
PAGE = "docs/INDEX.md"
# A sentence of more words is cut at its first colon or semicolon.
LONG = 24
HEAD = """# Index of laws and definitions

<!-- Made by checks/lib/index.py from comments in crates/; do not edit. -->

What each crate is; its *laws*, which are public functions with an empty body whose contract is the statement; and its
*definitions*, which contracts name. A law's words here are the beginning of its comment: the contract says it whole.
It is in `src/laws.rt`, unless another file is named; paths are below the crate. [THEOREM](THEOREM.md) has the laws of the
machine together, [TESTED](TESTED.md) what is only tested.
"""
LAW = re.compile(r"((?:^///.*\n)+)(?:#\[.*\n)*pub fn (\w+)(?:<.*>)?\([^{]*?\)\n((?:    .*\n)*?)\{\}", re.MULTILINE)
DEFINITION = re.compile(r"^\s*-- \*([A-Z][^*]+?)\.?\*", re.MULTILINE)


def read(path):
    with open(path, encoding="utf-8") as it:
        return it.read()


def first_sentence(comment, mark):
    """The first sentence of a comment's first paragraph."""
    lines = [re.sub(rf"^\s*{mark} ?", "", it) for it in comment.strip().split("\n")]
    paragraph = " ".join(lines).split("  ")[0] if "" not in lines else " ".join(lines[: lines.index("")])
    found = re.match(r"(.*?[.:])(?= [A-Z`*\[(]|$)", paragraph)
    sentence = re.sub(r"\[`(.+?)`\](\(.*?\))?", r"`\1`", (found[1] if found else paragraph).rstrip(":."))
    # what follows a colon or a semicolon says it in detail
    return sentence if len(sentence.split()) <= LONG else re.match(r".{30}.*?(?=[:;] |$)|.*", sentence)[0]


def crate_names():
    with open("crates.txt", encoding="utf-8") as it:
        return [line.split(":")[0].split()[0] for line in it if re.match(r"[a-z]", line)]


def laws(crate):
    for path in sorted(glob(f"crates/{crate}/src/**/*.rt", recursive=True)):
        for comment, name, clauses in LAW.findall(read(path)):
            if "ensures" in clauses:
                yield name, path.split(f"{crate}/", 1)[1], first_sentence(comment, "///")


def definitions(crate):
    """The names of definitions, by the files that have them."""
    for path in sorted(glob(f"crates/{crate}/specs/**/*.antt", recursive=True)):
        names = [re.sub(r"\s+", " ", it) for it in DEFINITION.findall(read(path))]
        if names:
            yield path.split(f"{crate}/specs/", 1)[1], names


def place(path):
    """Where a law is, if not in the usual file."""
    return "" if path == "src/laws.rt" else f" (`{path}`)"


def section(crate):
    root = next(it for it in (f"crates/{crate}/src/lib.rt", f"crates/{crate}/src/main.rt") if os.path.exists(it))
    head = re.match(r"(?://!.*\n)+", read(root))
    lines = [f"## {crate}\n", f"{first_sentence(head[0], '//!')}.\n" if head else ""]
    found = [f"- `{name}`{place(path)}: {words}." for name, path, words in laws(crate)]
    named = [f"{', '.join(names)} (`{path}`)" for path, names in definitions(crate)]
    if found:
        lines += [*found, ""]
    if named:
        lines += [f"Definitions: {'; '.join(named)}.", ""]
    return "\n".join(it for it in lines if it or it == "")


def main():
    text = re.sub(r"\n{3,}", "\n\n", "\n".join([HEAD, *map(section, crate_names())])).rstrip() + "\n"
    if sys.argv[1:] == ["--compare"]:
        same = os.path.exists(PAGE) and read(PAGE) == text
        if not same:
            print(f"{PAGE} isn't what checks/lib/index.py makes of the comments")
        sys.exit(0 if same else 1)
    with open(PAGE, "w", encoding="utf-8") as it:
        it.write(text)


main()
