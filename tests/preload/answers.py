#!/usr/bin/env python3
"""Compares what calls return without and with the library: answers.py THERE HERE PAGE.

The rows of PAGE's table of answers are what differs, and say what both return. A reply may begin with N, R or E: for
that type of mutex only. Prints what is wrong, and 'N passed, M failed'."""
import sys

TYPES = {"N": "normal", "R": "recursive", "E": "error-checking"}


def lines_of(path):
    lines = {}
    for line in open(path):
        mutex, rest = line.rstrip("\n").split(": ", 1)
        case, reply = rest.rsplit(": ", 1)
        lines[mutex, case] = reply
    return lines


def replies(cell):
    """The reply for each type of mutex that the cell names."""
    found = {}
    for part in cell.split("; "):
        letter, _, reply = part.partition(" ")
        for mutex in [TYPES[letter]] if letter in TYPES else TYPES.values():
            found[mutex] = reply if letter in TYPES else part
    return found


def rows_of(page):
    rows, inside = {}, False
    for line in open(page):
        cells = [cell.strip() for cell in line.strip().strip("|").split("|")]
        if line.startswith("| Call of an unmodified program"):
            inside = True
        elif not line.startswith("|"):
            inside = False
        elif inside and not set(cells[0]) <= set("-"):
            rows[cells[0]] = replies(cells[1]), replies(cells[2])
    return rows


def main():
    there, here, rows = lines_of(sys.argv[1]), lines_of(sys.argv[2]), rows_of(sys.argv[3])
    wrong = [f"the row '{case}' isn't printed" for case in rows if not any(c == case for _, c in here)]
    for mutex, case in here:
        old, new = (column.get(mutex) for column in rows.get(case, ({}, {})))
        if old is None or new is None:
            old = new = there.get((mutex, case))
        for name, is_, wanted in ("C library", there.get((mutex, case)), old), ("library", here[mutex, case], new):
            if is_ != wanted:
                wrong.append(f"{mutex}: {case}: {is_} by the {name}, not {wanted}")
    print(*wrong, sep="\n", end="\n" if wrong else "")
    print(f"{2 * len(here) + len(rows) - len(wrong)} passed, {len(wrong)} failed")
    sys.exit(bool(wrong))


main()
