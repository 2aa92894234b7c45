#!/usr/bin/env python3
"""Prints a table of the crates, lowest first: what each has, and what of it is proved. It is made of crates.txt and of the first
sentence and the rows "Proved" of each crate's README.

    tests/crates.py [CRATE..]      all of them, or these
"""

import pathlib
import sys

TOP = pathlib.Path(__file__).resolve().parent.parent


def crate_names():
    """The crates in the order of crates.txt."""
    lines = (TOP / "crates.txt").read_text().splitlines()
    return [line.split()[0].rstrip(":") for line in lines if line[:1].isalpha()]


def cells(line):
    """The cells of a row of a table; none of another line."""
    return [cell.strip() for cell in line.strip().strip("|").split(" | ")] if line.startswith("|") else []


def what_it_has(lines):
    """The first paragraph below the head, where one stands before the first table."""
    below = [line for line in lines[1:] if line]
    return below[0] if below and not below[0].startswith(("|", "#")) else ""


def proved(lines):
    """The rows of "Proved", joined."""
    found, inside = [], False
    for row in map(cells, lines):
        if len(row) != 2:
            inside = False
        elif row[0]:
            inside = row[0].startswith("Proved")
        if inside:
            found.append(row[1])
    return "; ".join(found)


def main(wanted):
    names = crate_names()
    unknown = [name for name in wanted if name not in names]
    if unknown:
        sys.exit(f"crates.txt has no {', '.join(unknown)}")
    print("| Crate | What it has | Proved |\n|---|---|---|")
    for name in wanted or names:
        lines = (TOP / "crates" / name / "README.md").read_text().splitlines()
        print(f"| `{name}` | {what_it_has(lines)} | {proved(lines)} |")


main(sys.argv[1:])
