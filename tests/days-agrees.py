#!/usr/bin/env python3
"""Tries `days` against `order`, which knows nothing of it.

Of orders that are drawn: on the first and the last day of each run, and on two days between, `order` comes to what `days` tells, with
the codes and the parts that are told so far; and no two neighbours tell the same. Books are those named, or examples/*.csv.

    tests/days-agrees.py [PROGRAM [BOOK..]]

It ends with 1, and names the question, at the first one that doesn't agree.
"""

import csv
import pathlib
import random
import subprocess
import sys

from trial import built

TOP = pathlib.Path(__file__).resolve().parent.parent
ORDERS = 12


def run(program, words, book):
    done = subprocess.run([program, *words], input=book, capture_output=True)
    return done.returncode, done.stdout.decode().splitlines()


def agree(question, holds):
    if not holds:
        sys.exit(f"{question} does not agree")


def runs_of(lines):
    """For each run its first and last day, its line, and the lines of what changed."""
    runs = []
    for line in lines:
        if line.startswith("days "):
            runs.append([*map(int, line.split()[1:]), None, []])
        elif runs[-1][2] is None:
            runs[-1][2] = line
        else:
            runs[-1][3].append(line)
    return runs


def ordered_on(program, book, day, codes):
    """What an order comes to: its line, its codes, and at each position the parts with their numbers."""
    _, lines = run(program, ["order", str(day), *codes], book)
    if lines[0] != "accepted":
        return lines[0], None, None
    parts = {}
    for _, position, part, quantity in csv.reader(lines[2:]):
        parts.setdefault(position, []).append(f"{part} x{quantity}")
    return lines[0], lines[1], parts


def try_order(program, name, book, codes):
    status, lines = run(program, ["days", *codes], book)
    question = f"{name}: days {' '.join(codes)}"
    agree(question, status == 0)
    told = parts = before = None
    runs = runs_of(lines)
    term = [row for row in csv.reader(book.decode().splitlines()) if row and row[0] == "book"][0][2:4]
    agree(f"{question}: the term", [runs[0][0], runs[-1][1]] == [int(day) for day in term])
    for first, last, line, changes in runs:
        agree(f"{question}: {first}", before is None or first == before[0] + 1)
        if line == "accepted":
            if parts is None:
                told, parts = changes[0], ordered_on(program, book, first, codes)[2]
            else:
                parts = dict(parts)
                for change in changes:
                    if change.startswith("codes"):
                        told = change
                    else:
                        _, position, *uses = change.split()
                        parts[position] = [] if uses == ["-"] else [" ".join(uses)]
        for day in {first, last, *(random.randint(first, last) for _ in range(2))}:
            found, set_of, list_of = ordered_on(program, book, day, codes)
            agree(f"{question}: {day}", found == line)
            if found == "accepted":
                agree(f"{question}: the codes on {day}", set_of == told)
                agree(f"{question}: the parts on {day}", list_of == {place: uses for place, uses in parts.items() if uses})
        now = (last, line, told, parts) if line == "accepted" else (last, line)
        agree(f"{question}: the run from {first}", before is None or before[1:] != now[1:])
        before = now
    return len(runs)


def main():
    program, names = built(*sys.argv[1:2]), sys.argv[2:]
    random.seed(7)
    orders = runs = 0
    for name in names or sorted(str(path) for path in (TOP / "examples").glob("*.csv") if path.read_bytes().startswith(b"book,")):
        book = pathlib.Path(name).read_bytes()
        codes = [row[1] for row in csv.reader(book.decode().splitlines()) if row and row[0] == "code"]
        for size in range(ORDERS):
            chosen = random.sample(codes, min(len(codes), size // 3 + size % 3))
            runs += try_order(program, name, book, chosen)
            orders += 1
    print(f"{orders} orders come to the same on {runs} runs of days")


main()
