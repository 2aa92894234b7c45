#!/usr/bin/env python3
"""Tries `free` against `check`: beside chosen codes a code is forced where `check` calls it necessary on the book with a row
`construct,ID,*,CODE,,` for each chosen code, excluded where it calls it inadmissible, and no car is left where the slice of the
day is void. Books are those named, or examples/*.csv; the chosen codes are drawn.

    tests/free-agrees.py [PROGRAM [BOOK..]]

It ends with 1, and names the order, at the first one that doesn't agree.
"""

import csv
import pathlib
import random
import subprocess
import sys

from trial import built

TOP = pathlib.Path(__file__).resolve().parent.parent
ORDERS = 12


def run(program, words, book):
    return subprocess.run([program, *words], input=book, capture_output=True).stdout.decode().splitlines()


def told_by_check(program, book, chosen, day):
    """The codes that are necessary and inadmissible on the day beside the chosen ones, or None where it is void."""
    rows = "".join(f"construct,FREE{place},*,{code},,\n" for place, code in enumerate(chosen))
    necessary, inadmissible, here = set(), set(), False
    for line in run(program, ["check"], book.rstrip(b"\n") + b"\n" + rows.encode()):
        words = line.split()
        if words[0] == "slice":
            here = int(words[1]) <= day <= int(words[2])
        elif here and words[0] == "void":
            return None
        elif here and words[0] == "necessary":
            necessary.add(words[1])
        elif here and words[0] == "inadmissible":
            inadmissible.add(words[1])
    return necessary, inadmissible


def told_by_free(program, book, chosen, day):
    lines = [line.split() for line in run(program, ["free", str(day), *chosen], book)[1:]]
    if lines[0] == ["none"]:
        return None
    assert all(words[0] not in ("undecided", "left") for words in lines), "undecided"
    forced = {code for word, code in lines if word in ("forced", "ordered")}
    return forced, {code for word, code in lines if word == "excluded"}


def main():
    program, books = built(*sys.argv[1:2]), sys.argv[2:]
    tried = 0
    for path in books or sorted(path for path in TOP.glob("examples/*.csv") if path.read_bytes().startswith(b"book,")):
        book = pathlib.Path(path).read_bytes()
        rows = list(csv.reader(book.decode("utf-8-sig").splitlines()))
        codes = [row[1] for row in rows if row and row[0] == "code"]
        first, last = (int(field) for row in rows if row and row[0] == "book" for field in row[2:4])
        drawn = random.Random(7)
        for _ in range(ORDERS):
            chosen = drawn.sample(codes, min(len(codes), drawn.randrange(4)))
            day = drawn.randint(first, last)
            if told_by_free(program, book, chosen, day) != told_by_check(program, book, chosen, day):
                sys.exit(f"{path}: free {day} {' '.join(chosen)} doesn't agree with check")
            tried += 1
    print(f"{tried} orders agree")


if __name__ == "__main__":
    main()
