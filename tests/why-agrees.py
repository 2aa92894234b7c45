#!/usr/bin/env python3
"""Tries `why` and `ask` against `order` and `check`, which know nothing of them.

Of orders that are drawn: with what `why` adds, behind what stays, `order` accepts, and without any one of these it doesn't. With any
code that is to be left beside those that stay, and with just the rules and codes that clash, `check` finds the book void on the day;
with all of these but one it doesn't. Of each finding of `check` without a set: `ask` names rules, with just these in the book the
finding is there, and without any one of them it isn't. Books are those named, or examples/*.csv without those that check no slice.

    tests/why-agrees.py [PROGRAM [BOOK..]]

It ends with 1, and names the question, at the first one that doesn't agree.
"""

import csv
import io
import pathlib
import random
import subprocess
import sys

from trial import built

TOP = pathlib.Path(__file__).resolve().parent.parent
ORDERS = 12


def run(program, words, book):
    return subprocess.run([program, *words], input=book.encode(), capture_output=True).stdout.decode().splitlines()


def text_of(rows):
    text = io.StringIO()
    csv.writer(text, lineterminator="\n").writerows(rows)
    return text.getvalue()


def only(rows, ids, demanded):
    """The book with just these rules, no positions, and a rule for each code and formula that is demanded."""
    kept = [row for row in rows if row[0] in ("book", "code") or row[0] in ("supplement", "construct", "group") and row[1] in ids]
    return text_of(kept + [["construct", f"ASK{place}", "*", rule, "", ""] for place, rule in enumerate(demanded)])


def is_void(program, book, day):
    here = False
    for line in run(program, ["check"], book):
        words = line.split()
        if words[0] == "slice":
            here = int(words[1]) <= day <= int(words[2])
        elif here and words[0] == "void":
            return True
    return False


def is_minimal(program, rows, day, ids, demanded, fixed=()):
    """These rules and demands alone, beside fixed ones, leave no set, and without any one of them some set is left."""
    if not is_void(program, only(rows, ids, [*fixed, *demanded]), day):
        return False
    return all(
        not is_void(program, only(rows, [other for other in ids if other != one], [*fixed, *demanded]), day) for one in ids
    ) and all(not is_void(program, only(rows, ids, [*fixed, *(other for other in demanded if other != one)]), day) for one in demanded)


def agree(question, holds):
    if not holds:
        sys.exit(f"{question} does not agree")


def try_order(program, name, rows, book, day, ordered):
    lines = [line.split() for line in run(program, ["why", str(day), *ordered], book)]
    said = {words[0]: words[1:] for words in lines}
    question = f"{name}: why {day} {' '.join(ordered)}"
    agree(question, lines[-1] == ["end"] and "undecided" not in said)
    kept = [code for code in ordered if code not in said.get("leave", [])]
    rules = [row[1] for row in rows if row[0] in ("supplement", "construct", "group")]
    if "clash" in said:
        cut = said["clash"].index("by")
        agree(question, is_minimal(program, rows, day, said["clash"][cut + 1 :], said["clash"][:cut]))
    for code in said.get("leave", []):
        agree(question, is_void(program, only(rows, rules, [*kept, code]), day))
    if "no order" in map(" ".join, lines):
        agree(question, is_void(program, only(rows, rules, []), day))
    elif "accepted" not in said and not any(words[0] == "unfit" and "with" in words for words in lines):
        added = said.get("add", [])
        accepted = [run(program, ["order", str(day), *kept, *added], book)[0] == "accepted"]
        accepted += [
            run(program, ["order", str(day), *kept, *(other for other in added if other != one)], book)[0] != "accepted" for one in added
        ]
        agree(question, all(accepted))


def try_findings(program, name, rows, book):
    first, tried = None, 0
    formulas = {row[1]: row[5] for row in rows if row[0] == "variant"}
    for line in run(program, ["check"], book):
        words = line.split()
        if words[0] == "slice":
            first = int(words[1])
        rule = {
            "void": lambda: "TRUE",
            "inadmissible": lambda: words[1],
            "necessary": lambda: "-" + words[1],
            "superfluous": lambda: formulas[words[1]],
        }.get(words[0])
        if rule:
            told = run(program, ["ask", str(first), rule()], book)[0].split()
            question = f"{name}: ask {first} {rule()}"
            agree(question, told[:2] == ["none", "by"])
            agree(question, is_minimal(program, rows, first, told[2:], [], fixed=[rule()]))
            tried += 1
    return tried


def main():
    program, books = built(*sys.argv[1:2]), sys.argv[2:]
    tried = 0
    for path in books or sorted(path for path in TOP.glob("examples/*.csv") if path.read_bytes().startswith(b"book,")):
        book = pathlib.Path(path).read_bytes().decode("utf-8-sig")
        rows = [row for row in csv.reader(io.StringIO(book)) if any(row)]
        codes = [row[1] for row in rows if row[0] == "code"]
        first, last = (int(field) for row in rows if row[0] == "book" for field in row[2:4])
        drawn = random.Random(7)
        tried += try_findings(program, path, rows, book)
        for _ in range(ORDERS):
            ordered = drawn.sample(codes, min(len(codes), drawn.randrange(1, 5)))
            try_order(program, path, rows, book, drawn.randint(first, last), ordered)
            tried += 1
    print(f"{tried} questions agree")


main()
