#!/usr/bin/env python3
"""Measures the program over drawn books, and adds a line a book to a file of numbers.

    measure.py PROGRAM NUMBERS CODES SLICES [RUNS]

PROGRAM is the built program. NUMBERS is a CSV file; it is made where it isn't there. The book has CODES / 8 groups. Each command
is run RUNS times, 5 without the word, and of the user seconds the least counts: what else the machine does makes them more, never
fewer. Memory is the most that was in use, by GNU time (`/usr/bin/time`, of Debian the package time). Where a run takes less than
COUNTED seconds its instructions are counted too, by valgrind's callgrind.

The desk is measured with its store in memory (/dev/shm), so without the disk: with the draft put and released; with so many orders
behind that; and started anew over what this leaves.
"""

import csv
import json
import os
import pathlib
import re
import resource
import subprocess
import sys
import tempfile

sys.path[:0] = map(str, pathlib.Path(__file__).resolve().parents[:2])
from trial import built
from draw_book import Drawn

ORDERS = 1000
COUNTED = 0.5
# The longest certificate that verify takes.
LONGEST = 67_108_864
# What the launcher `partsbook` sets for `check` and `prove`.
MAPPED = {"GLIBC_TUNABLES": "glibc.malloc.mmap_threshold=131072"}
# Else a cleared byte counts as an instruction, which the machine doesn't take.
CLEARED = "glibc.cpu.x86_rep_stosb_threshold=100000000"
COLUMNS = [
    *["codes", "slices", "groups", "rows", "kb", "variants", "questions"],
    *["check_s", "check_mb", "check_mi", "prove_s", "prove_mb", "prove_mi", "cert_mb"],
    *["verify_s", "verify_mb", "verify_mi", "order_s", "order_mb", "order_mi"],
    *["desk_release_s", "desk_release_mb", "desk_order_ms", "desk_accepted", "desk_start_s", "desk_start_mb"],
]


def run(words, source, sink, runs=1, settings=None):
    """The least user seconds and the most megabytes of so many runs."""
    seconds, megabytes = [], []
    with tempfile.NamedTemporaryFile("r") as told:
        timed = ["/usr/bin/time", "-q", "-f", "%M", "-o", told.name, *words]
        for _ in range(runs):
            before = resource.getrusage(resource.RUSAGE_CHILDREN).ru_utime
            with open(source, "rb") as read, open(sink, "wb") as write:
                subprocess.run(timed, stdin=read, stdout=write, env={**os.environ, **(settings or {})})
            seconds.append(resource.getrusage(resource.RUSAGE_CHILDREN).ru_utime - before)
            told.seek(0)
            megabytes.append(int(told.read().split()[-1]) / 1000)
    return min(seconds), max(megabytes)


def millions(words, source, settings=None):
    """The instructions of a run, in millions."""
    tunables = ":".join([*(settings or {}).values(), CLEARED])
    with open(source, "rb") as read:
        counted = ["valgrind", "--tool=callgrind", "--callgrind-out-file=/dev/null", *words]
        done = subprocess.run(counted, stdin=read, stdout=subprocess.DEVNULL, stderr=subprocess.PIPE, text=True,
                              env={**os.environ, "GLIBC_TUNABLES": tunables})
    return int(re.search(r"Collected : (\d+)", done.stderr).group(1)) / 1e6


def questions(text, slices_of_days):
    """How many questions are asked of all slices together."""
    rows = list(csv.reader(text.splitlines()))
    codes = sum(row[0] == "code" for row in rows)
    asked = 0
    for first in slices_of_days:
        active = {}
        for row in rows:
            if row[0] == "variant" and int(row[6] or 1) <= first <= int(row[7] or 99999):
                active[row[2]] = active.get(row[2], 0) + 1
        asked += 1 + 2 * codes + sum(n + n * (n - 1) // 2 for n in active.values())
        asked += sum(row[0] == "position" and row[3] == "mandatory" for row in rows)
    return asked


def request(method, path, caller, body):
    """A request of HTTP, as bytes."""
    head = f"{method} {path} HTTP/1.1\r\nHost: desk\r\nX-Caller: {caller}\r\nContent-Length: {len(body)}\r\n\r\n"
    return head.encode() + body


def command_numbers(program, book, at, runs):
    """What check, prove, verify and order take."""
    day, ordered = book.order()
    row = {}
    for name, words, settings, sink in [
        ("check", ["check"], MAPPED, "report"),
        ("prove", ["prove"], MAPPED, "cert"),
        ("verify", ["verify", at("cert")], None, "verified"),
        ("order", ["order", str(day), *ordered], None, "ordered"),
    ]:
        if name == "verify" and os.path.getsize(at("cert")) > LONGEST:
            continue
        seconds, megabytes = run([program, *words], at("book"), at(sink), runs, settings)
        row[f"{name}_s"], row[f"{name}_mb"] = seconds, megabytes
        if seconds < COUNTED:
            row[f"{name}_mi"] = millions([program, *words], at("book"), settings)
    row["cert_mb"] = os.path.getsize(at("cert")) / 1e6
    return row


def desk_numbers(program, book, text, at, runs):
    """What the desk takes: a release, an order, and a start over a thousand orders."""
    release = request("PUT", "/drafts/D", "ANNA", text.encode())
    release += request("POST", "/drafts/D/release", "ANNA", b'{"revision":1}')
    orders = [{"book": 1, "day": day, "codes": codes} for day, codes in (book.order() for _ in range(ORDERS))]
    placed = [request("PUT", f"/orders/{n}", "HALL1", json.dumps(order).encode()) for n, order in enumerate(orders, 1)]
    inputs = {"release": release, "bare": b"", "orders": b"".join(placed), "start": b""}
    for name, content in inputs.items():
        pathlib.Path(at(name)).write_bytes(content)
    told = {name: [] for name in inputs}
    for _ in range(runs):
        pathlib.Path(at("store")).unlink(missing_ok=True)
        for name in inputs:
            told[name].append(run([program, "desk", at("store")], at(name), at(f"{name}.out")))
    seconds = {name: min(least for least, _ in runs) for name, runs in told.items()}
    megabytes = {name: max(most for _, most in runs) for name, runs in told.items()}
    return {
        "desk_release_s": seconds["release"],
        "desk_release_mb": megabytes["release"],
        "desk_order_ms": (seconds["orders"] - seconds["bare"]) / ORDERS * 1000,
        "desk_accepted": pathlib.Path(at("orders.out")).read_bytes().count(b"201 Created"),
        "desk_start_s": seconds["start"],
        "desk_start_mb": megabytes["start"],
    }


def main(program, numbers, codes, slices, runs=5):
    """Measures over one book, and adds its line."""
    book = Drawn(codes, slices, codes // 8)
    text = book.text()
    row = {"codes": codes, "slices": slices, "groups": codes // 8, "rows": len(book.rows), "kb": len(text) / 1000}
    row["variants"] = sum(line.startswith("variant") for line in book.rows)
    row["questions"] = questions(text, [1, *book.days])
    with tempfile.TemporaryDirectory(dir="/dev/shm") as folder:
        at = lambda name: f"{folder}/{name}"
        pathlib.Path(at("book")).write_text(text)
        row |= command_numbers(program, book, at, runs)
        row |= desk_numbers(program, book, text, at, runs)
    is_new = not os.path.exists(numbers)
    with open(numbers, "a", newline="") as file:
        writer = csv.DictWriter(file, COLUMNS, lineterminator="\n")
        if is_new:
            writer.writeheader()
        writer.writerow({name: f"{value:.4g}" if isinstance(value, float) else value for name, value in row.items()})
    print(row)


if __name__ == "__main__":
    if not 5 <= len(sys.argv) <= 6:
        sys.exit(__doc__)
    main(built(sys.argv[1]), sys.argv[2], *map(int, sys.argv[3:]))
