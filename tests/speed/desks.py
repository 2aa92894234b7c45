#!/usr/bin/env python3
"""Divides the orders of many callers among several desks, as docs/OPERATING.md says under "Growing past one machine".

    desks.py PROGRAM [CODES SLICES ORDERS]

A drawn book (400 codes and 5 slices without the words) is released at each desk, and ORDERS orders (4,000) of 16 callers are placed,
each caller's at one desk. For 1, 2, 4 and 8 desks it prints the user seconds of the desk that has most to do, the least of five runs,
without the release, and the memory of the largest. The answers that each caller gets have to be the same bytes, however many desks
there are: else it ends with 1. The stores are in memory (/dev/shm), so the disks are no part of it.
"""

import collections
import json
import os
import pathlib
import sys
import tempfile

sys.path[:0] = map(str, pathlib.Path(__file__).resolve().parents[:2])
from trial import built
from draw_book import Drawn
from measure import request, run

CALLERS = [f"HALL{n}" for n in range(16)]


def responses(text):
    """The responses of a link, one by one, by their Content-Length."""
    while text:
        head, _, rest = text.partition(b"\r\n\r\n")
        length = int(head.lower().split(b"content-length: ")[1].split(b"\r\n")[0])
        yield head + rest[:length]
        text = rest[length:]


def serve(program, folder, release, placed):
    """One desk with its release and its orders: the least user seconds of the orders, the most memory, and what each caller got."""
    store, said = f"{folder}/store", f"{folder}/said"
    pathlib.Path(f"{folder}/release").write_bytes(release)
    pathlib.Path(f"{folder}/orders").write_bytes(b"".join(text for _, text in placed))
    pathlib.Path(f"{folder}/none").write_bytes(b"")
    least = []
    for _ in range(5):
        pathlib.Path(store).unlink(missing_ok=True)
        run([program, "desk", store], f"{folder}/release", said)
        bare, _ = run([program, "desk", store], f"{folder}/none", said)
        least.append((run([program, "desk", store], f"{folder}/orders", said), bare))
    got = collections.defaultdict(list)
    for (caller, _), answer in zip(placed, responses(pathlib.Path(said).read_bytes())):
        got[caller].append(answer)
    seconds = min(seconds for (seconds, _), _ in least) - min(bare for _, bare in least)
    return seconds, max(megabytes for (_, megabytes), _ in least), got


def main(program, codes=400, slices=5, count=4000):
    """Prints a line for each number of desks."""
    book = Drawn(codes, slices, codes // 8)
    release = request("PUT", "/drafts/D", "ANNA", book.text().encode())
    release += request("POST", "/drafts/D/release", "ANNA", b'{"revision":1}')
    placed = []
    for number in range(1, count + 1):
        day, ordered = book.order()
        caller = book.dice.choice(CALLERS)
        order = json.dumps({"book": 1, "day": day, "codes": ordered}).encode()
        placed.append((caller, request("PUT", f"/orders/{number}", caller, order)))
    first = None
    for desks in (1, 2, 4, 8):
        told, got = [], {}
        for desk in range(desks):
            mine = [(caller, text) for caller, text in placed if CALLERS.index(caller) % desks == desk]
            with tempfile.TemporaryDirectory(dir="/dev/shm") as folder:
                *numbers, answers = serve(program, folder, release, mine)
            told.append(numbers)
            got |= answers
        first = first or got
        same = "the same answers" if got == first else "OTHER ANSWERS"
        print(f"{desks} desks: {max(s for s, _ in told):.2f} s, {max(mb for _, mb in told):.0f} MB, {same}", flush=True)
        if got != first:
            sys.exit(1)


if __name__ == "__main__":
    if len(sys.argv) not in (2, 5):
        sys.exit(__doc__)
    main(built(sys.argv[1]), *map(int, sys.argv[2:]))
