#!/usr/bin/env python3
"""Tries a service, `partsbook serve`, with real clients: curl, Python's http.client, wrk, and sockets of its own.

    tests/serve-clients.py [--seed N] [--kills N] [--orders N] [--place FOLDER] [PROGRAM [SUBJECT..]]

PROGRAM is crates/partsbook/out/partsbook without the word, and SUBJECT one of these:

page     each line of docs/HTTP.md that calls curl, against a service with two workers; what comes out is what the page shows.
orders   eight threads with a kept connection each, at a service with eight workers: 2,000 orders over a store on a disk, of each
         kind, and 100,000 over one in a folder in memory. Each order comes from two clients at once, under one number of one
         caller. Some are refused, and of some the two differ. Each is kept once, what the two clients are answered fits
         together, and the store, read by sqlite3 afterwards, has just what was answered.
early    bodies of 2 MB that are refused by 413 before they are read: each client sees the 413, and no reset.
wrk      wrk, if it is there: reads over four connections, all answered 200.
kill     services that are killed at random moments, with four clients each that place orders, over both kinds of store: each
         order that was answered 201 is there afterwards, and of each client at most one more, which was sent and not answered.
waiting  sixteen workers, one of which waits for a disk that takes 20 milliseconds more for each sync: they take no processor
         time to speak of while they wait for their turn.

It isn't part of the gate. It needs the built program, python3, curl, and cc for `waiting`; wrk where it is there. A
service ends by itself when its links have been, and this ends by itself too: what doesn't come in two minutes is told as broken.
The status is 1 where something doesn't hold."""

import argparse
import collections
import contextlib
import os
import random
import re
import shutil
import socket
import subprocess
import sys
import tempfile
import threading
import time

from trial import built
from desk_stream import PROGRAM, TOP, request, work_place
from service import ACCEPTED, CODES, PATIENCE, Gone, Service, at_once, kept_orders, must, try_subjects

KINDS = ("db", "journal")


# The page, by curl.


def page_steps(page):
    """The commands of a page, each with the lines that it shows below."""
    steps, inside = [], False
    with open(page) as lines:
        for number, line in enumerate(lines, 1):
            if line.startswith("```"):
                inside, wanted = not inside, None
            elif inside and line.startswith("$ "):
                wanted = []
                steps.append((number, line[2:].rstrip("\n"), wanted))
            elif inside and wanted is not None:
                wanted.append(line.rstrip("\n"))
    return steps


def fits(wanted, found):
    """Whether lines are those that a page shows, where `..` stands for any lines."""
    while wanted and not wanted[-1]:
        wanted = wanted[:-1]
    pattern = "".join("(?:.*\n)*" if line == ".." else re.escape(line) + "\n" for line in wanted)
    return re.fullmatch(pattern, found.replace("\r\n", "\n").rstrip("\n") + "\n" if found.strip() else "") is not None


def try_page(program, given):
    steps = [step for step in page_steps(os.path.join(TOP, "docs", "HTTP.md")) if step[1].startswith("curl ")]
    with tempfile.TemporaryDirectory() as home:
        with open(os.path.join(home, ".curlrc"), "w") as file:
            file.write("silent\nshow-error\n")
        settings = dict(os.environ, CURL_HOME=home, HOME=home)
        with Service(program, os.path.join(home, "desk.db"), 2, len(steps)) as service:
            service.wait()
            for number, command, wanted in steps:
                command = command.replace("localhost:8080", f"localhost:{service.port}")
                done = subprocess.run(
                    ["sh", "-c", command], cwd=TOP, env=settings, capture_output=True, text=True, timeout=PATIENCE
                )
                must(f"docs/HTTP.md:{number}", fits(wanted, done.stdout), command, done.stdout, done.stderr)
            end = service.ended()
        must("the end", end == (0, "drafts 1 books 1 orders 1\n", ""), end)
        return f"{len(steps)} lines of docs/HTTP.md come out as they are shown, and the service ends with the last link"


# Orders of which each comes from two clients at once.

CLIENTS = 8
REFUSED = b'{"book":1,"day":1,"codes":["M2"]}'


def body_of(number, second):
    """What a client of a pair orders under a number: every tenth order is refused, and of every seventh the two differ."""
    if number % 10 == 0:
        return REFUSED
    day = 2 if number % 7 == 0 and second else 1
    return b'{"book":1,"day":%d,"codes":["%s"]}' % (day, b"M1" if number % 3 else b"M1\",\"G5")


def place_pair(service, pair, numbers, answers):
    """The works of two clients, who place the same orders under one caller."""
    meet = threading.Barrier(2)

    def work(second):
        gave = answers[pair][second]
        try:
            with service.client() as client:
                for place, number in enumerate(numbers):
                    # So that neither runs away from the other.
                    if place % 16 == 0:
                        meet.wait(PATIENCE)
                    gave.append(client.place(number, body_of(number, second), f"HALL{pair}"))
        except Exception:
            meet.abort()
            raise

    return [lambda: work(0), lambda: work(1)]


def judge_pair(pair, number, first, second, kept):
    """Whether the answers to one order fit together and to what is kept of it. Gives the kind of what came out."""
    answers = sorted([first, second])
    row = kept.get((f"HALL{pair}", number))
    seen = pair, number, first, second, row
    if number % 10 == 0:
        must("both are refused", answers == [(422, "refused C3\n")] * 2 and row is None, *seen)
        return "refused twice"
    codes = "M1" if number % 3 else "M1 G5"
    if number % 7 == 0:
        must("one is kept", answers == [(201, ACCEPTED), (409, "number used 1\n")], *seen)
        must("the one that was answered 201", row == (1, 2 if second[0] == 201 else 1, codes), *seen)
        return "kept, and the other order under its number answered 409"
    must("kept once", answers == [(200, ACCEPTED), (201, ACCEPTED)], *seen)
    must("the order is there", row == (1, 1, codes), *seen)
    return "kept once, answered 201 and 200"


def place_orders(program, folder, kind, count):
    store = os.path.join(folder, f"desk.{kind}")
    pairs = CLIENTS // 2
    numbers = range(1, count // pairs + 1)
    answers = [([], []) for _ in range(pairs)]
    # Each worker has two links: the first request takes one, and each client one, so eight are left.
    with Service(program, store, CLIENTS, 2 * CLIENTS) as service:
        with service.client() as client:
            client.release()
        begun = time.time()
        at_once([work for pair in range(pairs) for work in place_pair(service, pair, numbers, answers)])
        took = time.time() - begun
        end = service.use_up()
    kept = kept_orders(store)
    kinds = collections.Counter(
        judge_pair(pair, number, first, second, kept)
        for pair, (one, other) in enumerate(answers)
        for number, first, second in zip(numbers, one, other, strict=True)
    )
    wanted = sum(count for kind_, count in kinds.items() if kind_.startswith("kept"))
    must("no order more", len(kept) == wanted, len(kept), wanted)
    must("the end", end == (0, f"drafts 1 books 1 orders {len(kept)}\n", ""), end)
    told = ", ".join(f"{count} {kind_}" for kind_, count in sorted(kinds.items()))
    return f"{2 * pairs * len(numbers)} requests in {took:.0f} s: {told}"


def try_orders(program, given):
    told = []
    for place, kind, count in (
        *((given.place, kind, given.orders // 50) for kind in KINDS), (work_place(), "db", given.orders)
    ):
        with tempfile.TemporaryDirectory(dir=place) as folder:
            where = "in memory" if place == work_place() else "on a disk"
            told.append(f"{where}, .{kind}: " + place_orders(program, folder, kind, count))
    return "; ".join(told)


# Refused before the body is read.


def hear_all(link):
    heard = b""
    while piece := link.recv(65536):
        heard += piece
    return heard


def try_early(program, given):
    body = bytes(2_000_000)
    refusal = (
        b"HTTP/1.1 413 Content Too Large\r\nContent-Type: text/plain\r\nContent-Length: 15\r\nConnection: close\r\n\r\n"
        b"body too large\n"
    )
    tries = 50
    with tempfile.TemporaryDirectory(dir=work_place()) as folder:
        large = os.path.join(folder, "large")
        with open(large, "wb") as file:
            file.write(body)
        with Service(program, os.path.join(folder, "desk.db"), 2, 2 * tries + 2) as service:
            for _ in range(tries):
                with service.connect() as link:
                    link.sendall(request("PUT", "/drafts/T", "ANNA", body))
                    link.shutdown(socket.SHUT_WR)
                    heard = hear_all(link)
                    must("the 413 and the end", heard == refusal, heard)
            for _ in range(tries):
                with service.client() as client:
                    answer = client.ask("PUT", "/drafts/T", "ANNA", body)
                    must("the 413", answer == (413, "body too large\n"), answer)
            for more in ([], ["-H", "Expect:"]):
                done = subprocess.run(
                    ["curl", "-q", "--silent", "--show-error", "-X", "PUT", "-H", "X-Caller: ANNA", *more]
                    + ["-w", "%{http_code}", "--data-binary", f"@{large}", f"http://127.0.0.1:{service.port}/drafts/T"],
                    capture_output=True, text=True, timeout=PATIENCE,
                )
                seen = done.returncode, done.stdout, done.stderr
                must("curl sees the 413", seen == (0, "body too large\n413", ""), seen)
            end = service.ended()
        must("the end", end == (0, "drafts 0 books 0 orders 0\n", ""), end)
    return f"{2 * tries + 2} bodies of 2,000,000 bytes, by sockets, http.client and curl: each sees 413"


# wrk.


def try_wrk(program, given):
    if shutil.which("wrk") is None:
        return "there is no wrk: nothing was tried"
    links = 64
    with tempfile.TemporaryDirectory(dir=work_place()) as folder:
        with Service(program, os.path.join(folder, "desk.db"), 4, links) as service:
            with service.client() as client:
                client.release()
                must("an order", client.place(1)[0] == 201)
            told = []
            for path in ("/drafts/T/owner", "/orders/1"):
                done = subprocess.run(
                    ["wrk", "-t2", "-c4", "-d3s", "-H", "X-Caller: HALL1", f"http://127.0.0.1:{service.port}{path}"],
                    capture_output=True, text=True, timeout=PATIENCE,
                )
                rate = re.search(r"Requests/sec: +(\S+)", done.stdout)
                must("wrk", done.returncode == 0 and rate, done)
                must("all are answered 200", not re.search("Non-2xx|Socket errors", done.stdout), done.stdout)
                told.append(f"{path} {float(rate[1]):.0f} a second")
            end = service.use_up()
        must("the end", end == (0, "drafts 1 books 1 orders 1\n", ""), end)
    return "all answered 200: " + ", ".join(told)


# Kills at random moments.


def try_kill(program, given):
    draw = random.Random(given.seed)
    told = []
    for place, kind in ((given.place, "db"), (given.place, "journal"), (work_place(), "db"), (work_place(), "journal")):
        with tempfile.TemporaryDirectory(dir=place) as folder:
            store = os.path.join(folder, f"desk.{kind}")
            where = "in memory" if place == work_place() else "on a disk"
            told.append(f"{where}, .{kind}: " + kills(program, store, draw, given))
    return "; ".join(told)


KILLED_CLIENTS = 4


def kills(program, store, draw, given):
    answered_all = more_all = 0
    before, port = {}, None
    for round_ in range(given.kills):
        if round_ % 10 == 0:
            for end in ("", "-wal"):
                with contextlib.suppress(FileNotFoundError):
                    os.remove(store + end)
            before, first = set(), 1
        answered, sent, port = kill(program, store, first, draw, port)
        after = set(kept_orders(store))
        kept = before | answered
        must("no answered order is lost", kept <= after, sorted(kept - after))
        must("no order that wasn't sent", after - kept <= sent, sorted(after - kept - sent))
        more = collections.Counter(caller for caller, _ in after - kept)
        must("at most one more of each client", not more or max(more.values()) == 1, more)
        answered_all += len(answered)
        more_all += len(after - kept)
        before, first = after, max([first, *(number + 1 for _, number in sent)])
    # A desk starts over what the last kill left, and all is there.
    done = subprocess.run([program, "desk", store], stdin=subprocess.DEVNULL, capture_output=True, timeout=PATIENCE)
    must("a desk starts", (done.returncode, done.stdout, done.stderr) == (0, b"", b""), done)
    must("the orders are there", set(kept_orders(store)) == before)
    return f"{given.kills} kills, {answered_all} orders answered 201, all kept, and {more_all} more"


def kill(program, store, first, draw, port):
    """The orders that were answered 201 and those that were sent, of clients who place orders while their service is killed.
    It listens at the port of the last one, which was killed with connections open."""
    wait = draw.random() * (0.1 if draw.random() < 0.5 else 1)
    answered, sent, released = set(), set(), threading.Event()
    with Service(program, store, KILLED_CLIENTS, 1000, port) as service:

        def release():
            with contextlib.suppress(Gone), service.client() as client:
                client.release()
            released.set()

        def work(caller):
            released.wait()
            with contextlib.suppress(Gone), service.client() as client:
                for number in range(first, first + 100_000):
                    sent.add((caller, number))
                    answer = client.place(number, CODES, caller)
                    must("an order", answer == (201, ACCEPTED), answer)
                    answered.add((caller, number))

        def end():
            time.sleep(wait)
            service.process.kill()

        at_once([end, release, *(lambda caller=f"HALL{place}": work(caller) for place in range(KILLED_CLIENTS))])
        return answered, sent, service.port


# Waiting for the turn.

WORKERS = 16
DELAY = 0.02


def slow_disk(folder):
    """The settings with which a sync of a program takes longer."""
    library = os.path.join(folder, "slow_sync.so")
    source = os.path.join(TOP, "tests", "slow_sync.c")
    subprocess.run(["cc", "-O2", "-Wall", "-shared", "-fPIC", "-o", library, source], check=True, timeout=PATIENCE)
    return dict(os.environ, LD_PRELOAD=library, SYNC_DELAY=str(int(DELAY * 1_000_000)))


def try_waiting(program, given):
    seconds = 10
    with tempfile.TemporaryDirectory(dir=work_place()) as folder:
        store = os.path.join(folder, "desk.db")
        with Service(program, store, WORKERS, 2 * WORKERS, settings=slow_disk(folder)) as service:
            with service.client() as client:
                client.release()
                must("an order", client.place(1) == (201, ACCEPTED))
            time.sleep(1)
            before = service.ticks()
            time.sleep(2)
            idle = service.ticks() - before
            must("workers without a link take no time", idle <= 2, idle)
            until = time.time() + seconds

            def place():
                number = 1
                with service.client() as client:
                    while time.time() < until:
                        number += 1
                        must("an order", client.place(number) == (201, ACCEPTED))
                return number - 1

            def read():
                count = 0
                with service.client() as client:
                    while time.time() < until:
                        must("a read", client.ask("GET", "/orders/1", "HALL1")[0] == 200)
                        count += 1
                return count

            before = service.ticks()
            orders, *reads = at_once([place, *[read] * (WORKERS - 1)])
            took = service.ticks() - before
            end = service.use_up()
        must("the end", end == (0, f"drafts 1 books 1 orders {orders + 1}\n", ""), end)
    told = (
        f"{orders} orders, each with a wait of {DELAY * 1000:.0f} ms, and {sum(reads)} reads of fifteen others in {seconds} s, "
        f"with {WORKERS} workers: {took / 100:.2f} s of the processor"
    )
    must("the orders waited for the disk", orders <= seconds / DELAY, told)
    must("who waits takes no processor time", took < 100 * seconds / 5, told)
    return told


def main():
    subjects = {
        "page": try_page, "orders": try_orders, "early": try_early, "wrk": try_wrk, "kill": try_kill, "waiting": try_waiting,
    }
    reader = argparse.ArgumentParser(
        usage="tests/serve-clients.py [--seed N] [--kills N] [--orders N] [--place FOLDER] [PROGRAM [SUBJECT..]]"
    )
    reader.add_argument("--seed", type=int, default=1)
    reader.add_argument("--kills", type=int, default=25, help="of each kind of store, on a disk and in memory")
    reader.add_argument("--orders", type=int, default=100_000, help="placed in memory; a fiftieth of them on a disk")
    reader.add_argument("--place", help="a folder on a disk, where stores are made")
    reader.add_argument("program", nargs="?", default=PROGRAM, type=built)
    reader.add_argument("subject", nargs="*")
    given = reader.parse_args()
    return try_subjects(subjects, given)


if __name__ == "__main__":
    sys.exit(main())
