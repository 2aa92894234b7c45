#!/usr/bin/env python3
"""Tries a desk on a machine that lets it down: a full disk, a store that can't be written any more, an output that nobody takes,
a kill at random moments, a log or a store that was being written when the power failed, and many desks at one new store.

    tests/hostile-desk.py [--journal] [--seed N] [--kills N] [PROGRAM [SUBJECT..]]

PROGRAM is crates/partsbook/out/partsbook without the word, SUBJECT one of output, disk, locked, kill, torn and race. The store is
one of SQLite, and with --journal a journal, of which `race` isn't tried and `integrity_check` is that its records are whole. What must
hold each time: every order that was answered 201 is in the store that is left, and at most one more, which was sent and not
answered 201; `integrity_check` says ok; an order that is kept can be read while nothing can be written; and when the cause is
away a desk starts over the store, and has these orders. `torn` takes away what a disk may lose when the power fails, which a
kill doesn't: there the orders that are left are the first ones that were kept, none left out, and the store starts.

`disk` and `locked` mount a small disk in memory and make files immutable, so they are for root. It isn't part of the gate. It
needs the built program and python3, and mount and chattr for these two. The status is 1 where something doesn't hold."""

import argparse
import collections
import os
import random
import shutil
import subprocess
import sys
import tempfile
import threading
import time

from trial import built
from desk_stream import PROGRAM, TOP, NotWhole, example, request, rows_left, rows_of, work_place
from stores import is_journal

NOBODY = 65534
FAULT = "503 store fault"
# The name of the store in its folder.
STORE = "desk.db"
CODES = b'{"book":1,"day":1,"codes":["M1"]}'


def place(number):
    return request("PUT", f"/orders/{number}", "HALL1", CODES)


def read(number):
    return request("GET", f"/orders/{number}", "HALL1")


PUT = request("PUT", "/drafts/T", "ANNA", example("engine.csv"))
RELEASE = request("POST", "/drafts/T/release", "ANNA", b'{"revision":1}')


class Broken(Exception):
    """Something that must hold doesn't."""


def must(what, holds, *seen):
    if not holds:
        raise Broken(what, *seen)


class Desk:
    """A desk that goes on, and is asked one request after the other."""

    def __init__(self, program, store, nobody=False):
        user = {"user": NOBODY, "group": NOBODY, "extra_groups": []} if nobody else {}
        self.process = subprocess.Popen(
            [program, "desk", store], stdin=subprocess.PIPE, stdout=subprocess.PIPE, stderr=subprocess.PIPE, **user
        )

    def ask(self, message):
        """The status and the first line of the body; None where there is no answer."""
        try:
            self.process.stdin.write(message)
            self.process.stdin.flush()
        except BrokenPipeError:
            return None
        return self.answer()

    def answer(self):
        head = []
        while not head or head[-1] != b"\r\n":
            line = self.process.stdout.readline()
            if not line.endswith(b"\r\n"):
                self.rest = line
                return None
            head.append(line)
        length = next(int(line.split(b":")[1]) for line in head if line.startswith(b"Content-Length:"))
        body = self.process.stdout.read(length)
        if len(body) < length:
            return None
        return f"{head[0].split()[1].decode()} {body.decode().splitlines()[0]}"

    def end(self):
        """Its status, what it wrote behind its answers, and what it said on standard error."""
        out, said = self.process.communicate()
        return self.process.returncode, out.decode(), said.decode()


def orders_of(rows):
    return {number for _, number, *_ in rows.get("orders", [])}


def start_over(program, store, kept, may_be):
    """A desk starts over the store, has all orders that must be kept, and of the others at most one of these."""
    before = orders_of(rows_left(store))
    must("orders are lost", kept <= before, sorted(kept - before))
    must("orders that were not answered", len(before - kept) <= 1 and before - kept <= may_be, sorted(before - kept))
    desk = Desk(program, store)
    for number in sorted(before)[-3:]:
        must("an order is there", desk.ask(read(number)) == "200 book 1 day 1", number)
    must("the next desk ends", desk.end() == (0, "", ""))
    must("the rows are as they were", orders_of(rows_of(store)) == before)
    must("one file is left", not os.path.exists(store + "-wal"))
    return before


# An output that nobody takes.


def try_output(program, given):
    text, certificate = example("engine.csv"), os.path.join(TOP, "examples", "engine.cert")
    commands = [
        (["order", "1", "M1"], text), (["check"], text), (["prove"], text), (["verify", certificate], text),
        (["sample", "1", "8", "3"], b""), (["order", "x"], b""),
    ]
    count = 0
    for words, stdin in commands:
        for end in ("full", "closed", "gone"):
            said = run_into(end, [program, *words], stdin)
            must("status 5 and no word", said == (5, b""), words, end, said)
            count += 1
    for end in ("full", "closed", "gone"):
        with tempfile.TemporaryDirectory() as folder:
            store = os.path.join(folder, STORE)
            said = run_into(end, [program, "desk", store], PUT + RELEASE + place(1))
            must("status 5 and no word", said == (5, b""), "desk", end, said)
            rows = rows_of(store)
            must("the first request alone was done", len(rows["drafts"]) == 1 and not rows["books"], end)
            count += 1
    with tempfile.TemporaryDirectory() as folder:
        closed = subprocess.run(
            ["sh", "-c", 'exec "$0" "$@" <&-', program, "desk", os.path.join(folder, STORE)], capture_output=True
        )
        must("a closed input", (closed.returncode, closed.stdout) == (4, b"read fault\n"), closed)
    return f"{count + 1} runs into a full, a closed and an abandoned output: status 5 each time; a closed input: status 4"


def run_into(end, words, stdin):
    """The status and the words on standard error of a run whose output is full, closed, or a pipe without a reader."""
    if end == "closed":
        done = subprocess.run(["sh", "-c", 'exec "$0" "$@" >&-', *words], input=stdin, stderr=subprocess.PIPE)
    elif end == "full":
        with open("/dev/full", "wb") as full:
            done = subprocess.run(words, input=stdin, stdout=full, stderr=subprocess.PIPE)
    else:
        reader, writer = os.pipe()
        os.close(reader)
        done = subprocess.run(words, input=stdin, stdout=writer, stderr=subprocess.PIPE)
        os.close(writer)
    return done.returncode, done.stderr


# A full disk.


# Sizes in kB, and behind how many orders another file takes what is left: small disks, which the desk fills by itself, from one on
# which it can't start to one that is full behind many orders; and a larger one that something else fills.
DISKS = [(size, None) for size in (*range(4, 260, 16), *range(260, 520, 4))] + [(8192, count) for count in (0, 1, 10, 100, 1000)]


def try_disk(program, given):
    ends = collections.Counter()
    orders = []
    with tempfile.TemporaryDirectory() as folder:
        for size, count in DISKS:
            subprocess.run(["mount", "-t", "tmpfs", "-o", f"size={size}k", "tmpfs", folder], check=True)
            try:
                told, kept = fill(program, folder, count)
                ends[told] += 1
                orders.append(kept)
            finally:
                subprocess.run(["umount", folder], check=True)
    return f"{len(DISKS)} disks, {sum(orders)} orders kept, at most {max(orders)} on one: " + "; ".join(
        f"{count} times {end}" for end, count in sorted(ends.items())
    )


# How a desk ends over a store whose log can't be written back into it: it says so, and the next one takes both.
CLOSED = (0, "", "")
LOG_STAYS = (0, "", "the store's log stays beside it: keep both, the next run takes both\n")


def fill_rest(folder):
    with open(os.path.join(folder, "other"), "wb", buffering=0) as other:
        try:
            while True:
                other.write(bytes(4096))
        except OSError:
            pass


def fill(program, folder, count):
    store = os.path.join(folder, STORE)
    kept, failed, answer = set(), set(), None
    desk = Desk(program, store)
    first = desk.ask(PUT)
    if first is None:
        end = desk.end()
        must("a start on a full disk", (end[0], desk.rest, end[2]) == (6, b"store fault\n", ""), end, desk.rest)
        told = "no start"
    else:
        released = desk.ask(RELEASE) if first == "201 kept T 1" else None
        must("a draft and a book", first in ("201 kept T 1", FAULT) and released in (None, "201 book 1", FAULT), first, released)
        number = 0
        while released == "201 book 1" and len(failed) < 3 and number < 4000:
            if number == count:
                fill_rest(folder)
            number += 1
            answer = desk.ask(place(number))
            must("an order", answer in ("201 accepted", FAULT), answer)
            (kept if answer == "201 accepted" else failed).add(number)
        if kept:
            must("an order is read", desk.ask(read(min(kept))) == "200 book 1 day 1")
        end = desk.end()
        must("the end", end in (CLOSED, LOG_STAYS), end)
        told = f"{'orders' if kept else 'no order'} before it was full" if failed or not kept else "all orders"
    again = subprocess.run([program, "desk", store], stdin=subprocess.DEVNULL, capture_output=True)
    must("a start while it is full", (again.returncode, again.stdout) in ((0, b""), (6, b"store fault\n")), again)
    subprocess.run(["mount", "-o", "remount,size=64m", folder], check=True)
    start_over(program, store, kept, failed)
    return f"{told}, the next start on it ends with {again.returncode}", len(kept)


# A store that can't be written any more.


def try_locked(program, given):
    told = []
    for what in ("mode of the store", "mode of the folder", "store", "log", "folder"):
        if what == "log" and is_journal(STORE):
            continue
        folder = tempfile.mkdtemp()
        store = os.path.join(folder, STORE)
        os.chown(folder, NOBODY, NOBODY)
        try:
            told.append(f"{what}: " + lock(program, store, what))
        finally:
            for path in (folder, store, store + "-wal"):
                subprocess.run(["chattr", "-i", path], stderr=subprocess.DEVNULL)
            shutil.rmtree(folder)
    return "; ".join(told)


def lock(program, store, what):
    folder = os.path.dirname(store)
    desk = Desk(program, store, nobody=True)
    must("a book", (desk.ask(PUT), desk.ask(RELEASE)) == ("201 kept T 1", "201 book 1"))
    kept, failed = set(), set()
    for number in range(1, 6):
        must("an order", desk.ask(place(number)) == "201 accepted")
        kept.add(number)
    path = {"mode of the store": store, "store": store, "log": store + "-wal"}.get(what, folder)
    mode = os.stat(path).st_mode & 0o777
    if what.startswith("mode"):
        os.chmod(path, mode & 0o555)
    else:
        subprocess.run(["chattr", "+i", path], check=True)
    for number in range(6, 400):
        answer = desk.ask(place(number))
        must("an order", answer in ("201 accepted", FAULT), answer)
        (kept if answer == "201 accepted" else failed).add(number)
    must("an order is read", desk.ask(read(1)) == "200 book 1 day 1")
    end = desk.end()
    must("the end", end in (CLOSED, LOG_STAYS), end)
    again = Desk(program, store, nobody=True).end()
    must("a start over it", again in (CLOSED, LOG_STAYS, (6, "store fault\n", "")), again)
    if what.startswith("mode"):
        os.chmod(path, mode)
    else:
        subprocess.run(["chattr", "-i", path], check=True)
    must("not kept", len(kept) + len(failed) == 399)
    start_over(program, store, kept, failed)
    return f"{len(kept) - 5} of 394 orders kept, the next start ends with {again[0]}"


# A kill at random moments.


def try_kill(program, given):
    draw = random.Random(given.seed)
    ends = collections.Counter()
    folder = tempfile.mkdtemp(dir=given.place)
    try:
        kept = more = 0
        number = 1
        for round_ in range(given.kills):
            if round_ % 10 == 0:
                shutil.rmtree(folder)
                os.mkdir(folder)
                store, before, number = os.path.join(folder, STORE), set(), 1
            answered, asked, end = kill(program, store, number, draw)
            new = start_over(program, store, before | answered, set(asked))
            ends[end] += 1
            kept += len(answered)
            more += len(new - before - answered)
            before, number = new, max([number, *asked]) + 1
    finally:
        shutil.rmtree(folder)
    told = "; ".join(f"{count} {end}" for end, count in sorted(ends.items()))
    return f"{given.kills} kills ({told}): {kept} orders answered 201, all kept, and {more} more kept unanswered"


def kill(program, store, first, draw):
    """Sends orders without waiting, and kills the desk. Which were answered 201, which were sent, and where it was killed."""
    rows = rows_left(store)
    lead = [(PUT, "201 kept T 1")] if not rows.get("drafts") else []
    lead += [(RELEASE, "201 book 1")] if not rows.get("books") else []
    numbers = list(range(first, first + 500))
    stream = b"".join([message for message, _ in lead] + [place(number) for number in numbers])
    desk = Desk(program, store)
    # Half of the kills come while the desk starts, the others behind so many of its answers.
    wait = draw.random() * 0.08 if draw.random() < 0.5 else None
    after = draw.randrange(1, 120)
    pause = draw.random() * 0.008

    def send():
        try:
            desk.process.stdin.write(stream)
            desk.process.stdin.flush()
        except (BrokenPipeError, ValueError):
            pass

    sender = threading.Thread(target=send)
    sender.start()
    if wait is not None:
        time.sleep(wait)
        desk.process.kill()
    answers = []
    while (answer := desk.answer()) is not None:
        answers.append(answer)
        if len(answers) == after and wait is None:
            time.sleep(pause)
            desk.process.kill()
    desk.process.wait()
    sender.join()
    wanted = [answer for _, answer in lead] + ["201 accepted"] * len(numbers)
    must("the answers", answers == wanted[: len(answers)], set(answers))
    answers = answers[len(lead) :]
    answered = set(numbers[: len(answers)])
    return answered, numbers, "while it answered" if answers else "before an order was answered"


# A log and a store that were being written when the power failed.


def try_torn_journal(program, given):
    """The last change was being written: its gate is closed, and behind it stands what the disk had taken of the record, or
    anything else. The next desk has all before it, and what it then keeps is there."""
    draw = random.Random(given.seed)
    with tempfile.TemporaryDirectory(dir=work_place()) as folder:
        store, sizes = os.path.join(folder, STORE), []
        desk = Desk(program, store)
        must("a book", (desk.ask(PUT), desk.ask(RELEASE)) == ("201 kept T 1", "201 book 1"))
        for number in range(1, 41):
            must("an order", desk.ask(place(number)) == "201 accepted")
            sizes.append(os.path.getsize(store))
        desk.end()
        whole = contents(store)
        for round_ in range(300):
            there = draw.randrange(1, 40)
            size = sizes[there - 1]
            cut = size + draw.randrange(sizes[there] - size + 1)
            behind = whole[size:cut] if round_ % 2 else draw.randbytes(cut - size)
            with open(store, "wb") as file:
                file.write(whole[: size - 1] + b"\0" + behind)
            desk = Desk(program, store)
            must("the last one isn't there", desk.ask(read(there + 1)) == "404 no such order")
            must("an order", desk.ask(place(900)) == "201 accepted")
            must("the end", desk.end() == (0, "", ""))
            must("the first orders and the new one", orders_of(rows_of(store)) == {*range(1, there + 1), 900})
    return "300 journals whose last record was there in part, or was something else: the orders before it, and one more that was placed"


def try_torn(program, given):
    if is_journal(STORE):
        return try_torn_journal(program, given)
    draw = random.Random(given.seed)
    with tempfile.TemporaryDirectory(dir=work_place()) as folder:
        store = os.path.join(folder, STORE)
        desk = Desk(program, store)
        orders = list(range(1, 41))
        must("the orders", [desk.ask(message) for message in (PUT, RELEASE, *map(place, orders))][2:] == ["201 accepted"] * 40)
        desk.process.kill()
        desk.process.communicate()
        old, log = contents(store), contents(store + "-wal")

        def orders_over(some_store, some_log):
            for path, bytes_there in ((store, some_store), (store + "-wal", some_log)):
                with open(path, "wb") as file:
                    file.write(bytes_there)
            done = subprocess.run([program, "desk", store], stdin=subprocess.DEVNULL, capture_output=True)
            must("a start", (done.returncode, done.stdout, done.stderr) == (0, b"", b""), done)
            return sorted(orders_of(rows_of(store)))

        must("the whole log", orders_over(old, log) == orders)
        new = contents(store)
        for _ in range(300):
            left = orders_over(old, log[: draw.randrange(len(log) + 1)])
            must("the first orders", left == orders[: len(left)], left)
        for _ in range(300):
            at = draw.randrange(32, len(log))
            left = orders_over(old, log[:at] + draw.randbytes(512) + log[at + 512 :])
            must("the first orders", left == orders[: len(left)], left)
        for _ in range(300):
            must("all orders", orders_over(mix(old, new, draw), log) == orders)
    return "300 logs that were cut, 300 with 512 other bytes, 300 stores into which a log was copied in part"


def contents(path):
    with open(path, "rb") as file:
        return file.read()


def mix(old, new, draw):
    """The store in the midst of its log's copy: of each page a front is new, and not all pages may be there yet."""
    pages = []
    for at in range(0, len(new), 4096):
        front = draw.choice((0, 512, 2048, 4096))
        pages.append(new[at : at + front] + old[at + front : at + 4096].ljust(4096 - front, b"\0"))
    return b"".join(pages)[: draw.choice((len(new), draw.randrange(4096, len(new) + 1)))]


# Many desks at one new store.


def try_race(program, given):
    ends = collections.Counter()
    for _ in range(20):
        with tempfile.TemporaryDirectory(dir=work_place()) as folder:
            store = os.path.join(folder, STORE)
            kept, failed = set(), []

            def run(caller):
                for number in range(3 * caller + 1, 3 * caller + 4):
                    done = subprocess.run([program, "desk", store], input=PUT + RELEASE + place(number), capture_output=True)
                    if done.returncode == 0 and b"accepted" in done.stdout:
                        kept.add(number)
                    elif (done.returncode, done.stdout) != (6, b"store fault\n"):
                        failed.append(done)
                    ends[done.returncode] += 1

            threads = [threading.Thread(target=run, args=(caller,)) for caller in range(6)]
            for thread in threads:
                thread.start()
            for thread in threads:
                thread.join()
            must("a desk, or a store fault", not failed, failed)
            start_over(program, store, kept, set())
    return f"360 desks, six at a time: {ends[0]} held the store, {ends[6]} were refused"


def main():
    global STORE
    subjects = {"output": try_output, "disk": try_disk, "locked": try_locked, "kill": try_kill, "torn": try_torn, "race": try_race}
    reader = argparse.ArgumentParser(usage="tests/hostile-desk.py [--journal] [--seed N] [--kills N] [--place FOLDER] [PROGRAM [SUBJECT..]]")
    reader.add_argument("--journal", action="store_true")
    reader.add_argument("--seed", type=int, default=1)
    reader.add_argument("--kills", type=int, default=100)
    reader.add_argument("--place", help="where the stores that are killed over stand")
    reader.add_argument("program", nargs="?", default=PROGRAM, type=built)
    reader.add_argument("subject", nargs="*")
    given = reader.parse_args()
    failed = 0
    if given.journal:
        STORE = "desk.journal"
        del subjects["race"]
    for name in given.subject or subjects:
        begun = time.time()
        try:
            told = subjects[name](given.program, given)
            print(f"{name}: {told} ({time.time() - begun:.0f} s)", flush=True)
        except (Broken, NotWhole) as said:
            failed = 1
            print(f"{name}: broken: {said}", flush=True)
    return failed


if __name__ == "__main__":
    sys.exit(main())
