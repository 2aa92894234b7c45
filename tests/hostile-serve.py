#!/usr/bin/env python3
"""Tries a service, `partsbook serve`, with clients who keep it waiting, and looks whether the others are answered meanwhile.

    tests/hostile-serve.py [PROGRAM [SUBJECT..]]

PROGRAM is crates/partsbook/out/partsbook without the word, and SUBJECT one of these. The service has four workers; the client who
keeps it waiting takes one, and three others place orders all the time. Each of these has to be answered within five seconds.

slow     one who sends his request a byte a second, and then one who takes his response so.
unread   one who sends requests as long as the connection takes them, and reads no response; and then goes.
silent   one who says nothing, one who stops inside a head, and one whose body never comes; and then go.
gone     one who resets his connection again and again, inside a request, or with a response that he doesn't read.
closing  one who is refused and keeps on sending, and one who keeps his side open.
all      forty silent clients at once, and none of them goes: each holds a worker no longer than a read waits.
long     one who sends his request a byte a second, for longer than a message may take: his connection is ended.
many     200 connections at once, each with an order; and 100 that are open at once, which speak one after the other.
large    one who has a large book checked and released.
descriptors  a service that may have too few open files for its workers: who can't be taken waits, and the service doesn't end.
counts   what a service tells of itself on standard error after eight requests and two orders, one of them sent three times.
deep     bodies with lists deep in one another, since a worker has a stack of its own.

It isn't part of the gate. It needs the built program and python3, and ends by itself. The status is 1 where something doesn't
hold."""

import argparse
import os
import pathlib
import socket
import struct
import sys
import tempfile
import threading
import time

sys.path.insert(1, str(pathlib.Path(__file__).resolve().parent / "speed"))
from trial import built
from desk_stream import PROGRAM, example, request, work_place
from service import ACCEPTED, CODES, PATIENCE, Gone, Service, at_once, kept_orders, must, try_subjects
from draw_book import Drawn

WORKERS = 4
SOON = 5
# How long a service waits for a byte, and for a whole message, in seconds (crates/tcp_door/src/patience.rt).
LONGEST_WAIT = 30
LONGEST_MESSAGE = 120


class Hall:
    """A service with a book, and dealers who place orders as long as something is tried at it."""

    def __init__(self, program, folder, links=10_000):
        self.store = os.path.join(folder, "desk.db")
        self.service = Service(program, self.store, WORKERS, links)
        self.count = 0
        with self.service.client() as client:
            client.release()

    def __enter__(self):
        return self

    def __exit__(self, *_):
        self.service.kill()

    def try_beside(self, trial, dealers=WORKERS - 1):
        """Does the trial while dealers place orders. What it gave, how many orders, and how long one of them took at most."""
        # Each dealer has a worker before the trial begins.
        done, begun = threading.Event(), threading.Barrier(dealers + 1)
        first = self.count + 1

        def work():
            try:
                begun.wait(PATIENCE)
                return trial()
            finally:
                done.set()

        def deal(place):
            number, longest = first + place, 0
            with self.service.client() as client:
                while not done.is_set():
                    sent = time.time()
                    answer = client.place(number)
                    longest = max(longest, time.time() - sent)
                    must("an order", answer == (201, ACCEPTED), answer)
                    if number == first + place:
                        begun.wait(PATIENCE)
                    number += dealers
                    time.sleep(0.002)
            return (number - first - place) // dealers, longest

        gave, *dealt = at_once([work, *(lambda place=place: deal(place) for place in range(dealers))])
        # Some dealers may have placed more than others, so not all numbers up to this one were used.
        self.count = first + dealers * max(count for count, _ in dealt)
        longest = max(longest for _, longest in dealt)
        must("the others are answered meanwhile", longest < SOON, longest)
        return gave, f"{sum(count for count, _ in dealt)} orders of others, the longest {longest * 1000:.0f} ms"

    def memory(self):
        """The memory that the service has, in kB."""
        with open(f"/proc/{self.service.process.pid}/status") as lines:
            return next(int(line.split()[1]) for line in lines if line.startswith("VmRSS"))

    def still_serves(self):
        """As many callers as there are workers are answered at once, each over a connection of his own."""
        links = [self.service.connect() for _ in range(WORKERS)]
        for link in links:
            link.settimeout(SOON)
            link.sendall(request("GET", "/drafts/T/owner", "BOB"))
        for link in links:
            must("a worker is free again", hear(link).endswith(b"owner ANNA revision 1\n"))
            link.close()


def hear(link):
    """One response."""
    heard = b""
    while b"\r\n\r\n" not in heard:
        piece = link.recv(65536)
        must("an answer", piece, heard)
        heard += piece
    head, _, body = heard.partition(b"\r\n\r\n")
    length = next(int(line[15:]) for line in head.split(b"\r\n") if line.startswith(b"Content-Length:"))
    while len(body) < length:
        piece = link.recv(65536)
        must("an answer", piece, heard)
        body += piece
    return head + b"\r\n\r\n" + body


def over(program, trial):
    with tempfile.TemporaryDirectory(dir=work_place()) as folder:
        with Hall(program, folder) as hall:
            return trial(hall)


def try_slow(program, given):
    def trial(hall):
        asked = b"GET /orders/1 HTTP/1.1\r\nHost: h\r\nX-Caller: HALL1\r\n\r\n"

        def sending():
            with hall.service.connect() as link:
                for byte in asked:
                    link.sendall(bytes([byte]))
                    time.sleep(1)
                must("the slow one is answered", hear(link).endswith(ACCEPTED.encode()))

        def taking():
            # A window as small as the system makes it, so that the response waits on the other side.
            link = socket.socket()
            link.setsockopt(socket.SOL_SOCKET, socket.SO_RCVBUF, 1)
            link.settimeout(PATIENCE)
            link.connect(("127.0.0.1", hall.service.port))
            with link:
                link.sendall(asked * 2000)
                for _ in range(20):
                    must("a byte", len(link.recv(1)) == 1)
                    time.sleep(1)

        with hall.service.client() as client:
            must("an order", client.place(1) == (201, ACCEPTED))
        hall.count = 1
        _, first = hall.try_beside(sending)
        _, second = hall.try_beside(taking)
        hall.still_serves()
        return f"{len(asked)} bytes sent, one a second: {first}; 20 bytes taken, one a second: {second}"

    return over(program, trial)


def try_unread(program, given):
    def trial(hall):
        asked = request("GET", "/books/1", "HALL1") * 100
        before = hall.memory()

        def sending():
            sent = 0
            with hall.service.connect() as link:
                link.settimeout(3)
                try:
                    while True:
                        sent += link.send(asked)
                except TimeoutError:
                    pass
                time.sleep(10)
                return sent, hall.memory()

        (sent, memory), told = hall.try_beside(sending)
        must("memory stays bounded", memory < before + 20_000, before, memory)
        hall.still_serves()
        return f"{sent} bytes of requests were taken, then no more; memory {before} kB before and {memory} kB then: {told}"

    return over(program, trial)


def try_silent(program, given):
    head = request("PUT", "/drafts/T", "ANNA", example("engine.csv"))
    fronts = {
        "says nothing": b"",
        "stops inside a head": b"GET /orders/1 HTT",
        "stops behind a head": head[: head.index(b"\r\n\r\n") + 4],
        "stops inside a body": head[:-1],
    }

    def trial(hall):
        told = []
        for what, front in fronts.items():

            def wait():
                with hall.service.connect() as link:
                    link.sendall(front)
                    time.sleep(5)

            told.append(f"one who {what}: " + hall.try_beside(wait)[1])
            hall.still_serves()
        with hall.service.client() as client:
            must("nothing was done", client.ask("GET", "/drafts/T/owner", "BOB") == (200, "owner ANNA revision 1\n"))
        return "; ".join(told)

    return over(program, trial)


def reset(link):
    link.setsockopt(socket.SOL_SOCKET, socket.SO_LINGER, struct.pack("ii", 1, 0))
    link.close()


def try_gone(program, given):
    def trial(hall):
        message = request("PUT", "/orders/1", "HALL9", CODES)

        def come_and_go():
            for round_ in range(400):
                link = hall.service.connect()
                link.sendall(message * 50 if round_ % 2 else message[: round_ % len(message)])
                if round_ % 4 < 2:
                    time.sleep(0.001)
                reset(link)

        _, told = hall.try_beside(come_and_go)
        hall.still_serves()
        kept = kept_after(hall)
        must("the order is kept once", sum(caller == "HALL9" for caller, _ in kept) == 1)
        return f"400 connections were reset: {told}"

    return over(program, trial)


def kept_after(hall):
    """Ends the service, and gives the orders that are left."""
    hall.service.kill()
    return kept_orders(hall.store)


def try_closing(program, given):
    def trial(hall):
        refused = b"PUT /drafts/T HTTP/1.1\r\nHost: h\r\nX-Caller: ANNA\r\nContent-Length: 100000000\r\n\r\n"

        def sending():
            """Sends as much as is taken, at once."""
            sent = 0
            with hall.service.connect() as link:
                must("the 413", [link.sendall(refused), hear(link)][1].startswith(b"HTTP/1.1 413 "))
                try:
                    while True:
                        sent += link.send(bytes(65536))
                except OSError:
                    pass
            return sent

        def keeping():
            """Keeps his side open and says nothing, until another one is answered by his worker."""
            with hall.service.connect() as link:
                must("the 413", [link.sendall(refused), hear(link)][1].startswith(b"HTTP/1.1 413 "))
                must("the end", link.recv(1) == b"")
                begun = time.time()
                with hall.service.connect() as other:
                    other.sendall(request("GET", "/drafts/T/owner", "BOB"))
                    must("another one", hear(other).endswith(b"owner ANNA revision 1\n"))
            return time.time() - begun

        sent, first = hall.try_beside(sending)
        took, second = hall.try_beside(keeping)
        hall.still_serves()
        must("a bounded number of bytes is read", sent < 30_000_000, sent)
        must("a bounded time", took < SOON, took)
        return (
            f"one who is refused and sends on, {sent} bytes until the service closes: {first}; "
            f"one who keeps his side open, whose worker is free again after {took:.1f} s: {second}"
        )

    return over(program, trial)


def try_all(program, given):
    count = 40

    def trial(hall):
        begun, took = time.time(), {}

        def be_silent(place):
            with hall.service.connect() as link:
                link.settimeout((count // WORKERS + 2) * LONGEST_WAIT)
                must("the end of a silent link", link.recv(1) == b"")
                took[place] = time.time() - begun

        def call():
            time.sleep(5)
            with hall.service.connect() as link:
                link.settimeout((count // WORKERS + 2) * LONGEST_WAIT)
                link.sendall(request("GET", "/drafts/T/owner", "BOB", b"", "Connection: close\r\n"))
                must("a caller", hear(link).endswith(b"owner ANNA revision 1\n"))
            return time.time() - begun

        *_, waited = at_once([*(lambda place=place: be_silent(place) for place in range(count)), call])
        ends = sorted(took.values())
        held = [end - before for before, end in zip([0] * WORKERS + ends, ends)]
        must("no worker is held longer than a read may wait", max(held) < LONGEST_WAIT + 3, held)
        must("they wait no longer than all silent ones together", waited < count // WORKERS * (LONGEST_WAIT + 2), waited)
        hall.still_serves()
        return f"{count} silent clients, each of whom held one of {WORKERS} workers for {max(held):.1f} s at most; who came behind them all was answered after {waited:.0f} s"

    return over(program, trial)


def try_long(program, given):
    def trial(hall):
        message = b"GET /orders/1 HTTP/1.1\r\nHost: h\r\nX-Caller: HALL9\r\nX-Long: " + b"a" * 400

        def send_slowly():
            begun = time.time()
            with hall.service.connect() as link:
                try:
                    for byte in message:
                        link.send(bytes([byte]))
                        time.sleep(1)
                except OSError:
                    pass
                return time.time() - begun

        took, told = hall.try_beside(send_slowly)
        must("a slow message is ended", took < LONGEST_MESSAGE + 15, took)
        hall.still_serves()
        return f"a byte a second was ended after {took:.0f} s: {told}"

    return over(program, trial)


def try_many(program, given):
    def trial(hall):
        count, waiting = 200, 100
        begun = time.time()

        def order(number):
            with hall.service.connect() as link:
                link.sendall(request("PUT", f"/orders/{number}", "HALL2", CODES, "Connection: close\r\n"))
                must("an order", hear(link).endswith(ACCEPTED.encode()))

        at_once([lambda number=number: order(number) for number in range(1, count + 1)])
        took = time.time() - begun
        links = [hall.service.connect() for _ in range(waiting)]
        begun = time.time()
        for number, link in enumerate(links, 1):
            link.sendall(request("GET", f"/orders/{number}", "HALL2", b"", "Connection: close\r\n"))
            must("an order", hear(link).endswith(ACCEPTED.encode()))
            link.close()
        took_then = time.time() - begun
        hall.still_serves()
        kept = kept_after(hall)
        must("each order is kept", {number for caller, number in kept if caller == "HALL2"} == set(range(1, count + 1)))
        return (
            f"{count} connections at once, each with an order: all answered in {took:.2f} s; {waiting} that were open at once, "
            f"each spoke when those before it had been answered, in {took_then:.2f} s"
        )

    return over(program, trial)


def try_large(program, given):
    def trial(hall):
        text = Drawn(1000, 16, 125).text().encode()
        took = {}

        def check():
            with hall.service.client() as client:
                must("a draft", client.ask("PUT", "/drafts/L", "BOB", text)[0] == 201)
                for what, body in (("check", None), ("release", b'{"revision":1}')):
                    sent = time.time()
                    status, said = client.ask("POST", f"/drafts/L/{what}", "BOB", body)
                    must("the report", status in (200, 201), status, said[-200:])
                    took[what] = time.time() - sent

        _, told = hall.try_beside(check)
        hall.still_serves()
        return f"a book of {len(text)} bytes, checked in {took['check']:.1f} s and released in {took['release']:.1f} s: {told}"

    return over(program, trial)


def counts(said):
    """The counts of the last line that a service wrote, by their words."""
    words = [line for line in said.splitlines() if line.startswith("links ")][-1].split()
    return dict(zip(words[::2], map(int, words[1::2])))


def try_counts(program, given):
    with tempfile.TemporaryDirectory(dir=work_place()) as folder:
        settings = {**os.environ, "PARTSBOOK_COUNTS": "1"}
        with Service(program, os.path.join(folder, "desk.db"), WORKERS, 2 * WORKERS, settings=settings) as service:
            with service.client() as client:
                client.release()
                answers = [client.place(number)[0] for number in (1, 2, 2)]
                must("an order that is sent again is known", answers == [201, 201, 200], answers)
                client.link.request("PUT", "/orders/2", CODES, {"X-Caller": "HALL1", "Expect": "100-continue"})
                must("the answer behind a 100 Continue", client.link.getresponse().read().decode() == ACCEPTED)
            # A port tells what is due once a second while it waits.
            time.sleep(3)
            status, out, said = service.use_up()
    must("it ends as behind its last link", (status, out) == (0, "drafts 1 books 1 orders 2\n"), status, out, said)
    told = counts(said)
    must("requests and orders", (told["requests"], told["orders"]) == (8, 2), said)
    must("steps that are left", told["steps"] == 1_000_000 - 2 * (8 + told["failed"] + told["open"]), said)
    return f"told of {told['requests']} requests and {told['orders']} orders"


def try_descriptors(program, given):
    with tempfile.TemporaryDirectory(dir=work_place()) as folder:
        store = os.path.join(folder, "desk.db")
        with Service(program, store, WORKERS, WORKERS) as service:
            service.wait()
            most = len(os.listdir(f"/proc/{service.process.pid}/fd")) + 2
        settings = {**os.environ, "PARTSBOOK_COUNTS": "1"}
        with Service(program, store, WORKERS, WORKERS, settings=settings, under=["prlimit", f"--nofile={most}"]) as service:
            silent = [service.connect() for _ in range(2)]
            time.sleep(2)
            with service.connect() as link:
                link.settimeout(3)
                link.sendall(request("GET", "/", "BOB", b"", "Connection: close\r\n"))
                try:
                    raise Gone("nobody can be taken", link.recv(1))
                except TimeoutError:
                    link.settimeout(PATIENCE)
                for other in silent:
                    other.close()
                must("who waited is answered", hear(link).endswith(b"no such path\n"))
            status, out, said = service.use_up()
    must("it ends as behind its last link", (status, out) == (0, "drafts 0 books 0 orders 0\n"), status, out, said)
    refused = counts(said)["refused"]
    must("it says that it couldn't take a link", refused > 0, said)
    return f"with {most} descriptors two silent clients kept a third waiting, who was taken when they had gone: {refused} tries in vain"


def try_deep(program, given):
    def trial(hall):
        deep = b'{"book":1,"day":1,"codes":["M1"],"more":%s%s}'
        with hall.service.client() as client:
            answer = client.place(1, deep % (b"[" * 126, b"]" * 126))
            must("an order with lists 126 deep in it", answer == (201, ACCEPTED), answer)
            for page in ("free", "why"):
                status, said = client.ask("POST", f"/books/1/{page}", "HALL1", deep % (b"[" * 126, b"]" * 126))
                must(f"{page} with lists 126 deep in it", status == 200, status, said)
            for depth in (127, 500_000):
                answer = client.place(2, deep % (b"[" * depth, b"]" * depth))
                must("lists that stand deeper", answer == (400, "bad body\n"), answer)
                for page in ("free", "why"):
                    answer = client.ask("POST", f"/books/1/{page}", "HALL1", deep % (b"[" * depth, b"]" * depth))
                    must(f"{page} with lists that stand deeper", answer == (400, "bad body\n"), answer)
        hall.still_serves()
        return "lists 126 deep in an order, and in what is asked of one, are read, and deeper ones refused"

    return over(program, trial)


def main():
    subjects = {
        "slow": try_slow, "unread": try_unread, "silent": try_silent, "gone": try_gone, "closing": try_closing, "all": try_all, "long": try_long,
        "many": try_many, "large": try_large, "counts": try_counts,
        "descriptors": try_descriptors, "deep": try_deep,
    }
    reader = argparse.ArgumentParser(usage="tests/hostile-serve.py [PROGRAM [SUBJECT..]]")
    reader.add_argument("program", nargs="?", default=PROGRAM, type=built)
    reader.add_argument("subject", nargs="*")
    return try_subjects(subjects, reader.parse_args())


if __name__ == "__main__":
    sys.exit(main())
