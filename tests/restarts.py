#!/usr/bin/env python3
"""Tries the shipped unit and proxy (examples/service): a service that ends again and again, and is started anew each time, while
callers go on through the proxy.

    tests/restarts.py [--restarts N] [--seed N] [--place FOLDER] [PROGRAM [KIND..]]

PROGRAM is crates/partsbook/out/partsbook without the word, and KIND one of `db` and `journal`, both without a word.

This does what the unit has systemd do: the words of its ExecStart, with a port of its own. The service ends in turn by its last
link, by a kill and by its stop file, and is started again at once. Six dealers place orders meanwhile, two read books and kept orders, two engineers
check a draft, and one asks /up. Counted is what they get: each order has to be accepted and to be in the store once, each read to
be whole, and nobody may get a 5xx but an engineer whose check was on its way, and who asks /up.

It isn't part of the gate. It needs the built program, python3 and haproxy. The status is 1 where something doesn't hold."""

import argparse
import base64
import collections
import http.client
import os
import pathlib
import random
import statistics
import sys
import tempfile
import threading
import time

from trial import built
from desk_stream import PROGRAM, example
from proxy import UNLIMITED, Proxy, unit_words
from service import ACCEPTED, PATIENCE, Service, free_port, kept_orders, must, try_subjects

SECRETS = {"KIEL1": "another-secret", "ANNA": "a-secret"}
DEALERS, READERS, ENGINEERS = 6, 2, 2
WAYS = "last link", "kill", "stop file"
# The links of a run that is to end by its last one.
FEW_LINKS = 150


class Unit:
    """The service as the unit starts it, again and again."""

    def __init__(self, program, folder, kind, draw):
        self.program, self.folder, self.draw = program, folder, draw
        _, _, store, _, self.workers, self.links = unit_words()
        self.store = f"{os.path.splitext(store)[0]}.{kind}"
        self.port = free_port()
        self.ends, self.gaps, self.ended_at = collections.Counter(), [], None

    def stop_file(self):
        return pathlib.Path(self.folder, self.store + ".stop")

    def start(self, links):
        self.stop_file().unlink(missing_ok=True)
        service = Service(self.program, os.path.join(self.folder, self.store), self.workers, links, self.port)
        service.wait()
        if self.ended_at:
            self.gaps.append(time.time() - self.ended_at)
        return service

    def live(self, restarts, done, callers, raised):
        """So many runs, each of which ends in another way, and one more, which goes on until the callers have gone."""
        for place in range(restarts):
            way = WAYS[place % len(WAYS)]
            with self.start(FEW_LINKS if way == "last link" else self.links) as service:
                until = time.time() + (PATIENCE if way == "last link" else self.draw.random())
                while service.process.poll() is None and time.time() < until and not raised:
                    time.sleep(0.001)
                if raised:
                    raise raised[0]
                if way == "kill":
                    service.kill()
                if way == "stop file":
                    self.stop_file().touch()
                end = None if way == "kill" else service.ended()
                self.ended_at = time.time()
                self.ends[way] += 1
                must("it ends with 0 and its counts", way == "kill" or end[0] == 0 and end[1].startswith("drafts 1 books 1 "), way, end)
                must("a store that was closed has no log", way == "kill" or not os.path.exists(service.words[2] + "-wal"), way)
        done.set()
        with self.start(self.links):
            for caller in callers:
                caller.join(PATIENCE)
        if raised:
            raise raised[0]


class Caller:
    """One who asks through the proxy, over a connection that is kept."""

    def __init__(self, proxy, name):
        self.proxy, self.link, self.longest = proxy, None, 0
        word = base64.b64encode(f"{name}:{SECRETS[name]}".encode()).decode()
        self.fields = {"Authorization": f"Basic {word}", "X-Caller": "OTHER"}

    def ask(self, method, path, body=None):
        begun = time.time()
        self.link = self.link or http.client.HTTPSConnection("localhost", self.proxy.port, timeout=PATIENCE, context=self.proxy.trust)
        self.link.request(method, path, body, self.fields)
        answer = self.link.getresponse()
        said = answer.status, answer.read().decode()
        self.longest = max(self.longest, time.time() - begun)
        return said

    def close(self):
        self.link.close()
        self.link = None


def deal(proxy, place, done):
    """Places orders, each once. How many were answered 201 and 200, and the longest wait."""
    caller, got = Caller(proxy, "KIEL1"), {}
    number = place
    while not done.is_set():
        number += DEALERS
        status, body = caller.ask("PUT", f"/orders/{number}", '{"book":1,"day":%d,"codes":["M1"]}' % (1 + number % 1000))
        must("an order is accepted", status in (200, 201) and body == ACCEPTED, number, status, body)
        got[number] = status
    return got, caller.longest


def read(proxy, done):
    """Reads the book, and orders that are kept."""
    caller, count, book = Caller(proxy, "KIEL1"), 0, example("engine.csv").decode()
    while not done.is_set():
        must("the book", caller.ask("GET", "/books/1") == (200, book))
        number = DEALERS + 1 + count % DEALERS
        status, body = caller.ask("GET", f"/orders/{number}")
        there = status, body == f"book 1 day {1 + number}\n{ACCEPTED}"
        must("a kept order", there == (200, True) or (count < 100 and body == "no such order\n"), number, status, body)
        count += 2
    return count, caller.longest


def check(proxy, done):
    """Checks the draft, which may be cut off by the end of the service, and asks for its owner."""
    caller, said = Caller(proxy, "ANNA"), collections.Counter()
    while not done.is_set():
        try:
            status, body = caller.ask("POST", "/drafts/T/check")
            must("a check", (status == 200 and body.startswith("book T")) or status == 502, status, body)
        except http.client.RemoteDisconnected:
            # Behind the first request of a connection the proxy closes it where it has no answer.
            caller.close()
            status = 502
        said[status] += 1
        status, body = caller.ask("GET", "/drafts/T/owner")
        must("the draft's owner", (status, body) == (200, "owner ANNA revision 1\n"), status, body)
        time.sleep(0.05)
    return said, caller.longest


def watch(proxy, done):
    """Asks whether the service is up."""
    caller, said = Caller(proxy, "ANNA"), collections.Counter()
    while not done.is_set():
        status, body = caller.ask("GET", "/up")
        must("/up", (status, body) in ((200, "up"), (503, "down")), status, body)
        said[body] += 1
        caller.close()
        time.sleep(0.2)
    return said


def call(works, place, said, raised, done):
    """What a caller does, and what he has to say then."""
    try:
        said[place] = works[place]()
    except Exception as error:
        raised.append(error)


def try_kind(program, given, kind):
    with tempfile.TemporaryDirectory(dir=given.place) as folder:
        unit, done = Unit(program, folder, kind, random.Random(given.seed)), threading.Event()
        with unit.start(1) as service, service.client() as client:
            client.release()
        with Proxy(folder, unit.port, **UNLIMITED) as proxy:
            begun = time.time()
            works = [lambda place=place: deal(proxy, place, done) for place in range(1, DEALERS + 1)]
            works += [*[lambda: read(proxy, done)] * READERS, *[lambda: check(proxy, done)] * ENGINEERS, lambda: watch(proxy, done)]
            said, raised = [None] * len(works), []
            callers = [threading.Thread(target=call, args=(works, place, said, raised, done)) for place in range(len(works))]
            for caller in callers:
                caller.start()
            try:
                unit.live(given.restarts, done, callers, raised)
            finally:
                done.set()
            took = time.time() - begun
        kept = kept_orders(os.path.join(folder, unit.store))
    dealt, reads, checks, up = said[:DEALERS], said[DEALERS : DEALERS + READERS], said[DEALERS + READERS : -1], said[-1]
    got = {number: status for numbers, _ in dealt for number, status in numbers.items()}
    must("each order is kept once", kept == {("KIEL1", number): (1, 1 + number % 1000, "M1") for number in got}, len(kept), len(got))
    again = sum(status == 200 for status in got.values())
    must("only behind a kill an order was sent again that was kept", again <= unit.ends["kill"] * int(unit.workers), again)
    cut = sum(counted[502] for counted, _ in checks)
    longest = max(longest for _, longest in [*dealt, *reads, *checks])
    ways = ", ".join(f"{count} by {way}" for way, count in unit.ends.items())
    return (
        f"{sum(unit.ends.values())} ends ({ways}) in {took:.0f} s: {len(got)} orders, each kept once, {len(got) - again} answered 201 and "
        f"{again} 200; {sum(count for count, _ in reads)} reads; {sum(sum(counted.values()) for counted, _ in checks)} checks, {cut} of them 502; "
        f"/up {up['up']} up and {up['down']} down; the longest answer took {longest:.1f} s; nobody listened for {statistics.median(unit.gaps):.2f} s, "
        f"at most {max(unit.gaps):.2f}"
    )


def main():
    subjects = {kind: lambda program, given, kind=kind: try_kind(program, given, kind) for kind in ("db", "journal")}
    reader = argparse.ArgumentParser(usage="tests/restarts.py [--restarts N] [--seed N] [--place FOLDER] [PROGRAM [KIND..]]")
    reader.add_argument("--restarts", type=int, default=100)
    reader.add_argument("--seed", type=int, default=1)
    reader.add_argument("--place", help="a folder on a disk, where stores are made")
    reader.add_argument("program", nargs="?", default=PROGRAM, type=built)
    reader.add_argument("subject", nargs="*")
    return try_subjects(subjects, reader.parse_args())


if __name__ == "__main__":
    sys.exit(main())
