#!/usr/bin/env python3
"""Tries many services behind one proxy (docs/OPERATING.md, "Growing past one machine"): the configuration examples/service/desks.cfg,
with callers of its own, in front of four services on this machine.

    tests/desks.py [trial] [rates]

trial: a book is released at all four by tools/desks; 40 callers place 10,000 orders, each twice at once over two connections, while
the service of every fourth caller is killed and started again; each order has to be kept once, at its caller's desk and no other.
rates: how many orders in a second 1, 2 and 4 services keep, with stores on a disk and in memory.
Without a word, both. It needs crates/partsbook/out/partsbook, or the program that PARTSBOOK_PROGRAM names, and haproxy. The status is
1 where something is otherwise.
"""

import base64
import collections
import http.client
import json
import os
import pathlib
import socket
import subprocess
import sys
import tempfile
import threading
import time

sys.dont_write_bytecode = True
TOP = pathlib.Path(__file__).resolve().parent.parent
sys.path.insert(0, str(TOP / "tools"))
from trial import built
import stores

PROGRAM = os.environ.setdefault("PARTSBOOK_PROGRAM", built())
CALLERS = [f"HALL{n}" for n in range(40)]
BOOK = TOP / "examples" / "engine.csv"
failed = 0


def check(what, holds, more=""):
    global failed
    if not holds:
        failed += 1
        print(f"wrong: {what} {more}", flush=True)


def free_port():
    with socket.socket() as it:
        it.bind(("127.0.0.1", 0))
        return it.getsockname()[1]


def listens(port):
    with socket.socket() as it:
        return it.connect_ex(("127.0.0.1", port)) == 0


def wait_for(port):
    until = time.monotonic() + 60
    while not listens(port):
        if time.monotonic() > until:
            raise SystemExit(f"nobody listens at {port}")
        time.sleep(0.05)


class Desks:
    """Services with a store each, and the proxy in front of them."""

    def __init__(self, place, count, kind="journal"):
        self.place, self.count = pathlib.Path(place), count
        self.stores = [self.place / f"desk{n + 1}.{kind}" for n in range(count)]
        self.ports, self.proxy_port = [free_port() for _ in range(count)], free_port()
        self.running = [None] * count
        for at in range(count):
            self.start(at)
        self.proxy = subprocess.Popen(["haproxy", "-db", "-q", "-f", self.configured()])
        wait_for(self.proxy_port)

    def start(self, at):
        words = [PROGRAM, "serve", self.stores[at], str(self.ports[at]), "4", "400000"]
        self.running[at] = subprocess.Popen(words, stdin=subprocess.DEVNULL, stdout=subprocess.DEVNULL)
        wait_for(self.ports[at])

    def configured(self):
        """desks.cfg with these ports, and these callers, who are spread over the desks."""
        rows = self.place / "desks.map"
        rows.write_text("".join(f"{caller} desk{n % self.count + 1}\n" for n, caller in enumerate(CALLERS)) + "ANNA desk1\n")
        text = (TOP / "examples" / "service" / "desks.cfg").read_text()
        users = "".join(f"    user {caller} insecure-password p-{caller}\n" for caller in CALLERS)
        text = text.replace("userlist callers\n", "userlist callers\n" + users).replace("examples/service/desks.map", str(rows))
        text = text.replace("127.0.0.1:8080", f"127.0.0.1:{self.proxy_port}")
        for n in range(self.count):
            text = text.replace(f"127.0.0.1:{8081 + n}", f"127.0.0.1:{self.ports[n]}")
        (self.place / "desks.cfg").write_text(text)
        return self.place / "desks.cfg"

    def release(self, *ports):
        words = [TOP / "tools" / "desks", "release", "T", BOOK, "ANNA", *map(str, ports or self.ports)]
        return subprocess.run(words, capture_output=True, text=True, check=False)

    def desk_of(self, caller):
        return CALLERS.index(caller) % self.count

    def stop(self):
        self.proxy.terminate()
        self.proxy.wait()
        for it in self.running:
            it.kill()
            it.wait()


class Caller:
    """A connection to the proxy."""

    def __init__(self, port, name):
        self.port, self.link = port, None
        word = base64.b64encode(f"{name}:p-{name}".encode()).decode()
        # The name of the host is that of the configuration, whatever the port is here.
        self.fields = {"Authorization": f"Basic {word}", "Host": "localhost:8080", "X-Caller": "ANNA"}

    def put(self, number):
        return self.ask("PUT", f"/orders/{number}", json.dumps({"book": 1, "day": 1 + number % 1000, "codes": ["M1"]}))

    def ask(self, method, path, body=None):
        if self.link is None:
            self.link = http.client.HTTPConnection("127.0.0.1", self.port, timeout=120)
        try:
            self.link.request(method, path, body, self.fields)
            answer = self.link.getresponse()
            return answer.status, answer.read()
        except (OSError, http.client.HTTPException):
            self.link = None
            return 0, b""


def place_all(desks, each, twice):
    """Each caller places `each` orders, from one or two connections at once. The answers by caller, number and connection."""
    got, lock = collections.defaultdict(list), threading.Lock()

    def one(name):
        caller = Caller(desks.proxy_port, name)
        for number in range(1, each + 1):
            answer = caller.put(number)
            with lock:
                got[name, number].append(answer)

    threads = [threading.Thread(target=one, args=(name,)) for name in CALLERS for _ in range(2 if twice else 1)]
    begun = time.monotonic()
    for it in threads:
        it.start()
    return got, threads, begun


def trial(place):
    desks = Desks(place, 4)
    try:
        done = desks.release()
        check("the book is released at all", done.returncode == 0 and "4 ports, the same books, 4 certificates verified" in done.stdout, done.stdout + done.stderr)
        got, threads, begun = place_all(desks, 250, twice=True)
        kills = 0
        while any(it.is_alive() for it in threads):
            time.sleep(1)
            if kills < 3 and sum(map(len, list(got.values()))) > (kills + 1) * 4000:
                desks.running[2].kill()
                desks.running[2].wait()
                time.sleep(0.5)
                desks.start(2)
                kills += 1
        for it in threads:
            it.join()
        took = time.monotonic() - begun
        statuses = collections.Counter(status for answers in got.values() for status, _ in answers)
        check("each is answered", set(statuses) <= {200, 201}, statuses)
        check("each body is the order's", {body for answers in got.values() for _, body in answers} == {b"accepted\ncodes M1 G5\nMOT,P1,A100,1\n"})
        check("each is answered twice", len(got) == 10_000 and all(len(answers) == 2 for answers in got.values()))
        # A kill between the write and the answer makes 200 of the 201 that nobody got.
        made = sum(any(status == 201 for status, _ in answers) for answers in got.values())
        check("no order is made twice", all(sum(status == 201 for status, _ in answers) <= 1 for answers in got.values()))
    finally:
        desks.stop()
    kept = collections.Counter()
    for at, store in enumerate(desks.stores):
        rows = stores.read_store(store)["orders"]
        check(f"desk {at + 1} has its own callers' orders alone", all(desks.desk_of(row[0]) == at for row in rows))
        kept.update((row[0], row[1]) for row in rows)
        check(f"a desk starts over store {at + 1}", subprocess.run([PROGRAM, "desk", store], stdin=subprocess.DEVNULL, check=False).returncode == 0)
    check("each order is kept once, and none is lost", len(kept) == 10_000 and set(kept.values()) == {1}, len(kept))
    return (f"10,000 orders of 40 callers, each sent twice at once: {statuses[201]} times 201, {statuses[200]} times 200, {made} of them seen as made; "
            f"one service of four killed and started {kills} times; each kept once, at its caller's desk; {took:.0f} s")


def refusals(place):
    """What the release refuses, and how it goes on behind a failure."""
    desks = Desks(place, 2)
    try:
        check("released at the first alone", desks.release(desks.ports[0]).returncode == 0)
        done = subprocess.run([TOP / "tools" / "desks", "compare", *map(str, desks.ports)], capture_output=True, text=True, check=False)
        check("compare tells what is missing", done.returncode == 1 and f"book 1 isn't at port {desks.ports[1]}" in done.stdout, done.stdout)
        desks.running[1].kill()
        desks.running[1].wait()
        done = desks.release()
        check("a service that is down is told", done.returncode == 1 and "doesn't answer" in done.stderr, done.stderr)
        desks.start(1)
        done = desks.release()
        check("the same words go on", done.returncode == 0 and done.stdout.count(": book 1\n") == 2, done.stdout + done.stderr)
        other = pathlib.Path(place) / "other.csv"
        other.write_bytes(BOOK.read_bytes().replace(b"A100", b"A150"))
        subprocess.run([TOP / "tools" / "desks", "release", "U", other, "ANNA", str(desks.ports[1])], capture_output=True, check=True)
        done = desks.release()
        check("other books are refused", done.returncode == 1 and "has other books" in done.stderr, done.stdout + done.stderr)
        engineer, dealer = Caller(desks.proxy_port, "ANNA"), Caller(desks.proxy_port, "HALL0")
        engineer.fields["Authorization"] = "Basic " + base64.b64encode(b"ANNA:a-secret").decode()
        for method, path in (("GET", "/drafts/T"), ("PUT", "/drafts/X"), ("POST", "/drafts/T/release"), ("POST", "/books/1/withdraw"), ("GET", "/drafts/T?/orders")):
            check(f"a dealer is kept from {path}", dealer.ask(method, path)[0] == 403)
        check("an engineer reads a draft", engineer.ask("GET", "/drafts/T")[0] == 200)
        check("a dealer reads a book", dealer.ask("GET", "/books/1")[0] == 200)
        stranger = Caller(desks.proxy_port, "HALL0")
        stranger.fields["Authorization"] = "Basic " + base64.b64encode(b"KIEL1:another-secret").decode()
        check("a caller without a row is sent to no desk", stranger.put(1)[0] == 403)
        done = subprocess.run([TOP / "tools" / "desks", "withdraw", "1", "ANNA", *map(str, desks.ports)], capture_output=True, text=True, check=False)
        check("withdrawn at both", done.stdout.count("withdrawn 1") == 2, done.stdout + done.stderr)
    finally:
        desks.stop()
    return "a release goes on behind a service that was down; other books, callers without a row, and dealers who ask for drafts, are refused"


def rates(place, kind):
    told = []
    for count in (1, 2, 4):
        folder = pathlib.Path(place) / str(count)
        folder.mkdir()
        desks = Desks(folder, count)
        try:
            desks.release()
            got, threads, begun = place_all(desks, 50, twice=False)
            for it in threads:
                it.join()
            took = time.monotonic() - begun
            check("each is answered 201", all(answer[0][0] == 201 for answer in got.values()))
            told.append(f"{count}: {len(got) / took:.0f}")
        finally:
            desks.stop()
    return f"orders in a second of 40 callers by the number of services, {kind}: " + ", ".join(told)


def main(words):
    memory = "/dev/shm" if os.path.isdir("/dev/shm") else None
    if "trial" in (words or ["trial"]):
        for part in (trial, refusals):
            with tempfile.TemporaryDirectory(dir=memory) as place:
                print(part(place), flush=True)
    if "rates" in (words or ["rates"]):
        for folder, kind in ((None, "stores on a disk"), (memory, "stores in memory")):
            with tempfile.TemporaryDirectory(dir=folder) as place:
                print(rates(place, kind), flush=True)
    return 1 if failed else 0


if __name__ == "__main__":
    sys.exit(main(sys.argv[1:]))
