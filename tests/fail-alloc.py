#!/usr/bin/env python3
"""Refuses each growth in turn: runs the built program over and over, each time with one call of malloc and its kin answered by
NULL, from the first call to the last, and then again with each later call refused too.

    tests/fail-alloc.py [--jobs N] [PROGRAM [SUBJECT..]]

PROGRAM is crates/partsbook/out/partsbook without the word. SUBJECT is one of those that it names as it goes. A run may give what
it gives with ample memory, or say that memory was wanting, and nothing else: no signal, no other status, no other byte. Of a
desk more is asked: each request has its own answer or that of want of memory; the rows that are left are those that the
requests make of which none that was answered otherwise is left out, and of those that were answered by want of memory at most
one is in them; and a desk starts over them. Which answers and rows these are is told by the program itself, run with ample
memory over just those requests. A service has two workers and two links, and the requests come over both. Where the orders of
a store are judged again, its rows are as before.

It isn't part of the gate. It needs the built program, cc and python3. The status is 1 where a run gives something else."""

import argparse
import collections
import concurrent.futures
import os
import shutil
import socket
import subprocess
import sys
import tempfile
import threading
import time

from trial import built
from desk_stream import PROGRAM, TOP, NotWhole, example, request, rows_left, rows_of, split_messages, work_place
from service import Broken, Gone, Service

WANT = b"want of memory\n"
WANT_STATUS = 9
# How a run is refused growths: at one call alone, or at each from there on.
WAYS = ("one", "rest")
Run = collections.namedtuple("Run", "status out said")


def without(text, start):
    return b"".join(line for line in text.splitlines(True) if not line.startswith(start))


def refusal_of(number, way):
    return {"REFUSE_AT": str(number), **({"REFUSE_REST": "1"} if way == "rest" else {})}


class Machine:
    """Runs the program with growths refused."""

    def __init__(self, program, work):
        self.program, self.work = program, work
        self.library, self.counter = os.path.join(work, "fail_alloc.so"), os.path.join(work, "count")
        source = os.path.join(TOP, "tests", "fail_alloc.c")
        subprocess.run(["cc", "-O2", "-Wall", "-shared", "-fPIC", "-o", self.library, source], check=True)

    def run(self, words, given, **refusal):
        settings = dict(os.environ, LD_PRELOAD=self.library, **refusal) if refusal else None
        done = subprocess.run([self.program, *words], input=given, capture_output=True, env=settings)
        return Run(done.returncode, done.stdout, done.stderr)

    def refused(self, words, given, number, way):
        return self.run(words, given, **refusal_of(number, way))

    def count(self, words, given):
        """How many growths a run with ample memory asks for, and that run."""
        run = self.run(words, given, REFUSE_COUNT=self.counter)
        return self.counted(), run

    def counted(self):
        with open(self.counter, "rb") as file:
            return int.from_bytes(file.read(), sys.byteorder)


class Command:
    """A command without a store."""

    def __init__(self, machine, words, given, status):
        self.machine, self.words, self.given, self.status = machine, words, given, status

    def begin(self):
        self.calls, self.whole = self.machine.count(self.words, self.given)
        if self.whole.status != self.status:
            raise SystemExit(f"fail-alloc: {self.words} ends with {self.whole.status} when memory is ample")

    def try_one(self, number, way):
        run = self.machine.refused(self.words, self.given, number, way)
        if run == self.whole:
            return "as with ample memory"
        if run == Run(WANT_STATUS, WANT, b""):
            return "want of memory"
        raise Wrong(run)


class Rejudge(Command):
    """A command over a store, which it leaves as it is."""

    def __init__(self, machine, kept, words, status):
        super().__init__(machine, words, b"", status)
        self.kept, self.rows = kept, rows_of(kept)

    def over_copy(self, run):
        """What a run over a copy of the store gives, and then the rows of the copy."""
        with tempfile.TemporaryDirectory(dir=self.machine.work) as folder:
            store = os.path.join(folder, "desk.db")
            shutil.copyfile(self.kept, store)
            return run([self.words[0], store, *self.words[1:]]), rows_left(store)

    def begin(self):
        (self.calls, self.whole), rows = self.over_copy(lambda words: self.machine.count(words, b""))
        if self.whole.status != self.status or rows != self.rows:
            raise SystemExit(f"fail-alloc: {self.words} ends with {self.whole.status} when memory is ample")

    def try_one(self, number, way):
        run, rows = self.over_copy(lambda words: self.machine.refused(words, b"", number, way))
        if rows != self.rows:
            raise Wrong(run, "rows", rows)
        if run == self.whole:
            return "as with ample memory"
        if run == Run(WANT_STATUS, WANT, b""):
            return "want of memory"
        raise Wrong(run)


class Wrong(Exception):
    """A run that gave something that it may not."""


class Desk:
    """A desk over the messages of a stream, behind which one comes that is no HTTP. Its store is a new one, or `kept`."""

    LAST = b"no message\r\n\r\n"
    CLOSED = b"Connection: close\r\n"

    def __init__(self, machine, messages, kept=None):
        self.machine, self.messages, self.kept = machine, messages, kept
        self.references, self.lock = {}, threading.Lock()
        self.stream = b"".join(messages) + self.LAST

    def folder(self):
        folder = tempfile.mkdtemp(dir=self.machine.work)
        store = os.path.join(folder, "desk.db")
        if self.kept is not None:
            shutil.copyfile(self.kept, store)
        return folder, store

    def begin(self):
        folder, store = self.folder()
        self.calls, whole = self.machine.count(["desk", store], self.stream)
        shutil.rmtree(folder)
        if whole.status != 3 or len(split_messages(whole.out)) != len(self.messages) + 1:
            raise SystemExit(f"fail-alloc: the desk ends with {whole.status} when memory is ample")

    def reference(self, done):
        """The answers and rows of a run with ample memory over these messages, and the last one."""
        with self.lock:
            if done not in self.references:
                folder, store = self.folder()
                run = self.machine.run(["desk", store], b"".join(self.messages[i] for i in done) + self.LAST)
                answers = split_messages(run.out)
                self.references[done] = (dict(zip((*done, len(self.messages)), answers)), rows_of(store))
                shutil.rmtree(folder)
            return self.references[done]

    def run_refused(self, store, refusal):
        return self.machine.run(["desk", store], self.stream, **refusal)

    def try_one(self, number, way):
        folder, store = self.folder()
        try:
            run = self.run_refused(store, refusal_of(number, way))
            left = rows_left(store)
            again = self.machine.run(["desk", store], b"")
            if again != Run(0, b"", b""):
                raise Wrong(run, "the next start", again)
            if os.listdir(folder) != ["desk.db"]:
                raise Wrong(run, "files are left", os.listdir(folder))
            return self.judge(run, left, rows_of(store))
        finally:
            shutil.rmtree(folder)

    def judge(self, run, left, rows):
        """What the run gave; `left` are the rows behind it, and `rows` those behind the next start."""
        if run.said or run.status not in (3, WANT_STATUS):
            raise Wrong(run)
        started = run != Run(WANT_STATUS, WANT, b"")
        try:
            answers = split_messages(run.out) if started else []
        except NotWhole:
            raise Wrong(run, "no responses")
        wanting = [i for i, answer in enumerate(answers) if is_wanting(answer)]
        # A desk that can't read on says so, closes, and ends with the status of want of memory.
        if started and (run.status == 3) != (len(answers) == len(self.messages) + 1):
            raise Wrong(run, "status")
        if run.status == WANT_STATUS and started and (wanting[-1:] != [len(answers) - 1] or self.CLOSED not in answers[-1]):
            raise Wrong(run, "an end without a word")
        kept = tuple(i for i in range(min(len(answers), len(self.messages))) if i not in wanting)
        for done in (kept, *(tuple(sorted((*kept, i))) for i in wanting if i < len(self.messages))):
            wanted, wanted_rows = self.reference(done)
            if rows != wanted_rows or left not in (rows, {}, self.kept and rows_of(self.kept)):
                continue
            if all(i in wanting or answer == wanted[i] for i, answer in enumerate(answers)):
                if not started:
                    return "want of memory at the start, " + ("no rows" if not left else "rows as they were")
                if not wanting:
                    return "as with ample memory"
                return "want of memory as an answer" + (", then the end" if run.status == WANT_STATUS else "") + (
                    ", and it was done" if done != kept else "")
        raise Wrong(run, "rows or answers", left, rows)


class Serve(Desk):
    """A service with two workers and two links: some of the messages come over the first, the others then over the second."""

    def __init__(self, machine, messages, kept=None):
        super().__init__(machine, messages, kept)
        self.half = len(messages) // 2

    def serve(self, store, **refusal):
        """How the service ended, and the answers over each link."""
        settings = dict(os.environ, LD_PRELOAD=self.machine.library, **refusal)
        with Service(self.machine.program, store, 2, 2, settings=settings) as service:
            parts = self.messages[: self.half], self.messages[self.half :]
            heard = [split_messages(hear_over(service, b"".join(part))) for part in parts]
            status, out, said = service.ended()
        return Run(status, out.encode(), said.encode()), heard

    def begin(self):
        folder, store = self.folder()
        run, (first, second) = self.serve(store, REFUSE_COUNT=self.machine.counter)
        self.calls = self.machine.counted()
        shutil.rmtree(folder)
        if run.status != 0 or len(first) + len(second) != len(self.messages):
            raise SystemExit(f"fail-alloc: the service ends with {run.status} when memory is ample")

    def run_refused(self, store, refusal):
        return self.serve(store, **refusal)

    def judge(self, served, left, rows):
        run, heard = served
        counts = " ".join(f"{name} {len(rows.get(name, []))}" for name in ("drafts", "books", "orders"))
        if run not in (Run(0, f"{counts}\n".encode(), b""), Run(WANT_STATUS, WANT, b"")):
            raise Wrong(run, counts)
        answers = {}
        for first, last, part in ((0, self.half, heard[0]), (self.half, len(self.messages), heard[1])):
            answers.update(zip(range(first, last), part, strict=False))
            # Either all are answered; or the last answer says why not, and closes; or no worker had memory to take the link.
            closed = part and is_wanting(part[-1]) and self.CLOSED in part[-1]
            if len(part) != last - first and not closed and (part or run.status == 0):
                raise Wrong(run, "an end without a word", part)
        wanting = [i for i, answer in answers.items() if is_wanting(answer)]
        kept = tuple(i for i in answers if i not in wanting)
        for done in (kept, *(tuple(sorted((*kept, i))) for i in wanting)):
            wanted, wanted_rows = self.reference(done)
            # Before the tables of a new store are made it has no rows, and the next start makes them.
            if rows != wanted_rows or left not in (rows, {}, self.kept and rows_of(self.kept)):
                continue
            if all(i in wanting or answer == wanted[i] for i, answer in answers.items()):
                return self.kind(run, answers, wanting, done != kept)
        raise Wrong(run, "rows or answers", left, rows, heard)

    def kind(self, run, answers, wanting, done):
        if not answers:
            return "want of memory before a message was answered"
        told = "want of memory as an answer" if wanting else "all answers as with ample memory"
        if len(answers) < len(self.messages):
            told = "want of memory on a link, which was closed" if wanting else "want of memory for a worker's link"
        return told + (", and it was done" if done else "") + (", status 9" if run.status == WANT_STATUS else "")


def hear_over(service, stream):
    """What a service answers to a stream over a link of its own, as far as it comes."""
    heard = b""
    try:
        with service.connect() as link:
            link.sendall(stream)
            link.shutdown(socket.SHUT_WR)
            while piece := link.recv(65536):
                heard += piece
    except TimeoutError:
        raise Wrong("no answer", heard)
    except (Gone, OSError):
        pass
    return heard


def is_wanting(answer):
    """Whether it is the response of want of memory, with or without a 100 before it."""
    head, _, body = answer.rpartition(b"\r\n\r\n")
    lines = head.removeprefix(b"HTTP/1.1 100 Continue\r\n\r\n").split(b"\r\n")
    return body == WANT and lines in (WANTING, WANTING + [b"Connection: close"])


WANTING = [b"HTTP/1.1 500 Internal Server Error", b"Content-Type: text/plain", b"Content-Length: 15"]


def morning():
    """The morning of examples/desk.http, and behind it each request that it doesn't have."""
    text = example("engine.csv")
    return split_messages(example("desk.http")) + [
        request("GET", "/drafts/T", "BOB"),
        request("GET", "/drafts/T/owner", "BOB"),
        request("GET", "/books/1", "BOB"),
        request("GET", "/books/1/certificate", "BOB"),
        request("PUT", "/drafts/T", "ANNA", without(text, b"construct,C2")),
        request("POST", "/drafts/T/release", "ANNA", b'{"revision":1}'),
        request("POST", "/drafts/T/release", "ANNA", b'{"revision":2,"budget":50}'),
        request("PUT", "/drafts/T", "ANNA", b"code,A,a\n"),
        request("POST", "/drafts/T/check", "ANNA"),
        request("POST", "/drafts/T/owner", "ANNA", b'{"to":"BOB"}'),
        request("PUT", "/orders/7", "HALL1", b'{"book":1,"day":2,"codes":["M1"]}', "Expect: 100-continue\r\n"),
        request("PUT", "/orders/11", "hall", b'{"book":1,"day":2,"codes":["M1"]}'),
        request("PUT", "/orders/11", "HALL1", b'{"book":1,"day":2}'),
    ]


def make_kept(machine):
    """A store that the morning has left, with a second book in force."""
    store = os.path.join(machine.work, "kept.db")
    text = example("engine.csv").replace(b",T,", b",U,", 1)
    more = request("PUT", "/drafts/U", "ANNA", text) + request("POST", "/drafts/U/release", "ANNA", b'{"revision":1}')
    run = machine.run(["desk", store], example("desk.http") + more)
    if run.status != 0 or not run.out.endswith(b"book 2\n"):
        raise SystemExit("fail-alloc: the rows to start over were not made")
    return store


def write_file(machine, name, content):
    path = os.path.join(machine.work, name)
    with open(path, "wb") as file:
        file.write(content)
    return path


def subjects(machine):
    text = example("engine.csv")
    another_part = write_file(machine, "other.csv", text.replace(b"A100", b"A150"))
    broken = without(text, b"construct,C3") + b"construct,C5,G5,M2,,\n"
    certificate = os.path.join(TOP, "examples", "engine.cert")
    kept = make_kept(machine)
    return {
        "order": Command(machine, ["order", "1", "M1"], text, 0),
        "free": Command(machine, ["free", "1", "M1"], text, 0),
        "why": Command(machine, ["why", "1", "M1", "M2"], text, 1),
        "ask": Command(machine, ["ask", "1", "M1+M2"], text, 1),
        "days": Command(machine, ["days", "M1"], text, 0),
        "prove": Command(machine, ["prove"], text, 0),
        "check": Command(machine, ["check"], example("van.csv"), 1),
        "verify": Command(machine, ["verify", certificate], text, 0),
        "sample": Command(machine, ["sample", "1", "8", "3"], b"", 0),
        "fault": Command(machine, ["check"], text + b"group,G1,one,M1|M2,,\n", 3),
        "usage": Command(machine, ["order", "x"], b"", 2),
        "supplements": Command(machine, ["supplements"], broken, 1),
        "compare": Command(machine, ["compare", "1", another_part], text, 1),
        "rejudge": Rejudge(machine, kept, ["rejudge", "2", "2"], 0),
        "impact": Rejudge(machine, kept, ["impact", another_part, "2"], 0),
        "desk": Desk(machine, morning()),
        "again": Desk(machine, morning(), kept),
        "serve": Serve(machine, morning()),
        "serve-again": Serve(machine, morning(), kept),
    }


def try_all(name, subject, jobs):
    """Tries each growth of a subject in both ways, and says what came out. True where nothing was wrong."""
    begun = time.time()
    subject.begin()
    kinds, wrong = collections.Counter(), []

    def one(case):
        try:
            kinds[subject.try_one(*case)] += 1
        except (Wrong, NotWhole, Broken) as said:
            wrong.append((case, said))

    cases = [(number, way) for way in WAYS for number in range(1, subject.calls + 1)]
    with concurrent.futures.ThreadPoolExecutor(jobs) as pool:
        list(pool.map(one, cases))
    print(f"{name}: {subject.calls} growths, {len(cases)} runs, {len(wrong)} wrong, {time.time() - begun:.0f} s")
    for kind, count in sorted(kinds.items()):
        print(f"    {count} times {kind}")
    for (number, way), said in wrong[:20]:
        print(f"    wrong at {number}, {way}: {said}")
    sys.stdout.flush()
    return not wrong


def main():
    reader = argparse.ArgumentParser(usage="tests/fail-alloc.py [--jobs N] [PROGRAM [SUBJECT..]]")
    reader.add_argument("--jobs", type=int, default=1)
    reader.add_argument("program", nargs="?", default=PROGRAM, type=built)
    reader.add_argument("subject", nargs="*")
    given = reader.parse_args()
    with tempfile.TemporaryDirectory(dir=work_place()) as work:
        all_subjects = subjects(Machine(given.program, work))
        names = given.subject or list(all_subjects)
        return 0 if all([try_all(name, all_subjects[name], given.jobs) for name in names]) else 1


if __name__ == "__main__":
    sys.exit(main())
