#!/usr/bin/env python3
"""Tries a desk over a journal on a machine that lets it down: each call that it asks of its file fails once, and the desk is
killed before each of them; a second desk and `rejudge` at a journal that is held; a journal that is moved, removed or put in
place of under a running desk; a full disk, and one that is read only.

    tests/journal-faults.py [PROGRAM [SUBJECT..]]

PROGRAM is crates/partsbook/out/partsbook without the word, SUBJECT one of fail, kill, locked, moved, full and readonly. What must
hold each time: every draft that was answered 201 is in the journal, and at most one more, which was sent and not answered 201;
and when the cause is away a desk starts over the journal and has these drafts. It isn't part of the gate. It needs the built
program, python3 and cc; `full` and `readonly` mount a small disk in memory, so they are for root. The status is 1 where something
doesn't hold."""

import importlib.util
import os
import shutil
import subprocess
import sys
import tempfile
import time

from trial import built
from desk_stream import PROGRAM, request, split_messages

HERE = os.path.dirname(os.path.abspath(__file__))
DRAFTS = [f"D{number}" for number in range(1, 6)]

spec = importlib.util.spec_from_file_location("journal_rows", os.path.join(HERE, "journal-rows.py"))
journal_rows = importlib.util.module_from_spec(spec)
spec.loader.exec_module(journal_rows)


class Broken(Exception):
    """Something that must hold doesn't."""


def must(what, holds, *seen):
    if not holds:
        raise Broken(what, *seen)


def put(name, size=40):
    return request("PUT", f"/drafts/{name}", "ANNA", b"x" * size)


def kept(store):
    """The names of the drafts in a journal, and None where the file is no journal."""
    if not os.path.exists(store):
        return []
    with open(store, "rb") as file:
        form, tables = journal_rows.rows(file.read())
    return None if form == 3 else [key[0].decode() for key in sorted(tables["draft"])]


def run(program, store, requests, **calls):
    """A desk over these requests: its status, what each was answered, and standard output."""
    env = {**os.environ, **{name: str(value) for name, value in calls.items()}}
    if calls:
        env["LD_PRELOAD"] = preload()
    done = subprocess.run([program, "desk", store], input=b"".join(requests), stdout=subprocess.PIPE, env=env, check=False)
    return done.returncode, done.stdout


def preload(built=[]):
    if not built:
        folder = tempfile.mkdtemp()
        built.append(os.path.join(folder, "file_calls.so"))
        source = os.path.join(HERE, "file_calls.c")
        subprocess.run(["cc", "-O2", "-Wall", "-shared", "-fPIC", "-o", built[0], source], check=True)
    return built[0]


def answered(output):
    return output.count(b"HTTP/1.1 201 ")


def stands(what, program, store, sure, may_be):
    """The drafts that were answered are there, and at most one more; a desk starts over them and has them."""
    there = kept(store)
    must(f"{what}: the file is a journal", there is not None)
    must(f"{what}: what was answered is kept", set(sure) <= set(there), sure, there)
    must(f"{what}: at most one more", set(there) <= set(sure) | set(may_be) and len(there) <= len(sure) + 1, sure, there)
    status, output = run(program, store, [request("GET", f"/drafts/{name}", "ANNA") for name in there])
    must(f"{what}: the next desk ends with 0", status == 0, status, output)
    must(f"{what}: and has the drafts", output.count(b"HTTP/1.1 200 ") == len(there), output)


def calls_of(program, folder):
    """The calls of a start at a new journal and of the puts, as they are made."""
    listed = os.path.join(folder, "list")
    status, output = run(program, os.path.join(folder, "all.journal"), [put(name) for name in DRAFTS], CALLS_LIST=listed)
    must("all calls go", status == 0 and answered(output) == len(DRAFTS), status, output)
    with open(listed, encoding="ascii") as file:
        return file.read().split()


def try_fail(program):
    with tempfile.TemporaryDirectory() as folder:
        names = calls_of(program, folder)
        start = ["flock", "fdatasync", "posix_fadvise", "fsync"]
        must("it is locked, synced, its pages are dropped, its folder is synced", names[:4] == start, names)
        must("and only then it is read or written", not {"pread", "pwrite", "ftruncate"} & set(names[:4]), names)
        refused = faults = 0
        for number, name in enumerate(names, 1):
            what, store = f"call {number}, {name}", os.path.join(folder, f"{number}.journal")
            status, output = run(program, store, [put(name) for name in DRAFTS], CALLS_FAIL=number)
            if status == 6:
                must(f"{what}: no start", output == b"store fault\n", output)
                refused += 1
                sure = may_be = []
            else:
                answers = [int(message.split()[1]) for message in split_messages(output)]
                must(f"{what}: one answer is a fault", status == 0 and sorted(answers) == [201] * 4 + [503], status, answers)
                faults += 1
                sure = [name for name, answer in zip(DRAFTS, answers) if answer == 201]
                may_be = [name for name, answer in zip(DRAFTS, answers) if answer == 503]
            stands(what, program, store, sure, may_be)
        return f"{len(names)} calls failed, one a run: {refused} desks were not started, {faults} answered one change with 503"


def try_kill(program):
    with tempfile.TemporaryDirectory() as folder:
        names, more = calls_of(program, folder), 0
        for number, name in enumerate(names, 1):
            what, store = f"killed before call {number}, {name}", os.path.join(folder, f"{number}.journal")
            status, output = run(program, store, [put(name) for name in DRAFTS], CALLS_KILL=number)
            must(f"{what}: killed", status == -9, status)
            count = answered(output)
            more += len(kept(store)) > count
            stands(what, program, store, DRAFTS[:count], DRAFTS[count : count + 1])
        return f"{len(names)} kills, one before each call, {more} of them with one more kept"


class Desk:
    """A desk that goes on."""

    def __init__(self, program, store):
        self.process = subprocess.Popen([program, "desk", store], stdin=subprocess.PIPE, stdout=subprocess.PIPE, bufsize=0)

    def ask(self, message):
        self.process.stdin.write(message)
        got = b""
        while True:
            got += self.process.stdout.read(4096)
            if split_whole(got):
                return int(got.split()[1])

    def end(self):
        self.process.stdin.close()
        self.process.stdout.close()
        return self.process.wait()


def split_whole(stream):
    head, mark, body = stream.partition(b"\r\n\r\n")
    return mark and len(body) >= int(head.lower().split(b"content-length:")[1].split(b"\r\n")[0])


def try_locked(program):
    with tempfile.TemporaryDirectory() as folder:
        store, rounds = os.path.join(folder, "s.journal"), 20
        desk = Desk(program, store)
        must("the first is answered", desk.ask(put("D1")) == 201)
        for number in range(rounds):
            with open(store, "rb") as file:
                before = file.read()
            status, output = run(program, store, [put("E")])
            must("a second desk is refused", (status, output) == (6, b"store fault\n"), status, output)
            done = subprocess.run([program, "rejudge", store, "1", "1"], stdout=subprocess.PIPE, check=False)
            must("and rejudge", (done.returncode, done.stdout) == (6, b"store fault\n"), done)
            with open(store, "rb") as file:
                must("nothing is touched", file.read() == before)
            must("the first goes on", desk.ask(put(f"F{number}")) == 201)
        must("it ends with 0", desk.end() == 0)
        stands("after both", program, store, ["D1"] + [f"F{number}" for number in range(rounds)], [])
        return f"{rounds} second desks and {rounds} runs of rejudge, all refused; {rounds + 1} changes of the first were kept"


def try_moved(program):
    said = []
    with tempfile.TemporaryDirectory() as folder:
        for how in ("moved", "removed", "replaced"):
            store, old = os.path.join(folder, f"{how}.journal"), os.path.join(folder, f"{how}-old.journal")
            desk = Desk(program, store)
            must("the first is answered", desk.ask(put("D1")) == 201)
            if how == "removed":
                os.remove(store)
            else:
                os.rename(store, old)
            if how == "replaced":
                with open(store, "wb") as file:
                    file.write(b"")
            for name in ("D2", "D3"):
                must(f"{how}: a change is refused", desk.ask(put(name)) == 503)
            must(f"{how}: no journal was made", how == "replaced" or not os.path.exists(store))
            if how == "replaced":
                must("the other file is as it was", os.path.getsize(store) == 0)
            if how == "moved":
                os.rename(old, store)
                must("moved back: a change is kept", desk.ask(put("D4")) == 201)
            must(f"{how}: it ends with 0", desk.end() == 0)
            if how == "moved":
                stands(how, program, store, ["D1", "D4"], [])
            if how == "replaced":
                stands(how, program, old, ["D1"], ["D2", "D3"])
            said.append(how)
        link, real = os.path.join(folder, "link.journal"), os.path.join(folder, "far", "s.journal")
        os.mkdir(os.path.dirname(real))
        os.symlink(real, link)
        status, output = run(program, link, [put("D1")])
        must("a link to a file that isn't there yet", status == 0 and answered(output) == 1, status, output)
        stands("through a link", program, real, ["D1"], [])
    return f"{', '.join(said)}: each later change was answered 503, and none was lost that was answered 201"


def on_small_disk(size, work):
    with tempfile.TemporaryDirectory() as folder:
        subprocess.run(["mount", "-t", "tmpfs", "-o", f"size={size}k", "tmpfs", folder], check=True)
        try:
            return work(folder)
        finally:
            subprocess.run(["umount", folder], check=True)


def try_full(program):
    sizes = [8, 12, 20, 36, 68, 132, 260]
    refused = 0

    def fill(folder):
        store = os.path.join(folder, "s.journal")
        names = [f"D{number}" for number in range(100, 140)]
        status, output = run(program, store, [put(name, 7000) for name in names])
        must("a desk ends with 0", status == 0, status, output)
        answers = [int(message.split()[1]) for message in split_messages(output)]
        sure = [name for name, answer in zip(names, answers) if answer == 201]
        must("it is full in the end", answers[-1] == 503 or len(sure) == len(names), answers)
        subprocess.run(["mount", "-o", "remount,size=64m", folder], check=True)
        stands("after a full disk", program, store, sure, set(names) - set(sure))
        return answers.count(503)

    for size in sizes:
        refused += on_small_disk(size, fill)
    return f"disks of {', '.join(map(str, sizes))} kB: {refused} changes were answered 503"


def try_readonly(program):
    def work(folder):
        store = os.path.join(folder, "s.journal")
        desk = Desk(program, store)
        must("the first is answered", desk.ask(put("D1")) == 201)
        must("it ends with 0", desk.end() == 0)
        subprocess.run(["mount", "-o", "remount,ro", folder], check=True)
        status, output = run(program, store, [put("D2")])
        must("no desk starts", (status, output) == (6, b"store fault\n"), status, output)
        subprocess.run(["mount", "-o", "remount,rw", folder], check=True)
        stands("after that", program, store, ["D1"], [])

    on_small_disk(512, work)
    return "a desk over a journal on a disk that is read only was not started"


SUBJECTS = {"fail": try_fail, "kill": try_kill, "locked": try_locked, "moved": try_moved, "full": try_full, "readonly": try_readonly}


def main():
    words = sys.argv[1:]
    program = built(words[0] if words else PROGRAM)
    failed = 0
    for subject in words[1:] or SUBJECTS:
        begun = time.time()
        try:
            print(f"{subject}: {SUBJECTS[subject](program)}, {time.time() - begun:.0f} s", flush=True)
        except Broken as broken:
            failed = 1
            print(f"{subject}: BROKEN", *broken.args, flush=True)
    if os.path.exists(preload()):
        shutil.rmtree(os.path.dirname(preload()))
    return failed


if __name__ == "__main__":
    sys.exit(main())
