#!/usr/bin/env python3
"""Tries the tools beside the program (docs/TOOLS.md) over the built program.

    tests/tools.py [PART..]

Parts: rows, torn, changed, trim, counts, copy, keep, next, sheet, report, lint, quotes, answers, pages, common. Without one, all of them. It needs crates/partsbook/out/partsbook, or the
program that PARTSBOOK_PROGRAM names, and for a part of `sheet` soffice, without which that part is left out. The status is 1 where
something is otherwise.
"""

import collections
import csv
import io
import json
import os
import pathlib
import pty
import random
import re
import shutil
import socket
import subprocess
import sys
import tempfile
import threading
import time
import urllib.error
import urllib.request

sys.dont_write_bytecode = True
TOP = pathlib.Path(__file__).resolve().parent.parent
sys.path.insert(0, str(TOP / "tools"))
from trial import built
import stores
from book_rows import read_records
from faults import faults_of
from stores import flat, journal_of, read_journal, tables_of

PROGRAM = os.environ.setdefault("PARTSBOOK_PROGRAM", built())
# The books among the examples; beside them are requirements.
BOOKS = sorted(path for path in (TOP / "examples").glob("*.csv") if path.read_bytes().startswith(b"book,"))
failed = 0


def check(what, holds, more=""):
    global failed
    if not holds:
        failed += 1
        print(f"wrong: {what} {more}", flush=True)


def tool(name, *words, text=b""):
    done = subprocess.run([TOP / "tools" / name, *words], input=text, capture_output=True, check=False)
    return done.returncode, done.stdout.decode(), done.stderr.decode()


def request(method, path, caller, body=b""):
    return f"{method} {path} HTTP/1.1\r\nHost: desk\r\nX-Caller: {caller}\r\nContent-Length: {len(body)}\r\n\r\n".encode() + body


def desk(store, requests):
    return subprocess.run([PROGRAM, "desk", store], input=requests, capture_output=True, check=False)


def example(name):
    return (TOP / "examples" / name).read_bytes()


def order(caller, number, code="M1"):
    return request("PUT", f"/orders/{number}", caller, b'{"book":1,"day":1,"codes":["%s"]}' % code.encode())


def filled(store, orders=20, drafts=5):
    """A store with a book in force and one that is withdrawn, drafts that were put over, and orders of two callers."""
    book = example("engine.csv")
    asked = request("PUT", "/drafts/T", "ANNA", book) + request("POST", "/drafts/T/release", "ANNA", b'{"revision":1}')
    asked += request("PUT", "/drafts/U", "BOB", book.replace(b"A100", b"A150")) + request("POST", "/drafts/U/release", "BOB", b'{"revision":1}')
    for at in range(drafts):
        asked += request("PUT", "/drafts/V", "BOB", b"text %d" % at)
    for number in range(1, orders + 1):
        asked += order(f"HALL{number % 2}", number)
    asked += request("POST", "/books/2/withdraw", "BOB")
    done = desk(store, asked)
    check("a store is filled", done.returncode == 0, done.stdout[-200:])


def rows(place):
    """From a journal to SQLite and back, compacted, and listed as another reader lists it."""
    filled(place / "a.journal")
    for words in (("compact", "a.journal", "b.journal"), ("to-sqlite", "a.journal", "c.db"), ("from-sqlite", "c.db", "d.journal")):
        status, _, said = tool("journal", words[0], place / words[1], place / words[2])
        check(f"journal {words}", status == 0, said)
    check("compacted and by way of SQLite it is the same", (place / "b.journal").read_bytes() == (place / "d.journal").read_bytes())
    check("it is shorter", (place / "b.journal").stat().st_size < (place / "a.journal").stat().st_size)
    lists = [tool("journal", "rows", place / f"{name}.journal")[1] for name in "abd"]
    reader = [sys.executable, TOP / "tests" / "journal-rows.py", place / "a.journal"]
    lists.append(subprocess.run(reader, capture_output=True, text=True, check=False).stdout)
    check("each lists the same rows", len(set(lists)) == 1 and lists[0].count("order") == 20)
    filled(place / "own.db")
    check("a desk's own store of SQLite has the same rows", stores.read_store(place / "own.db") == stores.read_store(place / "c.db"))
    dumps = {subprocess.run(["sqlite3", place / name, ".schema"], capture_output=True, check=False).stdout for name in ("own.db", "c.db")}
    check("and the same schema", len(dumps) == 1)
    check("a name that is there is refused", tool("journal", "compact", place / "a.journal", place / "b.journal")[0] == 1)
    check("another ending is refused", tool("journal", "compact", place / "a.journal", place / "e.db")[0] == 1)
    return "a journal of 29 records compacted, to SQLite and back: the same rows by two readers, the same schema as a desk's own"


def torn(place):
    """A journal that ends at any byte: what stands before is written, and a desk starts over it."""
    filled(place / "whole.journal", orders=4, drafts=2)
    data = (place / "whole.journal").read_bytes()
    whole = stores.Journal(data)
    begins = [at for at, _, _ in whole.records]
    dice, counts = random.Random(1), collections.Counter()
    cuts = sorted(set(range(len(data) - 40, len(data))) | set(dice.sample(range(9, len(data)), 20)))
    for cut in cuts:
        (place / "cut.journal").write_bytes(data[:cut])
        (place / "out.journal").unlink(missing_ok=True)
        status, said, error = tool("journal", "salvage", place / "cut.journal", place / "out.journal")
        before = sum(end <= cut for end in [*begins[1:], whole.end])
        if not (place / "out.journal").exists():
            check(f"cut at {cut}", False, said + error)
            continue
        kept = len(stores.Journal((place / "out.journal").read_bytes()).records)
        check(f"cut at {cut}: {kept} of {before} records", kept == before)
        check(f"cut at {cut}: the status is {status}", status == (1 if cut < len(data) else 0))
        counts[said.split(": ")[2].split(" of ")[0].split("\n")[0].strip("0123456789 ") if status else "whole"] += 1
    return f"cut at {len(cuts)} bytes: each time all whole records were written, and a desk started over them"


def changed(place):
    """One byte of a journal is changed: salvage says so, or the desk sees it, or the row is another right one."""
    filled(place / "whole.journal", orders=3, drafts=2)
    data = (place / "whole.journal").read_bytes()
    whole = stores.Journal(data)
    dice, counts = random.Random(2), collections.Counter()
    for _ in range(40):
        at = dice.randrange(8, len(data) - 1)
        other = bytearray(data)
        other[at] ^= 1 << dice.randrange(8)
        (place / "changed.journal").write_bytes(other)
        (place / "out.journal").unlink(missing_ok=True)
        status, said, error = tool("journal", "salvage", "--drop", place / "changed.journal", place / "out.journal")
        check(f"byte {at}: something is written", (place / "out.journal").exists(), said + error)
        if status == 0:
            kind = "another gate, of which it warns" if "closed" in error else "another right row"
        elif "damaged" in said:
            kind = "damage, told with its byte"
        else:
            kind = "rows that a desk refuses, left out"
        counts[kind] += 1
    gate = bytearray(data)
    gate[whole.records[3][0]] = 0
    (place / "gate.journal").write_bytes(gate)
    _, _, error = tool("journal", "salvage", place / "gate.journal", place / "gate-out.journal")
    check("a closed gate is told", f"{len(whole.records) - 3} whole records stand behind it" in error, error)
    (place / "early.journal").write_bytes(data.replace(b"HALL1", b"HALL!"))
    status, _, error = tool("journal", "salvage", place / "early.journal", place / "early-out.journal")
    check("without --drop a refused row is named", status == 1 and "HALL!" in error and not (place / "early-out.journal").exists(), error)
    return "one bit changed 40 times: " + ", ".join(f"{count} {kind}" for kind, count in counts.most_common())


def trim(place):
    """A journal is put in place of itself with its rows alone, where that pays and no desk has it."""
    store = place / "a.journal"
    filled(store, drafts=40)
    os.chmod(store, 0o640)
    rows_before, bytes_before = tool("journal", "rows", store)[1], store.read_bytes()
    check("a short journal is left", tool("journal", "trim", store) == (0, "", "") and store.read_bytes() == bytes_before)
    check("so is one of which most counts", tool("journal", "trim", store, "1") == (0, "", "") and store.read_bytes() == bytes_before)
    desk(store, b"".join(request("PUT", "/drafts/V", "BOB", b"text" * 100) for _ in range(40)))
    rows_before, bytes_before = tool("journal", "rows", store)[1], store.read_bytes()
    held = subprocess.Popen([PROGRAM, "desk", store], stdin=subprocess.PIPE, stdout=subprocess.PIPE)
    held.stdin.write(request("GET", "/books/1", "BOB"))
    held.stdin.flush()
    held.stdout.read(1)
    status, _, error = tool("journal", "trim", store, "1")
    check("a desk's journal is refused", status == 1 and f"process {held.pid} has" in error and store.read_bytes() == bytes_before, error)
    held.kill()
    held.communicate()
    link = place / "link.journal"
    link.symlink_to(store)
    status, said, error = tool("journal", "trim", link, "1")
    check("it is trimmed", (status, said) == (0, "") and f"in place of {len(bytes_before)}" in error, error)
    check("the rows are the same", tool("journal", "rows", store)[1] == rows_before)
    tool("journal", "compact", store, place / "b.journal")
    check("there are no others", store.read_bytes() == (place / "b.journal").read_bytes())
    check("its mode and its link are kept", store.stat().st_mode & 0o777 == 0o640 and link.is_symlink())
    check("nothing lies beside it", sorted(it.name for it in place.iterdir()) == ["a.journal", "b.journal", "link.journal"])
    data = bytearray(bytes_before)
    data[stores.Journal(bytes_before).records[3][0]] = 0
    for name, spoilt, why in (("gate", bytes(data), "whole records stand behind it"), ("cut", bytes_before[:-30], "is damaged at")):
        (place / f"{name}.journal").write_bytes(spoilt)
        status, _, error = tool("journal", "trim", place / f"{name}.journal", "1")
        check(f"{name}: it is refused and left", status == 1 and why in error and (place / f"{name}.journal").read_bytes() == spoilt, error)
    (place / "empty.journal").write_bytes(b"\0PBJ")
    check("an empty store is left", tool("journal", "trim", place / "empty.journal", "1") == (0, "", "") and (place / "empty.journal").read_bytes() == b"\0PBJ")
    check("no store isn't made", tool("journal", "trim", place / "none.journal") == (0, "", "") and not (place / "none.journal").exists())
    (place / "half.journal").write_bytes(journal_of([("books", [number, "T", 1, b"", b""]) for number in range(1, 130)]))
    status, _, error = tool("journal", "trim", place / "half.journal")
    check("a limit is told that is more than half used", status == 0 and "books 129 of 256" in error, error)
    return f"{len(bytes_before)} bytes became {store.stat().st_size}, with the same rows; damaged ones and a desk's own were left"


def counts(place):
    """The counts of a service as a file and at a port, in the text form of Prometheus."""
    line = "links 1200 open 2 failed 3 refused 0 requests 1300 orders 200 steps 997390"
    wanted = {"links_total": 1200, "links_open": 2, "links_failed_total": 3, "links_refused_total": 0, "requests_total": 1300, "orders_total": 200, "steps_left": 997390}
    (place / "s.journal").write_bytes(journal_of([]))
    status, _, error = tool("desk-counts", "--store", place / "s.journal", place / "c.prom", text=f"listens\n{line[:-1]}x\n{line}\nlinks 7\n".encode())
    check("it ends, and each line goes on", status == 0 and error.splitlines() == ["listens", f"{line[:-1]}x", line, "links 7"], error)
    lines = (place / "c.prom").read_text().splitlines()
    values = dict(it.removeprefix("partsbook_").split() for it in lines if not it.startswith("#"))
    at = int(values.pop("counts_time_seconds"))
    check("the time is now", abs(at - time.time()) < 60)
    check("each count stands there", {name: int(value) for name, value in values.items()} == wanted | {"store_bytes": 9, "store_limit_bytes": stores.JOURNAL_LIMIT}, values)
    check("each has its kind", all(f"# TYPE partsbook_{name} {'counter' if name.endswith('_total') else 'gauge'}" in lines for name in values))
    with socket.socket() as free:
        free.bind(("127.0.0.1", 0))
        port = free.getsockname()[1]
    running = subprocess.Popen([TOP / "tools" / "desk-counts", "--port", str(port), place / "d.prom"], stdin=subprocess.PIPE, stderr=subprocess.DEVNULL)
    until, said = time.monotonic() + 30, []
    for asked in (503, 200):
        while time.monotonic() < until:
            try:
                with urllib.request.urlopen(f"http://127.0.0.1:{port}/metrics/desk", timeout=5) as answer:
                    said.append((answer.status, answer.read().decode()))
            except urllib.error.HTTPError as answer:
                said.append((answer.code, ""))
            except OSError:
                continue
            if said[-1][0] == asked:
                break
        if asked == 503:
            running.stdin.write(line.encode() + b"\n")
            running.stdin.flush()
    check("nothing is made up before the first line, and then the file is given", said[0][0] == 503 and said[-1] == (200, (place / "d.prom").read_text()), said[-1])
    running.stdin.close()
    check("it ends with its input", running.wait(30) == 0)
    check("wrong words have a usage", [tool("desk-counts", *words)[0] for words in ((), ("--port", "0", "x"), ("--what", "x"))] == [2, 1, 2])
    return "a line became a file with nine values, the same at a port"


def copy(place):
    """Copies while a desk takes orders: each has every order that was answered before the copy began."""
    store, answered, stop = place / "live.journal", [0], threading.Event()
    filled(store, orders=2)
    running = subprocess.Popen([PROGRAM, "desk", store], stdin=subprocess.PIPE, stdout=subprocess.PIPE)

    def load():
        number = 100
        while not stop.is_set():
            running.stdin.write(order("HALL9", number))
            running.stdin.flush()
            head = running.stdout.readline()
            length = 0
            while (line := running.stdout.readline()) != b"\r\n":
                if line.lower().startswith(b"content-length"):
                    length = int(line.split(b":")[1])
            running.stdout.read(length)
            if b" 201 " in head:
                answered[0] += 1
            number += 1
            time.sleep(0.002)

    worker = threading.Thread(target=load)
    worker.start()
    good = 0
    for at in range(20):
        before = answered[0]
        name = "copy" if at % 2 else "backup"
        if name == "copy":
            status, said, error = tool("journal", "copy", store, place / f"copy-{at}.journal")
            made = place / f"copy-{at}.journal"
        else:
            (place / f"b{at}").mkdir()
            status, said, error = tool("desk-store", "backup", store, place / f"b{at}")
            made = next(iter((place / f"b{at}").iterdir()), None)
        if status:
            check(f"{name} {at}", False, said + error)
            continue
        have = sum(row[0] == "HALL9" for row in stores.read_store(made)["orders"])
        check(f"{name} {at} has {have} of {before}", have >= before)
        good += have >= before
    status, _, error = tool("journal", "compact", store, place / "no.journal")
    check("compact refuses a journal that a desk has", status == 1 and "has" in error, error)
    stop.set()
    worker.join()
    running.stdin.close()
    running.wait()
    return f"{good} of 20 copies and backups under load have what was answered before; {answered[0]} orders meanwhile"


def keep(place):
    """Backup, restore, why, and what restoring says of what is lost."""
    for name in ("s.db", "s.journal"):
        store, folder = place / name, place / f"backups-{name}"
        folder.mkdir()
        filled(store)
        check("backup", tool("desk-store", "backup", store, folder)[0] == 0)
        made = next(folder.iterdir())
        desk(store, order("HALL7", 77))
        (place / f"link-{name}").symlink_to(store)
        store = place / f"link-{name}" if name == "s.journal" else store
        status, said, error = tool("desk-store", "restore", made, store)
        check("restore tells the order that is lost", status == 0 and "1 orders were kept" in said and "HALL7|77|1|1|M1" in said, said + error)
        check("the rows are those of the backup", stores.read_store(store) == stores.read_store(made))
        old = [it for it in place.iterdir() if it.name.startswith(name + ".until")]
        check("the old store is kept, with the order", len(old) == 1 and ["HALL7", 77, 1, 1, "M1"] in stores.read_store(old[0])["orders"])
    held = subprocess.Popen([PROGRAM, "desk", place / "s.db"], stdin=subprocess.PIPE, stdout=subprocess.DEVNULL)
    held.stdin.write(request("GET", "/books/1", "BOB"))
    held.stdin.flush()
    while tool("desk-store", "why", place / "s.db")[0] == 0:
        pass
    status, said, _ = tool("desk-store", "why", place / "s.db")
    check("why names who has it", status == 1 and f"process {held.pid}" in said, said)
    (place / "quiet").mkdir()
    status, _, error = tool("desk-store", "backup", place / "s.db", place / "quiet")
    check("a store of SQLite that is held is backed up where nothing is written", status == 0 and f"process {held.pid}" in error, error)
    check("the backup has its rows", stores.read_store(next((place / "quiet").iterdir())) == stores.read_store(place / "s.db"))
    check("look at it is refused", tool("desk-store", "look", place / "s.db")[0] == 1)
    busy = threading.Event()
    thread = threading.Thread(target=lambda: [os.utime(place / "s.db") for _ in iter(lambda: busy.wait(0.02), True)])
    thread.start()
    (place / "busy").mkdir()
    status, _, error = tool("desk-store", "backup", place / "s.db", place / "busy")
    busy.set()
    thread.join()
    check("and not backed up where it is written all the time", status == 1 and "is written all the time" in error and not list((place / "busy").iterdir()), error)
    # A kill leaves the log, which the backup has too.
    held.stdin.write(order("HALL6", 66))
    held.stdin.flush()
    while not (place / "s.db-wal").exists() or (place / "s.db-wal").stat().st_size < 100:
        pass
    until = time.monotonic() + 120
    while not any(row[0] == "HALL6" for row in stores.read_store(place / "s.db")["orders"]) and time.monotonic() < until:
        time.sleep(0.1)
    held.kill()
    held.wait()
    (place / "after").mkdir()
    status, _, error = tool("desk-store", "backup", place / "s.db", place / "after")
    check("a backup after a kill", status == 0, error)
    left = stores.read_store(next((place / "after").iterdir()))["orders"]
    check("it has the log's orders", any(row[0] == "HALL6" for row in left))
    reasons = {
        "nowhere/x.db": "there is no folder", "folder": "is no file", "text.db": "is no database", "other.db": "without the tables",
        "second.db": "hard link", "j.db": "a journal, whose name", "link.db": "is a link to nothing", "text.journal": "is damaged at byte 0",
    }
    (place / "folder").mkdir()
    (place / "text.db").write_text("hello, this is a text of some length\n")
    (place / "text.journal").write_text("hello, this is a text\n")
    subprocess.run(["sqlite3", place / "other.db", "create table a (b)"], check=True)
    filled(place / "first.db")
    os.link(place / "first.db", place / "second.db")
    shutil.copy(place / "s.journal", place / "j.db")
    (place / "link.db").symlink_to("nothing")
    for name, reason in reasons.items():
        status, said, error = tool("desk-store", "why", place / name)
        check(f"why {name}", status == 1 and reason in said, said + error)
    return f"backup and restore of both kinds of stores, a backup after a kill, {len(reasons) + 1} reasons of a store fault"


def next_(place):
    """The next store has the drafts and the books in force, and with --all the same numbers."""
    filled(place / "old.db")
    status, said, error = tool("desk-store", "next", place / "old.db", place / "new.journal")
    check("next", status == 0 and "book 1 of" in said and "is book 1 of" in said, said + error)
    old, new = stores.read_store(place / "old.db"), stores.read_store(place / "new.journal")
    check("the drafts have the same texts and owners", [(d[0], d[1], d[3]) for d in old["drafts"]] == [(d[0], d[1], d[3]) for d in new["drafts"]])
    check("only the book in force is there", [b[3] for b in new["books"]] == [old["books"][0][3]] and not new["orders"])
    status, said, error = tool("desk-store", "next", "--all", place / "old.db", place / "all.db")
    every = stores.read_store(place / "all.db")
    check("next --all", status == 0, said + error)
    check("with --all the numbers stay", [b[::3] for b in every["books"]] == [b[::3] for b in old["books"]])
    check("and so do withdrawals", every["withdrawn"] == old["withdrawn"])
    done = desk(place / "all.db", order("HALL1", 1) + request("PUT", "/orders/2", "HALL1", b'{"book":2,"day":1,"codes":["M1"]}'))
    check("orders to them are answered as before", done.stdout.startswith(b"HTTP/1.1 201") and b"withdrawn 2" in done.stdout)
    return "the next store: drafts with owners, books in force, and with --all all numbers"


def sheet(place):
    """Each book of examples/ as a spreadsheet and as saved texts, and cells that are refused."""
    count = 0
    for book in BOOKS:
        wanted = [r.fields for r in read_records(book.read_text())]
        status, _, error = tool("to-sheet", book, place / f"{book.stem}.xlsx")
        checked = subprocess.run([PROGRAM, "check"], input=book.read_bytes(), capture_output=True, check=False)
        check(f"to-sheet {book.stem}", status == checked.returncode, error)
        status, text, error = tool("from-sheet", place / f"{book.stem}.xlsx")
        check(f"{book.stem}.xlsx comes back", [r.fields for r in read_records(text)] == wanted, error)
        count += 1
        for delimiter in ",;\t":
            for encoding in ("utf-8", "utf-8-sig", "utf-16", "utf-16-le", "utf-16-be", "cp1252"):
                out = io.StringIO()
                csv.writer(out, delimiter=delimiter, lineterminator="\r\n").writerows([[*row, *[""] * (8 - len(row))] for row in wanted])
                (place / "saved").write_bytes(out.getvalue().encode(encoding))
                status, text, error = tool("from-sheet", place / "saved")
                check(f"{book.stem} {delimiter!r} {encoding}", status == 0 and [r.fields for r in read_records(text)] == wanted, error)
                count += 1
    spoilt = {
        "1E+080": "an exponent", "1,00E+80": "an exponent", "01.02.": "a date", "1-Feb": "a date", "2027-02-01": "a date", "#NAME?": "an error",
        "WAHR": "a truth value", "1,5": "a fraction", "########": "an error",
    }
    for cell, reason in spoilt.items():
        (place / "spoilt").write_text(f"book;T;1;9\nvariant;V;P;{cell};1;A;;\n")
        status, text, error = tool("from-sheet", place / "spoilt")
        check(f"{cell} is refused", status == 1 and text == "" and f"D2: `{cell}`" in error and reason in error, error)
    (place / "days").write_text("DATE;DAY\n11.01.2027;1\n20.12.2027;240\n")
    (place / "dated").write_text("Art;Name;von;bis\nbook; T ;11.01.2027;2027-12-20\ncode;M1; hell, grün \n")
    status, text, error = tool("from-sheet", "--days", place / "days", place / "dated")
    check("dates by a table, blanks, a header", text == 'book,T,1,240\ncode,M1," hell, grün "\n', text + error)
    (place / "dated").write_text("book;T;12.01.2027;2027-12-20\n")
    check("a date without a row is refused", "C1: `12.01.2027` is a date that" in tool("from-sheet", "--days", place / "days", place / "dated")[2])
    (place / "header").write_text("bok,T,1,9\ncode,A,a\n")
    status, text, error = tool("from-sheet", place / "header")
    check("a mistyped book record is no header", status == 1 and text == "" and "A1: `bok` is no kind of record" in error, error)
    (place / "empty").write_text("")
    status, text, error = tool("from-sheet", place / "empty")
    check("an empty file is no book", status == 1 and "has no record" in error, error)
    check("a date without a table is refused", "--days" in tool("from-sheet", place / "dated")[2])
    said = f"{count} books as spreadsheets and as texts of 18 kinds came back with the same records; {len(spoilt) + 3} cells refused"
    return said + office(place)


def office(place):
    """LibreOffice opens what to-sheet writes, and writes what from-sheet reads."""
    if not shutil.which("soffice"):
        return "; LibreOffice isn't there"
    words = ["soffice", f"-env:UserInstallation=file://{place}/profile", "--headless", "--norestore"]
    for to in ("xlsx", "csv:Text - txt - csv (StarCalc):59,34,76,1,,0,false,true,false"):
        these = [*words, "--convert-to", to, "--outdir", place / "office", *sorted(place.glob("*.xlsx"))]
        subprocess.run(these, stdout=subprocess.DEVNULL, stderr=subprocess.DEVNULL, check=False)
    count = 0
    for book in BOOKS:
        wanted = [r.fields for r in read_records(book.read_text())]
        for end in ("xlsx", "csv"):
            status, text, error = tool("from-sheet", place / "office" / f"{book.stem}.{end}")
            check(f"{book.stem}.{end} by LibreOffice", [r.fields for r in read_records(text)] == wanted, error)
            count += 1
    return f"; {count} files that LibreOffice had opened and saved, too"


def common(place):
    """Whether any car is in both of two books, beside all sets of their codes, each ordered by both books."""
    dice, counts = random.Random(3), collections.Counter()
    for _ in range(25):
        books = [drawn(dice) for _ in range(2)]
        (place / "next.csv").write_bytes(books[1])
        status, said, error = tool("compare", "5", place / "next.csv", text=books[0])
        if "book T" in said:
            counts["void"] += 1
            continue
        both = set.intersection(*(set(r.fields[1] for r in read_records(book.decode()) if r.kind == "code") for book in books))
        cars = [cars_of(book, sorted(both)) for book in books]
        wanted = "some car" if cars[0] & cars[1] else "no car"
        check(f"{wanted} is in both", said.startswith(wanted), said + error)
        if wanted == "some car":
            check("the car is one", frozenset(said.split("\n")[0].split(": ")[1].split()) in cars[0] & cars[1], said)
        check("the status", status == (1 if wanted == "no car" or "->" in said else 0), said)
        counts[wanted] += 1
    return "pairs of drawn books: " + ", ".join(f"{count} with {what}" for what, count in counts.items())


def drawn(dice):
    """A book of some of five codes, with rules of some days."""
    codes = dice.sample("ABCDE", 4)
    rows = ["book,T,1,9", *(f"code,{code},x" for code in codes)]
    for at in range(3):
        one, two, three = dice.sample(codes, 3)
        rule = f"{dice.choice(['', '-'])}{two}{dice.choice('+/')}{dice.choice(['', '-'])}{three}"
        rows.append(f"construct,C{at},{dice.choice(['*', one])},{rule},{dice.choice(['', '3', '6'])},")
    one, two, three = dice.sample(codes, 3)
    rows.append(f"supplement,S1,10,{one},{two}/-{three},,")
    rows += ["position,P,,mandatory,,", f"variant,V1,P,X1,1,{codes[0]},,", f"variant,V2,P,{dice.choice(['X1', 'X2'])},1,-{codes[0]},,"]
    return "\n".join([*rows, ""]).encode()


def cars_of(book, codes):
    """The sets of these codes that are accepted on day 5 and complete to themselves."""
    found = set()
    for at in range(2 ** len(codes)):
        car = [code for bit, code in enumerate(codes) if at >> bit & 1]
        done = subprocess.run([PROGRAM, "order", "5", *car], input=book, capture_output=True, check=False)
        lines = done.stdout.decode().splitlines()
        if done.returncode == 0 and set(lines[1].split()[1:]) == set(car):
            found.add(frozenset(car))
    return found


def report(place):
    """The reports have each line of `check`, and texts of a book are never read as markup."""
    count = 0
    for book in BOOKS:
        data = book.read_bytes()
        plain = subprocess.run([PROGRAM, "check"], input=data, capture_output=True, check=False)
        lines = [line for line in plain.stdout.decode().splitlines() if line.split()[0] not in ("book", "slice", "end")]
        status, text, _ = tool("report", "--json", text=data)
        whole = json.loads(text)
        found = [f for part in whole["slices"] for f in part["findings"]]
        again = [" ".join([f["kind"], *f["names"]] + (["with", *(c["code"] for c in f["car"])] if f["car"] is not None else [])) for f in found]
        check(f"report --json of {book.stem}", again == lines and status == plain.returncode)
        check(f"report --csv of {book.stem}", len(list(csv.reader(io.StringIO(tool("report", "--csv", text=data)[1])))) == len(lines) + 1)
        for finding in found:
            for record in finding["records"]:
                check("the lines are those of the book", data.decode().splitlines()[record["line"] - 1].split(",")[1] == record["fields"][1])
        count += len(lines)
    hostile = example("van.csv").replace(b"diesel 2.0", b'"<script>alert(1)</script>&""x"""')
    page = tool("report", "--html", text=hostile)[1]
    check("a text is no markup", "<script" not in page and "&lt;script&gt;" in page)
    status, text, _ = tool("report", "--json", text=b"code,A,b\n")
    check("a fault is told", status == 3 and json.loads(text)["fault"] == "book fault 1 3")
    check("with its sentence", "is no `book` record" in json.loads(text)["faults"][0]["sentence"], text)
    undecided = tool("report", "--budget", "1", text=example("tarn.csv"))
    check("a budget is handed on", undecided[0] in (0, 7))
    return f"{count} findings of 7 books, each with its rows"


def spoilt(dice, data):
    """A book with one or two bytes, fields or rows that are otherwise."""
    for _ in range(dice.choice((1, 1, 2))):
        rows = data.split(b"\n")[:-1]
        at = dice.randrange(len(rows))
        fields = rows[at].split(b",")
        way = dice.randrange(8)
        if way == 0:
            rows[at] = rows[at][: dice.randrange(len(rows[at]) + 1)]
        elif way == 1:
            fields[dice.randrange(len(fields))] = dice.choice((b"", b"x", b"A/B", b"0", b"100000", b"TRUE", b"ABCDEFGHI", b"*", b'"A,B"', b"-"))
            rows[at] = b",".join(fields)
        elif way == 2:
            rows.insert(dice.randrange(len(rows) + 1), rows[at])
        elif way == 3:
            del rows[at]
        elif way == 4:
            place = dice.randrange(len(rows[at]) + 1)
            rows[at] = rows[at][:place] + dice.choice((b"(", b")", b"-", b"+", b"/", b";", b"m", b" ", b"A", b'"', b",", b"\xff")) + rows[at][place:]
        elif way == 5:
            place = dice.randrange(len(rows[at]) + 1)
            rows[at] = rows[at][:place] + rows[at][place + 1 :]
        elif way == 6:
            rows[at] = rows[at].replace(b"-", b"-" * dice.choice((1, 64, 65))).replace(b"/", b"/" + b"A/" * dice.choice((0, 600)))
        else:
            rows[at] = b",".join(fields[: dice.randrange(1, len(fields) + 1)] + fields[dice.randrange(len(fields)) :])
        data = b"\n".join(rows) + b"\n"
    return data


def lint(place):
    """Each fault that the program tells is among those that lint tells, at its row, kind and place; and of a book without one there is
    none. Then what a command line has of it."""
    dice, counts = random.Random(4), collections.Counter()
    for _ in range(250):
        data = spoilt(dice, dice.choice(BOOKS).read_bytes())
        done = subprocess.run([PROGRAM, "order", "99999"], input=data, capture_output=True, check=False)
        words = done.stdout.decode().split()
        found = faults_of(data)
        if words[:2] != ["book", "fault"]:
            check(f"lint tells {[fault.sentence for fault in found]} of a book", not found, data[:300])
            counts["none"] += 1
            continue
        told = [fault for fault in found if fault.is_told(words)]
        check(f"{done.stdout} is told", told, data[:2000])
        counts["of kind " + words[3]] += 1
        if len(words) == 6 and told:
            # The place of a rule's fault, counted from 0 in a field that begins with no quote, is its column.
            lines = data.splitlines()
            line = lines[told[0].line - 1]
            if b'"' not in line:
                rule = read_records(line.decode())[0].fields
                before = len(b",".join(field.encode() for field in rule[: {"supplement": 4, "variant": 5}.get(rule[0], 3)])) + 1
                check(f"{words} is at column {told[0].column}", told[0].column == before + int(words[5]) + 1, line)
    book = example("engine.csv").replace(b"construct,C2,M1", b"construct,C2,m1").replace(b",A200,1", b",a200,x")
    (place / "a.csv").write_bytes(book)
    status, said, _ = tool("lint", place / "a.csv", TOP / "examples" / "engine.csv")
    wanted = [f"{place}/a.csv:8:14: `m1` has small letters", f"{place}/a.csv:15:15: `a200` is no part", f"{place}/a.csv:15:20: `x` is no quantity"]
    check("lint tells each fault with its place", status == 1 and all(map(str.startswith, said.splitlines(), wanted)) and len(said.splitlines()) == 3, said)
    status, said, _ = tool("lint", TOP / "examples" / "engine.csv")
    check("of a book that can be released nothing", status == 0 and said == "", said)
    van = TOP / "examples" / "van.csv"
    status, said, _ = tool("lint", van)
    plain = json.loads(tool("report", "--json", text=van.read_bytes())[1])
    sentences = {(f["sentence"], f["blocks"]) for part in plain["slices"] for f in part["findings"]}
    told = {(re.sub(r"^(note: )?days? [\d ,to]*: ", "", line.split(": ", 1)[1]), "note: " not in line) for line in said.splitlines()}
    check("lint has each finding of a report", status == 1 and told == sentences, str(told ^ sentences))
    check("at a line of the book", all(re.match(rf"{re.escape(str(van))}:\d+:1: ", line) for line in said.splitlines()), said)
    check("lint without a file", tool("lint")[0] == 2 and tool("lint", place / "none.csv")[0] == 2)
    check("a spreadsheet is told", "spreadsheet" in sheet_told(place))
    coloured(place / "a.csv")
    return f"{sum(counts.values())} spoilt books: " + ", ".join(f"{count} {kind}" for kind, count in sorted(counts.items()))


def sheet_told(place):
    tool("to-sheet", TOP / "examples" / "engine.csv", place / "e.xlsx")
    return tool("lint", place / "e.xlsx")[1]


def coloured(path):
    """Colours go to a terminal alone, and not where NO_COLOR is set."""
    for more, wanted in (({}, True), ({"NO_COLOR": "1"}, False)):
        above, below = pty.openpty()
        env = {**{name: value for name, value in os.environ.items() if name != "NO_COLOR"}, "TERM": "xterm", **more}
        subprocess.run([TOP / "tools" / "lint", path], stdout=below, env=env, check=False)
        os.close(below)
        said = b""
        try:
            while part := os.read(above, 65536):
                said += part
        except OSError:
            pass
        os.close(above)
        check(f"colours on a terminal with {more}", (b"\033[31m" in said) == wanted, said)


def quotes(place):
    """A quote that hides records is told by each tool that reads a book, and neither made into a book nor released."""
    book = example("compact.csv").replace(b"all-wheel drive", b'"all-wheel drive')
    (place / "open.csv").write_bytes(book)
    wanted = "line 9, column 10: the quote that opens here is never closed: lines 9 to 69 are one field, and no records"
    count = 0
    for name, *words in (("report",), ("report", "--html"), ("json", "order", "40", "P18"), ("json", "check"), ("compare", "40", place / "open.csv")):
        _, said, error = tool(name, *words, text=book)
        check(f"{name} {words} tells the quote", wanted in error, error)
        count += 1
    status, said, _ = tool("report", "--json", text=book)
    found = json.loads(said)["quotes"]
    check("report --json has it", [(one["line"], one["column"], one["hides"]) for one in found] == [(9, 10, True)], said[-300:])
    check("report --html has it", "the quote that opens here is never closed" in tool("report", "--html", text=book)[1])
    status, _, error = tool("to-sheet", place / "open.csv", place / "open.xlsx")
    check("to-sheet tells it", wanted in error, error)
    status, said, _ = tool("lint", place / "open.csv")
    check("lint tells it", status == 1 and said.startswith(f"{place}/open.csv:9:10: the quote that opens here is never closed"), said)
    for delimiter in (b",", b";", b"\t"):
        (place / "saved").write_bytes(book.replace(b",", delimiter))
        status, said, error = tool("from-sheet", place / "saved")
        check(f"from-sheet of {delimiter} makes no book of it", status == 1 and said == "" and wanted in error, error)
    closed = book.replace(b"sunroof", b'sunroof"')
    (place / "saved").write_bytes(closed)
    status, said, error = tool("from-sheet", place / "saved")
    check("nor where the quote is closed later", status == 1 and said == "" and "lines 9 to 13 are one field in quotes, and no records" in error, error)
    lines = example("compact.csv").replace(b"all-wheel drive", b'"all-wheel\ndrive"')
    (place / "saved").write_bytes(lines)
    status, said, error = tool("from-sheet", place / "saved")
    check("a text of two lines is told and kept", status == 0 and said.encode() == lines and "lines 9 to 10 are one text" in error, error)
    status, said, _ = tool("lint", place / "saved")
    check("and is a note of lint's", f"{place}/saved:9:10: note: lines 9 to 10 are one text" in said, said)
    (place / "wrong.csv").write_bytes(example("compact.csv").replace(b"code,P18", b"code,p18"))
    status, said, error = tool("compare", "40", place / "wrong.csv", text=example("compact.csv"))
    check("compare says what a fault is", status == 3 and "line 2, column 6: `p18` has small letters" in error, said + error)
    status, _, error = tool("desks", "release", "T", place / "open.csv", "ANNA", "1")
    check("desks releases no such book", status == 1 and "isn't released while a quote in it hides records" in error, error)
    return f"an open quote is told by {count + 5} tools and ways of theirs, and neither made into a book nor released"


def said_again(whole):
    """The lines of which tools/json has made this object."""
    outcome = {"accepted": "accepted", "refused": f"refused {whole.get('rule')}", "unfit": f"unfit {whole.get('position')} {whole.get('count')}"}
    words = lambda *parts: " ".join(str(part) for part in parts)
    if whole["command"] == "order":
        lines = [outcome[whole["outcome"]]]
        if whole["outcome"] == "accepted":
            lines.append(words("codes", *whole["codes"]))
            lines += [f"{row['module'] or '-'},{row['position']},{row['part']},{row['quantity']}" for row in whole["parts"]]
    elif whole["command"] == "free":
        now = said_again({**whole["now"], "command": "order", "codes": [], "parts": []})[0]
        left = {"some": [], None: [], "none": ["none"], "undecided": ["undecided"]}[whole["left"]]
        lines = [f"now {now}", *left, *(words(row["state"], row["code"]) for row in whole["codes"]), words("end", whole["open"])]
    elif whole["command"] == "why":
        lines = [words("adds", row["code"], "by", row["rule"]) for row in whole["adds"]]
        lines += [outcome[whole["outcome"]]]
        if whole["clash"]:
            lines.append(words("clash", *whole["clash"]["codes"], "by" if whole["clash"]["each_needed"] else "within", *whole["clash"]["rules"]))
        lines += [words(name, *whole[name]) for name in ("leave", "add") if whole[name] is not None]
        if whole["unfit"]:
            lines.append(words("unfit", whole["unfit"]["position"], whole["unfit"]["count"], "with", *whole["unfit"]["car"]))
        lines += ["no order"] * whole.get("no_order", False) + ["undecided"] * whole["undecided"] + ["end"]
    else:
        lines = []
        part = lambda one: words(one["part"], f"x{one['quantity']}") if one else "-"
        for block in whole["days"]:
            lines.append(words("days", *(day for run in block["runs"] for day in (run["first"], run["last"]))))
            for one in block["changes"]:
                kind = one["kind"]
                if kind == "differs":
                    lines.append(words(kind, one["position"], "with", *one["car"], "has", part(one["has"]), "next", part(one["next"])))
                elif kind in ("lost", "won"):
                    lines.append(words(kind, *(["code", one["code"]] if "code" in one else [one["rule"]]), "with", *one["car"]))
                elif kind == "undecided":
                    lines.append(words(kind, *one["question"], "after", one["after"]))
                else:
                    lines.append(kind)
        lines.append(words("end", whole["changes"]))
    return lines


def next_books(place):
    """Pairs of books, of which the second is in a file, and the words with which they are compared."""
    engine, compact = example("engine.csv"), example("compact.csv")
    nexts = {
        "same": engine, "part": engine.replace(b"A100", b"A150"), "none": engine.replace(b"construct,C3,*,G5/G7", b"construct,C3,*,G5+G7"),
        "rule": engine + b"construct,C9,*,-AC,500,\n", "code": engine.replace(b"code,AC,air\n", b""),
        "more": engine.replace(b"M1+-G7", b"M1+-G7+-AC"), "quantity": engine.replace(b"A200,1", b"A200,2"), "fault": b"book,T,1,10\ncode,m,x\n",
    }
    for name, text in nexts.items():
        (place / f"{name}.csv").write_bytes(text)
        yield engine, place / f"{name}.csv"
    (place / "compact.csv").write_bytes(compact.replace(b"construct,CSUN", b"construct,CSUNX"))
    yield compact, place / "compact.csv"


def answers(place):
    """Each answer as JSON says what the program says: the lines are made of it again."""
    count, kinds = 0, collections.Counter()
    asked = [("order", "40", "P18", "AWD", "AT8"), ("order", "40", "E60", "TOW"), ("order", "40"), ("order", "40", "E60"), ("free", "40", "P18", "AWD"),
             ("free", "40", "E60", "TOW"), ("free", "40"), ("free", "40", "--budget", "1"), ("why", "40", "E60", "TOW"), ("why", "40", "P18", "AWD", "AT8"),
             ("why", "40"), ("why", "40", "--budget", "1", "E60", "TOW"), ("why", "305")]
    calls = [(words, example(book)) for words in asked for book in ("compact.csv", "van.csv")]
    calls += [(("changes", path), text) for text, path in next_books(place)]
    for words, text in calls:
        done = subprocess.run([PROGRAM, *words], input=text, capture_output=True, check=False)
        status, said, error = tool("json", *words, text=text)
        check(f"{words} has the status of the program", status == done.returncode, f"{status} {error}")
        whole = json.loads(said)
        lines = done.stdout.decode().splitlines()
        again = [whole["fault"]] if "fault" in whole else whole["report"] if "report" in whole else said_again(whole)
        check(f"{words} is the same as JSON", again == lines, f"{again} {lines}")
        kinds["fault" if "fault" in whole else words[0]] += 1
    status, said, _ = tool("json", "check", text=example("van.csv"))
    plain = tool("report", "--json", text=example("van.csv"))
    check("check is that of report", status == plain[0] and json.loads(said).items() >= json.loads(plain[1]).items())
    broken = json.loads(tool("json", "order", "40", "M1", text=example("engine.csv").replace(b"code,M1", b"code,m1"))[1])
    check("a fault has its place and sentence", broken["faults"][0]["line"] == 2 and "small letters" in broken["faults"][0]["sentence"], str(broken))
    check("wrong words", tool("json", "sample")[0] == 2 and tool("json", "order", "x", text=b"")[0] == 1)
    return "answers as JSON: " + ", ".join(f"{count} of {kind}" for kind, count in kinds.items())


def pages(place):
    """The page of changes has each line of `changes`, and no text as markup."""
    rows = 0
    for text, path in next_books(place):
        done = subprocess.run([PROGRAM, "changes", path], input=text, capture_output=True, check=False)
        lines = [line for line in done.stdout.decode().splitlines() if not line.startswith(("days ", "end "))]
        status, page, error = tool("report", "--changes", path, text=text)
        check(f"the page of {path.name} has the status", status == done.returncode, error)
        if done.stdout.startswith((b"days", b"end")):
            found = re.findall(r'<tr><td><strong class="\w+">([a-z ]+)</strong>', page)
            kinds = [line if line == "no common car" else line.split()[0] for line in lines]
            check(f"the page of {path.name} has each line", found == kinds, f"{found} {kinds}")
            rows += len(found)
        else:
            check(f"the page of {path.name} shows what was said", done.stdout.decode().strip() in page, page[-300:])
    hostile = example("engine.csv").replace(b"engine one", b'"<script>alert(1)</script>"')
    (place / "hostile.csv").write_bytes(hostile.replace(b"A100", b"A150"))
    page = tool("report", "--changes", place / "hostile.csv", text=hostile)[1]
    check("a text is no markup", "<script" not in page and "&lt;script&gt;" in page, page[-500:])
    check("without a file", tool("report", "--changes")[0] == 2)
    van = tool("report", "--html", text=example("van.csv"))[1]
    asked = {line for line in re.findall(r"`partsbook ask (.*?)` names", van)}
    for line in asked:
        day, rule = line.replace("&#x27;", "").split(" ", 1)
        done = subprocess.run([PROGRAM, "ask", day, rule], input=example("van.csv"), capture_output=True, check=False)
        check(f"ask {line}, which a report names, is answered with the rules", done.stdout.startswith(b"none by "), done.stdout)
    return f"{rows} changes on pages; {len(asked)} questions that a report names are answered with rules"


def main(words):
    parts = {"rows": rows, "torn": torn, "changed": changed, "trim": trim, "counts": counts, "copy": copy, "keep": keep, "next": next_}
    parts |= {"sheet": sheet, "report": report, "lint": lint, "quotes": quotes, "answers": answers, "pages": pages, "common": common}
    for name in words or parts:
        with tempfile.TemporaryDirectory(dir="/dev/shm" if os.path.isdir("/dev/shm") else None) as place:
            print(f"{name}: {parts[name](pathlib.Path(place))}", flush=True)
    return 1 if failed else 0


if __name__ == "__main__":
    sys.exit(main(sys.argv[1:]))
