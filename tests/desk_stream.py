"""What scripts that try a desk over its bytes have in common: requests, the messages of a stream, and the rows of a store."""

import os
import shutil
import sqlite3
import sys
import tempfile

TOP = os.path.dirname(os.path.dirname(os.path.abspath(__file__)))
sys.path.insert(0, os.path.join(TOP, "tools"))
sys.dont_write_bytecode = True
import stores
from program import Refused

PROGRAM = os.environ.get("PARTSBOOK_PROGRAM") or os.path.join(TOP, "crates", "partsbook", "out", "partsbook")
# The tables of a store, with the keys by which its rows are put in order.
TABLES = {
    "form": "number", "drafts": "name", "books": "number", "orders": "caller, number", "withdrawn": "number",
}


class NotWhole(Exception):
    """A store or a stream that isn't whole."""


def example(name):
    with open(os.path.join(TOP, "examples", name), "rb") as file:
        return file.read()


def request(method, path, caller, body=b"", more=""):
    head = f"{method} {path} HTTP/1.1\r\nHost: localhost\r\nX-Caller: {caller}\r\n{more}Content-Length: {len(body)}\r\n\r\n"
    return head.encode() + body


def split_messages(stream):
    """The messages of a stream, by the lengths of their bodies. A 100 belongs to the message behind it."""
    messages, at, begun = [], 0, 0
    while at < len(stream):
        end = stream.find(b"\r\n\r\n", at) + 4
        head = stream[at:end].lower()
        length = int(head.split(b"content-length:")[1].split(b"\r\n")[0]) if b"content-length:" in head else 0
        if end < 4 or end + length > len(stream):
            raise NotWhole(stream[begun:])
        at = end + length
        if not head.startswith(b"http/1.1 100 "):
            messages.append(stream[begun:at])
            begun = at
    if begun != at:
        raise NotWhole(stream[begun:])
    return messages


def rows_of(store):
    """All rows of a store that is whole, and {} where it has no tables. A journal is whole where its records end at a closed gate."""
    if stores.is_journal(store):
        try:
            return stores.read_store(store)
        except Refused as refused:
            raise NotWhole(str(refused)) from refused
    link = sqlite3.connect(store)
    try:
        said = link.execute("pragma integrity_check").fetchall()
        names = [name for (name,) in link.execute("select name from sqlite_master where type = 'table' order by name")]
        if said != [("ok",)] or (names and sorted(names) != sorted(TABLES)):
            raise NotWhole(said, names)
        return {name: link.execute(f"select * from {name} order by {TABLES[name]}").fetchall() for name in names}
    finally:
        link.close()


def rows_left(store):
    """The rows that a run has left, read from a copy, since reading takes the log away. {} where there is no store."""
    if not os.path.exists(store):
        return {}
    with tempfile.TemporaryDirectory(dir=work_place()) as look:
        copy = os.path.join(look, os.path.basename(store))
        for end in ("", "-wal"):
            if os.path.exists(store + end):
                shutil.copyfile(store + end, copy + end)
        return rows_of(copy)


def work_place():
    """Where stores are made: in memory, where a sync costs nothing."""
    return "/dev/shm" if os.path.isdir("/dev/shm") else None
