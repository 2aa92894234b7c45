"""The rows of a desk's store, from a journal or from a file of SQLite, and a store made of rows. docs/STORE.md has both formats."""

import os
import shutil
import sqlite3
import tempfile

from program import Refused, new_file, start_desk

HEADER = b"\x01PBJOURN"
JOURNAL_LIMIT = 4_294_967_296
# The tables in the order of their numbers in `bad row`, from 1: their columns, how a column stands in a record (n a number, t a
# text, b bytes), and how many of the first are the key.
TABLES = {
    "drafts": (("name", "owner", "revision", "body"), "ttnb", 1),
    "books": (("number", "draft", "revision", "body", "cert"), "ntnbb", 1),
    "orders": (("caller", "number", "book", "day", "codes"), "tnnnt", 2),
    "withdrawn": (("number",), "n", 1),
}
KINDS = {1: "drafts", 2: "books", 3: "orders", 4: "withdrawn"}
LIMITS = {"drafts": 1024, "books": 256, "orders": 200_000}
MAKE = """
CREATE TABLE form (number INTEGER PRIMARY KEY NOT NULL) STRICT;
CREATE TABLE drafts (name TEXT PRIMARY KEY NOT NULL, owner TEXT NOT NULL, revision INTEGER NOT NULL, body BLOB NOT NULL) STRICT;
CREATE TABLE books (number INTEGER PRIMARY KEY NOT NULL, draft TEXT NOT NULL, revision INTEGER NOT NULL, body BLOB NOT NULL, cert BLOB NOT NULL) STRICT;
CREATE TABLE orders (caller TEXT NOT NULL, number INTEGER NOT NULL, book INTEGER NOT NULL, day INTEGER NOT NULL, codes TEXT NOT NULL, PRIMARY KEY (caller, number)) STRICT;
CREATE TABLE withdrawn (number INTEGER PRIMARY KEY NOT NULL) STRICT;
INSERT INTO form VALUES (2);
"""


def is_journal(path):
    return os.fspath(path).endswith(".journal")


class Damage(Exception):
    """Where the records of a journal end without its last gate: the byte, and the reason."""

    def __init__(self, byte, reason):
        super().__init__(f"byte {byte}: {reason}")
        self.byte, self.reason = byte, reason


def read_fields(payload, kinds, begin):
    """The fields of a payload that begins at this byte."""
    at, found = 0, []
    for kind in kinds:
        width = 8 if kind == "n" else 4
        if at + width > len(payload):
            raise Damage(begin + at, "a field passes the end of its record")
        number = int.from_bytes(payload[at : at + width], "big")
        at += width
        if kind == "n":
            found.append(number)
            continue
        if at + number > len(payload):
            raise Damage(begin + at - 4, f"a text of {number} bytes passes the end of its record")
        text = payload[at : at + number]
        found.append(text.decode("utf-8", "surrogateescape") if kind == "t" else text)
        at += number
    if at != len(payload):
        raise Damage(begin + at, "bytes stand behind the last field of a record")
    return found


def records(data, at=8):
    """The records of a journal from this gate on: the byte of each gate, its table and its row. At the end, or at damage, it
    returns or raises."""
    while True:
        if at >= len(data):
            raise Damage(at, "the file ends where a gate has to stand")
        if data[at] != 1:
            return
        if at + 6 > len(data):
            raise Damage(at, "the file ends behind an open gate")
        if data[at + 1] not in KINDS:
            raise Damage(at + 1, f"there is no kind {data[at + 1]} of records")
        name = KINDS[data[at + 1]]
        length = int.from_bytes(data[at + 2 : at + 6], "big")
        if at + 6 + length > len(data):
            raise Damage(at + 2, f"a record of {length} bytes passes the end of the file by {at + 6 + length - len(data)}")
        yield at, name, read_fields(data[at + 6 : at + 6 + length], TABLES[name][1], at + 6)
        at += 6 + length


class Journal:
    """What a journal has: its records as far as they are whole, the damage if there is one, and the bytes that don't count."""

    def __init__(self, data):
        self.size, self.records, self.damage, self.end = len(data), [], None, 8
        if len(data) < 9 or (len(data) == 9 and data[0] != 1):
            return
        if data[:8] != HEADER:
            self.damage = Damage(0, "this is no header of a journal")
            return
        try:
            for at, name, row in records(data):
                self.records.append((at, name, row))
                self.end = at + 6 + payload_size(name, row)
        except Damage as damage:
            self.damage = damage

    def hidden(self, data):
        """How many whole records stand behind the gate at which the journal ends, as where this one gate was changed."""
        count = 0
        try:
            for _ in records(data[: self.end] + b"\1" + data[self.end + 1 :], self.end):
                count += 1
        except Damage:
            pass
        return count if self.size > self.end + 1 else 0


def payload_size(name, row):
    kinds = TABLES[name][1]
    return sum(8 if kind == "n" else 4 + len(bytes_of(field)) for kind, field in zip(kinds, row))


def bytes_of(field):
    return field if isinstance(field, bytes) else field.encode("utf-8", "surrogateescape")


def record(name, row):
    """A record with its gate before it."""
    payload = b""
    for kind, field in zip(TABLES[name][1], row):
        if kind == "n":
            payload += field.to_bytes(8, "big")
        else:
            text = bytes_of(field)
            payload += len(text).to_bytes(4, "big") + text
    number = next(kind for kind, table in KINDS.items() if table == name)
    return b"\1" + bytes([number]) + len(payload).to_bytes(4, "big") + payload


def journal_of(rows):
    """The bytes of a journal with these records, pairs of a table and a row, in this sequence."""
    return HEADER + b"".join(record(name, row) for name, row in rows) + b"\0"


def key_order(name, key):
    """Keys stand in the order of their bytes and numbers."""
    return tuple(bytes_of(field) if isinstance(field, str) else field for field in key)


def tables_of(records_):
    """The rows by table, in the order of their keys: a later record of a key in place of an earlier one."""
    tables = {name: {} for name in TABLES}
    for name, row in records_:
        tables[name][tuple(row[: TABLES[name][2]])] = list(row)
    return {name: [rows[key] for key in sorted(rows, key=lambda k, n=name: key_order(n, k))] for name, rows in tables.items()}


def flat(tables):
    return [(name, row) for name, rows in tables.items() for row in rows]


def read_journal(path):
    with open(path, "rb") as file:
        data = file.read()
    return data, Journal(data)


def read_sqlite(path):
    """The rows of a store of SQLite, read from a copy of the file and its log, so that the store stays as it is."""
    with tempfile.TemporaryDirectory() as place:
        copy = os.path.join(place, "store.db")
        copy_files(path, copy)
        link = sqlite3.connect(copy)
        try:
            link.text_factory = lambda text: text.decode("utf-8", "surrogateescape")
            names = {name for (name,) in link.execute("select name from sqlite_master where type = 'table'")}
            if not set(TABLES) - {"withdrawn"} <= names:
                raise Refused(f"{path} is a database without the tables of a desk")
            found = {}
            for name, (columns, _, keys) in TABLES.items():
                order = ", ".join(columns[:keys])
                rows = link.execute(f"select {', '.join(columns)} from {name} order by {order}") if name in names else []
                found[name] = [list(row) for row in rows]
            return found
        except sqlite3.Error as error:
            raise Refused(f"{path} can't be read as a database: {error}") from error
        finally:
            link.close()


def read_store(path):
    """The rows of a store by table. A journal has to be whole."""
    if not os.path.isfile(path):
        raise Refused(f"there is no store {path}")
    if not is_journal(path):
        return read_sqlite(path)
    _, journal = read_journal(path)
    if journal.damage:
        raise Refused(f"{path} is damaged at {journal.damage}; tools/journal salvage writes what stands before it")
    return tables_of((name, row) for _, name, row in journal.records)


def files_of(path):
    """A store's files, as endings of its name: the log of SQLite lies beside the store after a kill."""
    return ["", "-wal"] if not is_journal(path) and os.path.exists(f"{path}-wal") else [""]


def copy_files(path, copy):
    for ending in files_of(path):
        shutil.copyfile(f"{path}{ending}", f"{copy}{ending}")


def write_journal(path, rows):
    """Makes a journal of these records under a name that is free, behind a start of a desk over it."""
    data = journal_of(rows)
    if len(data) > JOURNAL_LIMIT:
        raise Refused(f"the journal would be {len(data)} bytes long, and {JOURNAL_LIMIT} are the most")

    def fill(made):
        with open(made, "wb") as file:
            file.write(data)
        has_to_start(made)

    new_file(path, fill)


def write_sqlite(path, tables):
    def fill(made):
        link = sqlite3.connect(made)
        link.executescript(MAKE)
        for name, rows in tables.items():
            link.executemany(f"insert into {name} values ({', '.join('?' * len(TABLES[name][0]))})", rows)
        link.commit()
        link.close()
        has_to_start(made)

    new_file(path, fill)


def has_to_start(made):
    """The judge of a store that a tool has made is a desk that starts over it."""
    status, said = start_desk(made)
    if status != 0:
        raise Refused(f"a desk over what was to be written says `{said}` and ends with {status}; nothing was written")


def shown_row(row):
    """A row in one line. Long texts, as books and certificates, are shown by their lengths."""
    parts = []
    for field in row:
        if isinstance(field, bytes):
            text = field.decode("utf-8", "backslashreplace")
        else:
            text = str(field).encode("utf-8", "backslashreplace").decode("utf-8")
        parts.append(text if len(text) <= 64 and "\n" not in text else f"({len(bytes_of(field))} bytes)")
    return "|".join(parts)


def counts(tables):
    return " ".join(f"{name} {len(rows)}" for name, rows in tables.items())
