#!/usr/bin/env python3
# Lists the rows of a journal: tests/journal-rows.py FILE. docs/STORE.md has the format. The rows stand as they were put,
# a later one of a key in place of the earlier one, in the order of their keys.
import sys

HEADER = b"\x01PBJOURN"


class Bad(Exception):
    pass


def fields(payload, kinds):
    """The fields of a payload: n a number in 8 bytes, t a text with its length in 4 bytes in front."""
    at, found = 0, []
    for kind in kinds:
        width = 8 if kind == "n" else 4
        if at + width > len(payload):
            raise Bad("a field passes the end")
        number = int.from_bytes(payload[at : at + width], "big")
        at += width
        if kind == "t":
            if at + number > len(payload):
                raise Bad("a text passes the end")
            found.append(payload[at : at + number])
            at += number
        else:
            found.append(number)
    if at != len(payload):
        raise Bad("bytes stand behind the last field")
    return found


# By kind: the table, its fields, and which of them are the key.
KINDS = {
    1: ("draft", "ttnt", 1),
    2: ("book", "ntntt", 1),
    3: ("order", "tnnnt", 2),
    4: ("withdrawn", "n", 1),
}


def rows(data):
    """The form, and the rows by table."""
    tables = {name: {} for name, _, _ in KINDS.values()}
    if len(data) < 9 or (len(data) == 9 and data[0] != 1):
        return 0, tables
    try:
        if data[:8] != HEADER:
            raise Bad("another header")
        at = 8
        while at < len(data) and data[at] == 1:
            if at + 6 > len(data) or data[at + 1] not in KINDS:
                raise Bad("no record behind an open gate")
            name, kinds, keys = KINDS[data[at + 1]]
            length = int.from_bytes(data[at + 2 : at + 6], "big")
            if at + 6 + length > len(data):
                raise Bad("a record passes the end")
            row = fields(data[at + 6 : at + 6 + length], kinds)
            tables[name][tuple(row[:keys])] = row
            at += 6 + length
        if at >= len(data):
            raise Bad("no gate behind the last record")
    except Bad:
        return 3, {name: {} for name in tables}
    return 2, tables


def shown(field):
    return str(field) if isinstance(field, int) else field.decode("utf-8", "backslashreplace")


def main():
    with open(sys.argv[1], "rb") as file:
        form, tables = rows(file.read())
    print("form", form)
    for name, table in tables.items():
        for key in sorted(table):
            # Long texts, as books and certificates, are shown by their lengths.
            row = [shown(f) if isinstance(f, int) or len(f) <= 64 and b"\n" not in f else f"({len(f)} bytes)" for f in table[key]]
            print(name, "|".join(row))


if __name__ == "__main__":
    main()
