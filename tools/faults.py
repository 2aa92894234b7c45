"""The sentences of tools/faults.json, and where a book has its faults, as the launcher finds them: tools/book.awk reads the text."""

import json
import os
import re
import subprocess
import sys

from program import TOP

TABLE = os.path.join(TOP, "tools", "faults.json")
SCRIPTS = [os.path.join(TOP, "tools", name) for name in ("sentences.awk", "book.awk")]


class Fault:
    """One fault of a text: its record, counted from 1, or 0 for the text as a whole; its kind and, of a rule, the number of the rule's
    fault; where it is, with columns in bytes; and what it is."""

    def __init__(self, row, kind, number, line, column, sentence):
        self.row, self.kind, self.number = row, kind, number
        self.line, self.column, self.sentence = line, column, sentence

    def is_told(self, words):
        """Whether the program tells this fault: the words of its line from `book` on."""
        told = [int(word) if word.isdigit() else 0 for word in words[2:5]]
        return [self.row, self.kind] == told[:2] and (self.kind != 12 or told[2:] == [self.number])


def sentence(key, **words):
    """The sentence of this key with these words in their places."""
    with open(TABLE, encoding="utf-8") as file:
        text = json.load(file)[key]
    return re.sub(r"\{([a-z]+)\}", lambda found: str(words.get(found.group(1), "")), text)


def of_book(data, mode, *more):
    """The lines that tools/book.awk writes of a text."""
    given = [word for name in (f"table={TABLE}", f"mode={mode}", *more) for word in ("-v", name)]
    scripts = [word for path in SCRIPTS for word in ("-f", path)]
    done = subprocess.run(
        ["awk", *given, *scripts], input=data, stdout=subprocess.PIPE, stderr=subprocess.DEVNULL, env={**os.environ, "LC_ALL": "C"}, check=False
    )
    return done.stdout.decode("utf-8", "replace").split("\n")[:-1]


class Quote:
    """A quote that hides records or is never closed, or a text of several lines, which hides none."""

    def __init__(self, line, column, hides, sentence):
        self.line, self.column, self.hides, self.sentence = line, column, hides, sentence


def quotes_of(data, comma=","):
    """The quotes of a text that run over several lines, or to its end."""
    if b'"' not in data:
        return []
    found = [line.split(" ", 3) for line in of_book(data, "quotes", f"comma={comma}")]
    return [Quote(int(line), int(column), hides == "1", said) for line, column, hides, said in found]


def faults_of(data):
    """Each fault of a text. What the program says first is among them."""
    if len(data) > 1 << 20:
        return [Fault(0, 1, 0, 1, 1, sentence("book 1"))]
    if data.startswith(b"PK\3\4"):
        return [Fault(0, 2, 0, 1, 1, sentence("book 2 sheet"))]
    try:
        data.decode("utf-8")
    except UnicodeDecodeError as error:
        before = data[: error.start].replace(b"\r\n", b"\n").replace(b"\r", b"\n")
        line, column = before.count(b"\n") + 1, len(before) - before.rfind(b"\n")
        said = "book 3 utf16" if data[:2] in (b"\xff\xfe", b"\xfe\xff") else "book 2"
        return [Fault(0, 2, 0, line, column, sentence(said))]
    if data[:2] in (b"b\0", b"\0b"):
        return [Fault(1, 3, 0, 1, 1, sentence("book 3 utf16"))]
    found = [line.split(" ", 5) for line in of_book(data, "faults")]
    return [Fault(*map(int, numbers), said) for *numbers, said in found]


def tell_quotes(data, comma=",", name=None, behind=0):
    """Says these quotes on standard error, and gives them. So many lines stand before the text."""
    found = quotes_of(data, comma)
    tool = os.path.basename(sys.argv[0])
    for quote in found:
        print(f"{tool}: {name + ', ' if name else ''}line {quote.line + behind}, column {quote.column}: {quote.sentence}", file=sys.stderr)
    return found
