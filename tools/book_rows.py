"""The records of a book with their lines, and the lines of a report with the records that they speak of. docs/BOOK-FORMAT.md and
docs/CHECKING.md have both texts."""

import csv
import io
import os
import sys

from faults import Fault, faults_of, quotes_of, sentence, tell_quotes
from program import Refused, run

# The fields of each record behind its first one.
FIELDS = {
    "book": ("NAME", "FIRST", "LAST", "FORM"),
    "code": ("CODE", "TEXT"),
    "supplement": ("ID", "RANK", "CODE", "RULE", "FROM", "UNTIL"),
    "construct": ("ID", "CODE", "RULE", "FROM", "UNTIL"),
    "group": ("ID", "GROUPKIND", "CODES", "FROM", "UNTIL"),
    "module": ("ID", "TEXT"),
    "position": ("ID", "MODULE", "KIND", "FROM", "UNTIL"),
    "variant": ("ID", "POSITION", "PART", "QUANTITY", "RULE", "FROM", "UNTIL"),
}
BLOCKING = {"void", "ambiguous", "uncovered"}


class Record:
    """One record: its place from 1, the line on which it begins, and its fields."""

    def __init__(self, row, line, fields):
        self.row, self.line, self.fields = row, line, fields

    @property
    def kind(self):
        return self.fields[0]

    def get(self, name):
        """The field of this name, empty where the record is short."""
        at = FIELDS[self.kind].index(name) + 1
        return self.fields[at] if at < len(self.fields) else ""

    def text(self):
        """The record as one line."""
        out = io.StringIO()
        csv.writer(out, lineterminator="").writerow(self.fields)
        return out.getvalue()


def read_records(text, delimiter=","):
    """The records of a text, as the program reads them: empty lines are none, and an open quote runs to the end."""
    csv.field_size_limit(1 << 30)
    reader = csv.reader(io.StringIO(text, newline=""), delimiter=delimiter)
    found, line = [], 1
    for fields in reader:
        if fields:
            found.append(Record(len(found) + 1, line, fields))
        line = reader.line_num + 1
    return found


class Finding:
    """A line of a report: its days, what kind of question it answers, about which names, and the codes of a car that shows it."""

    def __init__(self, days, words):
        self.first, self.last = days
        self.after = None
        if words[0] == "undecided":
            self.after = int(words[-1])
            words = words[1:-2]
        at = words.index("with") if "with" in words else len(words)
        self.kind, self.names, self.car = words[0], words[1:at], words[at + 1 :] if at < len(words) else None

    @property
    def blocks(self):
        return self.kind in BLOCKING

    @property
    def question(self):
        return " ".join([self.kind, *self.names])


def faults_told(said, text):
    """The faults of a text, of which the program has told one in this line: that one comes first, and there is none that it doesn't
    tell in some way."""
    words = said.split(" ")
    if words[:2] == ["book", "fault"]:
        found = faults_of(text)
        return sorted(found, key=lambda fault: not fault.is_told(words)) if any(fault.is_told(words) for fault in found) else []
    if words[:2] == ["limit", "slices"]:
        return [Fault(0, 0, 0, 1, 1, sentence("limit slices", word=words[2]))]
    if words[:2] == ["limit", "questions"]:
        return [Fault(0, 0, 0, 1, 1, sentence("limit questions", slice=words[2], word=words[3]))]
    return []


def tell_fault(said, day, *texts):
    """Says on standard error what the fault in this line is, and where, of the first of these texts that has it."""
    words = said.split(" ")
    told = [f"line {fault.line}, column {fault.column}: {fault.sentence}" for fault in next(filter(None, (faults_told(said, text) for text in texts)), [])]
    if words[:2] == ["day", "outside"]:
        told = [sentence("day outside", word=day, book=words[2])]
    for sentence_told in told:
        print(f"{os.path.basename(sys.argv[0])}: {sentence_told}", file=sys.stderr)


class Report:
    """What `check` says of a book: slices with their findings, or a fault. Quotes that hide records are told on standard error."""

    def __init__(self, text, options=(), name=None, quiet=False):
        self.status, said = run(["check", *options], text)
        lines = said.decode("utf-8", "replace").splitlines()
        self.text, self.fault, self.slices, self.verdict, self.book, self.faults = said, None, [], None, None, []
        self.quotes = quotes_of(text) if quiet else tell_quotes(text, name=name)
        if self.status not in (0, 1, 7):
            self.fault = lines[0] if lines else f"the program ended with {self.status}"
            self.faults = faults_told(self.fault, text)
            if self.status == 2:
                raise Refused(f"the program doesn't know these options: {' '.join(options)}")
            return
        self.records = read_records(text.decode("utf-8-sig"))
        self.of_name = {}
        for record in self.records:
            self.of_name.setdefault((record.kind, record.fields[1]), record)
        for line in lines:
            words = line.split(" ")
            if words[0] == "book":
                self.book = words[1], int(words[2]), int(words[3])
            elif words[0] == "slice":
                self.slices.append(((int(words[1]), int(words[2])), []))
            elif words[0] == "end":
                self.verdict = words[1]
            else:
                self.slices[-1][1].append(Finding(self.slices[-1][0], words))

    def findings(self):
        return [finding for _, found in self.slices for finding in found]

    def records_of(self, finding):
        """The records that a finding names: a code, a variant with its position, or a position with its variants."""
        if finding.kind in ("necessary", "inadmissible"):
            keys = [("code", finding.names[0])]
        elif finding.kind == "superfluous":
            variant = self.of_name["variant", finding.names[0]]
            return [self.of_name["position", variant.get("POSITION")], variant]
        elif finding.kind in ("ambiguous", "uncovered"):
            keys = [("position", finding.names[0])] + [("variant", name) for name in finding.names[1:]]
        else:
            keys = []
        return [self.of_name[key] for key in keys]

    def text_of(self, code):
        return self.of_name["code", code].get("TEXT")

    def named(self, code):
        """A code with its text."""
        text = self.text_of(code)
        return f"{code} ({text})" if text else code

    def sentence(self, finding):
        """What a finding says, in words."""
        names = finding.names
        if finding.after is not None:
            return f"whether {self.sentence_of(finding.kind, names, asked=True)} was left undecided after {finding.after} clauses"
        return self.sentence_of(finding.kind, names, asked=False)

    def sentence_of(self, kind, names, asked):
        if kind == "void":
            return "no car can be ordered"
        if kind == "necessary":
            return f"every car has {self.named(names[0])}"
        if kind == "inadmissible":
            return f"no car has {self.named(names[0])}"
        if kind == "superfluous":
            variant = self.of_name["variant", names[0]]
            return f"no car takes {names[0]} (part {variant.get('PART')}) at {variant.get('POSITION')}"
        car = "some car" if asked else "this car"
        if kind == "ambiguous":
            parts = [self.of_name["variant", name].get("PART") for name in names[1:]]
            return f"{car} takes two parts at {names[0]}: {parts[0]} by {names[1]} and {parts[1]} by {names[2]}"
        return f"{car} takes no part at {names[0]}, which is mandatory"


def as_text(data):
    """The text of a book that can be shown; a fault of its encoding is the program's to say."""
    return data.decode("utf-8-sig", "replace")
