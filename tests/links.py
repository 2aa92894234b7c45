#!/usr/bin/env python3
"""Looks whether what the texts cite is there: each page that is named, each heading of a page, each file of a link. And whether
README.md, docs/*.md and tools/help.txt have at most 30,000 words.

    tests/links.py

It reads every text that is in git, and what git would take. The status is 1 where something is cited that isn't there.
"""

import pathlib
import re
import subprocess
import sys

TOP = pathlib.Path(__file__).resolve().parent.parent
MOST_WORDS = 30000
# A page, and the headings that are cited of it: docs/HTTP.md, "Orders", "Books".
PAGE = re.compile(r'(?<![\w$/-])((?:[a-z_]+/)*[A-Za-z-]+\.md)((?:(?:,| and) "[^"]+")*)')
OWN = re.compile(r'"([^"]+)", (?:below|above)')
# The short names of pages in docs/ANSWERS.md.
SHORT = re.compile(r'(?<=: )([A-Z][A-Z-]+)(?=, "| |$)')
LINK = re.compile(r"\]\(([^)#:\s]+)\)")
# A line's end within a comment or a paragraph.
WRAP = re.compile(r"\n[ \t]*(?://[/!]?|#|--)?[ \t]*")
# Pages that a script makes, or a trial.
MADE = {"tests/WRONG-BODIES.md", "WRONG-BODIES.md", "first.md"}


def texts():
    """The names of all files with their texts, but those that are no text."""
    words = ["git", "ls-files", "-z", "--cached", "--others", "--exclude-standard"]
    names = subprocess.run(words, cwd=TOP, capture_output=True, check=True).stdout.decode().split("\0")
    for name in filter(None, names):
        path = TOP / name
        if path.is_file() and path.suffix not in (".png", ".svg", ".csv"):
            try:
                yield name, path.read_text()
            except UnicodeDecodeError:
                continue


def headings(path, known={}):
    """The headings of a page, whole and up to a comma, without marks of code."""
    if path not in known:
        lines = [line.lstrip("#").strip().replace("`", "") for line in path.read_text().splitlines() if line.startswith("#")]
        known[path] = set(lines) | {line.split(",")[0] for line in lines}
    return known[path]


def is_heading(part, path):
    return part.rstrip(",.").replace("`", "") in headings(path)


def page_of(name, cited):
    """The page that a file cites by this name: from the top, from docs/, or from its own folder."""
    return next((path for path in (TOP / cited, TOP / "docs" / cited, TOP / pathlib.Path(name).parent / cited) if path.is_file()), None)


def faults_of(name, text):
    flat = WRAP.sub(" ", text)
    if name == "docs/ANSWERS.md":
        flat = SHORT.sub(r"docs/\1.md", flat)
    for cited, parts in PAGE.findall(flat):
        page = page_of(name, cited)
        if page is None:
            if cited not in MADE:
                yield f"there is no {cited}"
            continue
        for part in re.findall(r'"([^"]+)"', parts):
            if not is_heading(part, page):
                yield f"{cited} has no heading {part}"
    if name.endswith(".md"):
        for part in OWN.findall(flat):
            if not is_heading(part, TOP / name):
                yield f"it has no heading {part}"
        for link in LINK.findall(text):
            if not (TOP / name).parent.joinpath(link).exists():
                yield f"there is no {link}"


def word_count():
    pages = [TOP / "README.md", *sorted((TOP / "docs").glob("*.md")), TOP / "tools" / "help.txt"]
    return sum(len(page.read_text().split()) for page in pages)


faults = [f"{name}: {fault}" for name, text in texts() for fault in faults_of(name, text)]
words = word_count()
if words > MOST_WORDS:
    faults.append(f"the pages have {words} words, and {MOST_WORDS} are enough")
print("\n".join(f"links: {fault}" for fault in faults) or f"links: each leads somewhere, and the pages have {words} words")
sys.exit(1 if faults else 0)
