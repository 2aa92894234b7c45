"""Colours of what a tool writes to a terminal, where NO_COLOR is unset or empty."""

import os
import sys

CODES = {"stop": "31", "note": "33", "ok": "32", "place": "1"}


def painted(text, kind, file=None):
    """The text in the colour of this kind, if it goes to a terminal."""
    file = file or sys.stdout
    if os.environ.get("NO_COLOR") or os.environ.get("TERM") == "dumb" or not file.isatty():
        return text
    return f"\033[{CODES[kind]}m{text}\033[0m"
