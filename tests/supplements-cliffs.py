#!/usr/bin/env python3
"""Draws three lawful books over which `supplements` once took far more than `check`, and measures both.

    tests/supplements-cliffs.py [PROGRAM]

PROGRAM is crates/partsbook/out/partsbook without the word. The books are: 10,000 rules of 27 codes each that one code touches, and
256 supplementing rules that add it (0.8 MB); 5,000 supplementing rules that add one code, and 10,000 rules of it; 200 and 200 rules
over 18 codes of which each of the first makes each of the second false (23 kB). The first two are to take at most twice the memory
and three times the time of `check`, the third at most 3 seconds. Times are those of the processor.

It isn't part of the gate. It needs the built program and python3. The status is 1 where a book takes more."""

import os
import resource
import subprocess
import sys
import tempfile

from trial import built

MEMORY = 12 * 2 ** 30


def long_rules():
    """Each rule of K asks for one of 27 codes."""
    letters = list("ABCDEFGHIJLMNOPQRSTUVWXYZ")
    codes = letters + ["B" + letter for letter in letters[:15]]
    rows = ["book,LONG,1,10"] + ["code,%s," % code for code in ["K"] + codes]
    for n in range(256):
        rows.append("supplement,S%d,%d,K,%s,," % (n, n + 1, codes[n % 40]))
    for n in range(10_000):
        asked = "/".join(codes[(n + k) % 40] for k in range(27))
        rows.append("construct,R%d,K,%s,," % (n, asked))
    return rows


def one_code():
    rows = ["book,ONE,1,10", "code,K,", "code,A,"]
    rows += ["supplement,S%d,%d,K,A,," % (n, n + 1) for n in range(5_000)]
    rows += ["construct,R%d,K,A,," % n for n in range(10_000)]
    return rows


def pairs():
    """Each of the first rules adds a code without which those of the second fire. A set of 18 codes tells two rules apart."""
    rows = ["book,PAIRS,1,10"] + ["code,%s," % code for code in ["X", "Y"] + ["B%d" % bit for bit in range(16)]]
    for n in range(200):
        first = "+".join(("" if n >> bit & 1 else "-") + "B%d" % bit for bit in range(8))
        second = "+".join(("" if n >> bit & 1 else "-") + "B%d" % (bit + 8) for bit in range(8))
        rows.append("supplement,F%d,%d,X,%s+-Y,," % (n, n + 1, first))
        rows.append("supplement,G%d,%d,Y,%s+-X,," % (n, n + 301, second))
    return rows


def run(program, words, book):
    """The status, the seconds of processor and the most megabytes that a run takes."""
    with tempfile.TemporaryFile() as out, open(book, "rb") as text:
        child = subprocess.Popen(
            [program, *words], stdin=text, stdout=out,
            preexec_fn=lambda: resource.setrlimit(resource.RLIMIT_AS, (MEMORY, MEMORY)),
        )
        _, status, use = os.wait4(child.pid, 0)
        child.returncode = os.waitstatus_to_exitcode(status)
    return child.returncode, use.ru_utime + use.ru_stime, use.ru_maxrss / 1024


def main():
    program = built(sys.argv[1] if len(sys.argv) > 1 else None)
    passed = True
    print("book bytes check-status check-s check-MB supplements-status supplements-s supplements-MB wanted")
    for name, rows, limit in [("long", long_rules(), None), ("one", one_code(), None), ("pairs", pairs(), 3.0)]:
        with tempfile.NamedTemporaryFile("w", suffix=".csv", delete=False) as file:
            file.write("\n".join(rows) + "\n")
        size = os.path.getsize(file.name)
        status, seconds, memory = run(program, ["check"], file.name)
        own_status, own_seconds, own_memory = run(program, ["supplements"], file.name)
        os.unlink(file.name)
        if limit is None:
            met = own_seconds <= 3 * seconds + 0.1 and own_memory <= 2 * memory + 4
        else:
            met = own_seconds <= limit
        passed = passed and met and own_status in (0, 1)
        print(name, size, status, "%.2f" % seconds, "%.0f" % memory, own_status, "%.2f" % own_seconds, "%.0f" % own_memory,
              "met" if met else "not met", flush=True)
    return 0 if passed else 1


if __name__ == "__main__":
    sys.exit(main())
