#!/usr/bin/env python3
"""What released books cost a service in memory, and what their withdrawal gives back.

    tests/speed/memory.py [BOOKS [CODES SLICES GROUPS]..]

For each generated book (draw_book.py), without words those of 400, 1,000 and 2,000 codes: a service with one worker and a journal;
the book is put and released BOOKS times, 5 without the word, each time as a further book. After each release the memory that the
service has (VmRSS) and had at most meanwhile (VmHWM) are read; then all books are withdrawn; then the service is started again over
the same store. It needs crates/partsbook/out/partsbook, or the program that PARTSBOOK_PROGRAM names. Memory is in MB of 1,000,000
bytes, beside the certificate of one book. docs/OPERATING.md and the unit's MemoryMax have what came out.
"""

import http.client
import json
import os
import pathlib
import socket
import subprocess
import sys
import tempfile
import time

sys.dont_write_bytecode = True
HERE = pathlib.Path(__file__).resolve().parent
sys.path.insert(0, str(HERE.parent))
from trial import built

BOOKS = [(400, 26, 50), (1000, 26, 125), (2000, 26, 250)]


class Service:
    def __init__(self, store):
        with socket.socket() as it:
            it.bind(("127.0.0.1", 0))
            self.port = it.getsockname()[1]
        begun = time.monotonic()
        words = [built(), "serve", store, str(self.port), "1", "100000"]
        self.process = subprocess.Popen(words, stdin=subprocess.DEVNULL, stdout=subprocess.DEVNULL)
        while self.listening() != 0:
            if time.monotonic() - begun > 1800 or self.process.poll() is not None:
                raise SystemExit("the service doesn't listen")
            time.sleep(0.1)

    def listening(self):
        with socket.socket() as it:
            return it.connect_ex(("127.0.0.1", self.port))

    def ask(self, method, path, body=b""):
        link = http.client.HTTPConnection("127.0.0.1", self.port, timeout=1800)
        link.request(method, path, body or None, {"X-Caller": "ANNA", "Connection": "close", "Content-Length": str(len(body))})
        answer = link.getresponse()
        said = answer.read()
        if answer.status not in (200, 201):
            raise SystemExit(f"{method} {path}: {answer.status} {said[:200]}")
        return said

    def memory(self):
        """What it has, and what it had at most since this was asked last."""
        place = pathlib.Path(f"/proc/{self.process.pid}")
        lines = dict(line.split(":", 1) for line in (place / "status").read_text().splitlines())
        (place / "clear_refs").write_text("5")
        return tuple(int(lines[name].split()[0]) * 1024 / 1e6 for name in ("VmRSS", "VmHWM"))

    def end(self):
        self.process.kill()
        self.process.wait()


def measure(count, codes, slices, groups):
    drawn = [sys.executable, HERE / "draw_book.py", *map(str, (codes, slices, groups, 1))]
    text = subprocess.run(drawn, stdout=subprocess.PIPE, check=True).stdout
    with tempfile.TemporaryDirectory() as place:
        store = os.path.join(place, "desk.journal")
        service = Service(store)
        empty, _ = service.memory()
        rows = []
        for number in range(1, count + 1):
            revision = int(service.ask("PUT", "/drafts/D", text).split()[2])
            service.ask("POST", "/drafts/D/release", json.dumps({"revision": revision}).encode())
            rows.append(service.memory())
        cert = len(service.ask("GET", "/books/1/certificate")) / 1e6
        has, _ = service.memory()
        for number in range(1, count + 1):
            service.ask("POST", f"/books/{number}/withdraw")
        left, _ = service.memory()
        service.end()
        service = Service(store)
        again = service.memory()
        service.end()
    slope = (rows[-1][0] - rows[1][0]) / (count - 2) if count > 2 else 0
    most = max(high - rows[at - 1][0] if at else high for at, (_, high) in enumerate(rows))
    print(f"{codes} codes, {slices} slices: text {len(text) / 1e6:.2f}, certificate {cert:.1f}; empty {empty:.0f}; after each release "
          f"{' '.join(f'{it:.0f}' for it, _ in rows)} (at most {' '.join(f'{it:.0f}' for _, it in rows)}); "
          f"a further book {slope:.1f}, {slope / cert:.1f} times its certificate; a release beside that {most:.0f}, {most / cert:.1f} times; "
          f"withdrawn {has:.0f} -> {left:.0f}; started again {again[0]:.0f}, at most {again[1]:.0f}", flush=True)


def main(words):
    count = int(words[0]) if words else 5
    books = [tuple(map(int, words[at : at + 3])) for at in range(1, len(words), 3)] or BOOKS
    for book in books:
        measure(count, *book)
    return 0


if __name__ == "__main__":
    sys.exit(main(sys.argv[1:]))
