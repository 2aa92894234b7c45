#!/usr/bin/env python3
"""Ends a stream at each of its bytes: the requests of docs/HTTP.md, as curl sends them, come one behind the other, and of this
stream a desk gets each front, from none of its bytes to all of them, over a new store.

    tests/cut-streams.py [--jobs N] [PROGRAM]

PROGRAM is crates/partsbook/out/partsbook without the word. The requests that are whole in the front are answered as in the whole
stream, byte by byte, and have left the rows that they leave by themselves; of the one that is cut nothing is done. Behind them
comes nothing where the front ends behind a request (status 0) or in a body (status 3), the 100 of a cut body that waits for it,
and `bad request` where the front ends in a head (status 3). Behind the page's requests one stands that waits for a 100.

It isn't part of the gate. It needs the built program, curl and python3. The status is 1 where a front is answered otherwise."""

import argparse
import concurrent.futures
import os
import shlex
import socket
import subprocess
import sys
import tempfile
import time

from trial import built
from desk_stream import PROGRAM, TOP, rows_of, request, split_messages, work_place

CONTINUE = b"HTTP/1.1 100 Continue\r\n\r\n"
BAD = b"HTTP/1.1 400 Bad Request\r\nContent-Type: text/plain\r\nContent-Length: 12\r\nConnection: close\r\n\r\nbad request\n"


def page_commands():
    """The lines of docs/HTTP.md that call curl."""
    with open(os.path.join(TOP, "docs", "HTTP.md")) as page:
        return [shlex.split(line[2:]) for line in page if line.startswith("$ curl ")]


def record(commands):
    """What curl sends for these commands, one request each."""
    heard = []
    with socket.create_server(("127.0.0.1", 0)) as door:
        place = "localhost:%d" % door.getsockname()[1]
        for command in commands:
            words = [word.replace("localhost:8080", place) for word in command]
            curl = subprocess.Popen(
                [words[0], "--ipv4", "--silent", *words[1:]], cwd=TOP, stdout=subprocess.DEVNULL
            )
            link, _ = door.accept()
            with link:
                heard.append(hear(link).replace(place.encode(), b"localhost:8080"))
                link.sendall(b"HTTP/1.1 200 OK\r\nContent-Length: 0\r\nConnection: close\r\n\r\n")
            curl.wait()
    return heard


def hear(link):
    """One request."""
    bytes_heard = b""
    while True:
        bytes_heard += link.recv(65536)
        head, ended, body = bytes_heard.partition(b"\r\n\r\n")
        fields = dict(line.lower().split(b": ", 1) for line in head.split(b"\r\n")[1:] if b": " in line)
        if ended and len(body) >= int(fields.get(b"content-length", 0)):
            return bytes_heard


class Fronts:
    """The fronts of a stream, and what a desk makes of each."""

    def __init__(self, program, messages):
        self.program, self.messages = program, messages
        self.whole = b"".join(messages)
        status, out, _ = self.run(self.whole)
        self.answers = split_messages(out)
        if status != 0 or len(self.answers) != len(messages):
            raise SystemExit(f"cut-streams: the whole stream ends with {status}")
        self.rows = [self.run(b"".join(messages[:count]))[2] for count in range(len(messages) + 1)]

    def run(self, front):
        with tempfile.TemporaryDirectory(dir=work_place()) as folder:
            store = os.path.join(folder, "desk.db")
            done = subprocess.run([self.program, "desk", store], input=front, capture_output=True)
            return done.returncode, done.stdout + done.stderr, rows_of(store)

    def wanted(self, length):
        """Status, answers and rows for the front of so many bytes."""
        count, begun = 0, 0
        while count < len(self.messages) and begun + len(self.messages[count]) <= length:
            begun += len(self.messages[count])
            count += 1
        answers, rows = b"".join(self.answers[:count]), self.rows[count]
        cut = self.whole[begun:length]
        if not cut:
            return 0, answers, rows
        if b"\r\n\r\n" not in cut:
            return 3, answers + BAD, rows
        return 3, answers + (CONTINUE if b"Expect: 100-continue" in cut else b""), rows

    def is_right(self, length):
        return self.run(self.whole[:length]) == self.wanted(length)


def main():
    reader = argparse.ArgumentParser(usage="tests/cut-streams.py [--jobs N] [PROGRAM]")
    reader.add_argument("--jobs", type=int, default=1)
    reader.add_argument("program", nargs="?", default=PROGRAM, type=built)
    given = reader.parse_args()
    begun = time.time()
    messages = record(page_commands())
    messages.append(request("PUT", "/drafts/U", "ANNA", b"book,U,1,10\n", "Expect: 100-continue\r\n"))
    fronts = Fronts(given.program, messages)
    lengths = range(len(fronts.whole) + 1)
    with concurrent.futures.ThreadPoolExecutor(given.jobs) as pool:
        wrong = [length for length, right in zip(lengths, pool.map(fronts.is_right, lengths)) if not right]
    print(f"{len(messages)} requests, {len(lengths)} fronts, {len(wrong)} wrong, {time.time() - begun:.0f} s")
    for length in wrong[:10]:
        print(f"wrong at {length}:\n    wanted {fronts.wanted(length)}\n    found {fronts.run(fronts.whole[:length])}")
    return 1 if wrong else 0


if __name__ == "__main__":
    sys.exit(main())
