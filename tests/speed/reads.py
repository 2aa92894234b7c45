#!/usr/bin/env python3
"""Reads of a large book beside orders that a disk keeps: whether one keeps the other waiting.

    tests/speed/reads.py [--seconds N] [--place FOLDER] [PROGRAM [CODES SLICES GROUPS]]

A service of four workers over a journal in FOLDER, which should be on a disk, has the book of examples/engine.csv and a
generated one (draw_book.py; 1,000 codes without the words). One dealer places orders by the first, one after the other, and two readers ask for the same thing all the time: nothing; a
kept order; the large book's text; its certificate. For each: orders in a second, the median and the longest wait for one, and reads in
a second, with their megabytes. Then the same without orders. It needs the built program and ends by itself.
"""

import argparse
import http.client
import os
import pathlib
import socket
import statistics
import subprocess
import sys
import tempfile
import threading
import time

sys.dont_write_bytecode = True
HERE = pathlib.Path(__file__).resolve().parent
sys.path.insert(0, str(HERE.parent))
from trial import built
from desk_stream import PROGRAM, example
from service import CODES, PATIENCE, Service, must

WORKERS, READERS = 4, 2
READ = {"nothing": None, "a kept order": "/orders/1", "the book's text": "/books/2", "its certificate": "/books/2/certificate"}


def linked(service):
    link = http.client.HTTPConnection("127.0.0.1", service.port, timeout=PATIENCE)
    link.sock = service.connect()
    # What is asked goes out at once.
    link.sock.setsockopt(socket.IPPROTO_TCP, socket.TCP_NODELAY, 1)
    return link


def ask(link, method, path, body=None):
    link.request(method, path, body, {"X-Caller": "ANNA"})
    answer = link.getresponse()
    return answer.status, answer.read()


def deal(service, numbers, until, waits):
    link = linked(service)
    while time.time() < until:
        sent = time.time()
        status, said = ask(link, "PUT", f"/orders/{next(numbers)}", CODES)
        must("an order is kept", status == 201, status, said)
        waits.append(time.time() - sent)
    link.close()


def read(service, path, until, counts):
    link = linked(service)
    while time.time() < until:
        status, said = ask(link, "GET", path)
        must("a read", status == 200, status, said[:100])
        counts.append(len(said))
    link.close()


def measure(service, numbers, path, with_orders, seconds):
    until, waits, counts = time.time() + seconds, [], []
    threads = [threading.Thread(target=deal, args=(service, numbers, until, waits))] * with_orders
    threads += [threading.Thread(target=read, args=(service, path, until, counts)) for _ in range(READERS if path else 0)]
    for thread in threads:
        thread.start()
    for thread in threads:
        thread.join()
    orders = f"{len(waits) / seconds:.0f} orders a second, {1000 * statistics.median(waits):.1f} ms, at most {1000 * max(waits):.0f}" if waits else "no orders"
    reads = f"{len(counts) / seconds:.0f} reads a second, {sum(counts) / seconds / 1e6:.0f} MB" if counts else "no reads"
    return f"{orders}; {reads}"


def main():
    reader = argparse.ArgumentParser()
    reader.add_argument("--seconds", type=int, default=5)
    reader.add_argument("--place")
    reader.add_argument("program", nargs="?", default=PROGRAM, type=built)
    reader.add_argument("drawn", nargs="*", type=int, default=[1000, 26, 125])
    given = reader.parse_args()
    drawn = [sys.executable, HERE / "draw_book.py", *map(str, (*given.drawn, 1))]
    text = subprocess.run(drawn, stdout=subprocess.PIPE, check=True).stdout
    with tempfile.TemporaryDirectory(dir=given.place) as folder:
        with Service(given.program, os.path.join(folder, "desk.journal"), WORKERS, 1_000) as service:
            link = linked(service)
            for draft, book in (("T", example("engine.csv")), ("L", text)):
                must("a draft", ask(link, "PUT", f"/drafts/{draft}", book)[0] == 201)
                status, said = ask(link, "POST", f"/drafts/{draft}/release", b'{"revision":1}')
                must("a book", status == 201, status, said[-200:])
            link.close()
            numbers = iter(range(1, 10_000_000))
            for with_orders in (1, 0):
                for what, path in READ.items():
                    if path or with_orders:
                        told = measure(service, numbers, path, with_orders, given.seconds)
                        print(f"{what}{'' if with_orders else ', without orders'}: {told}", flush=True)
    return 0


if __name__ == "__main__":
    sys.exit(main())
