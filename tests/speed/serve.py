#!/usr/bin/env python3
"""Measures a service, `partsbook serve`, and beside it another program that takes the same words and requests, if one is named.

    serve.py [--seconds N] [--runs N] [--place FOLDER] [--only SUBJECT] PROGRAM [OTHER]

reads    requests in a second by wrk, for 1, 2 and 4 workers with a connection each: of a draft's owner, and of a kept order.
workers  the reads of a kept order that 1, 2 and 4 workers answer in a second, each to a connection that sends sixteen ahead, so that
         the callers take little of the processors: over the book of examples/engine.csv, and over that of examples/tarn.csv. A
         run of a service has 1,000,000 steps, so SECONDS should be 1.
links    the same with a connection for each request, one worker.
orders   durable orders in a second, of one client and of eight, at a store in FOLDER, which should be on a disk.
counted  instructions of a read, of a repeated order and of a new order, by valgrind's callgrind: a run with 200 of them and one
         with 700, over one link; the difference, divided.

Of the first four the programs take turns, RUNS times each (5), and the median counts; where other work goes on, trust the ratio
and the processor time more than the rate. The stores of all but `orders` are in memory (/dev/shm). It needs wrk and valgrind.
"""

import argparse
import os
import pathlib
import re
import statistics
import subprocess
import sys
import tempfile
import time

sys.path.insert(0, str(pathlib.Path(__file__).resolve().parents[1]))
from trial import built
from desk_stream import request, work_place
from service import CODES, Service, at_once

PATHS = {"owner": "/drafts/T/owner", "order": "/orders/1"}
# A book's file, the name of its draft, and an order that it accepts.
ENGINE = ("examples/engine.csv", "T", CODES)
TARN = ("examples/tarn.csv", "TARN27", b'{"book":1,"day":60,"codes":["LIFE","MDE","P20","AWD","TOW","NAV","CGY"]}')
# What tells wrk to send sixteen requests at once.
AHEAD = """
local sixteen
init = function() sixteen = string.rep(wrk.format(), 16) end
request = function() return sixteen end
"""
# Else a cleared byte counts as an instruction, which the machine doesn't take.
CLEARED = {**os.environ, "GLIBC_TUNABLES": "glibc.cpu.x86_rep_stosb_threshold=100000000"}


def begun(program, folder, workers, links, setting=ENGINE):
    """A service with a book and an order."""
    file, draft, order = setting
    service = Service(program, os.path.join(folder, "desk.db"), workers, links)
    with service.client() as client:
        for method, path, caller, body in (
            ("PUT", f"/drafts/{draft}", "ANNA", pathlib.Path(file).read_bytes()),
            ("POST", f"/drafts/{draft}/release", "ANNA", b'{"revision":1}'), ("PUT", "/orders/1", "HALL1", order),
        ):
            assert client.ask(method, path, caller, body)[0] == 201
    return service


def by_wrk(program, workers, path, seconds, more=(), setting=ENGINE):
    """Requests in a second, and the microseconds of the processor that one takes."""
    with (
        tempfile.TemporaryDirectory(dir=work_place()) as folder, begun(program, folder, workers, 1_000_000, setting) as service,
    ):
        threads = "1" if workers == 1 else "2"
        before = service.ticks()
        done = subprocess.run(
            ["wrk", f"-t{threads}", f"-c{workers}", f"-d{seconds}s", "-H", "X-Caller: HALL1", *more]
            + [f"http://127.0.0.1:{service.port}{path}"], capture_output=True, text=True, check=True,
        )
        ticks = service.ticks() - before
        # Where a link ends behind each response, a program that doesn't say so leaves wrk with an error of reading.
        assert not re.search("Non-2xx" if more else "Non-2xx|Socket errors", done.stdout), done.stdout
        count = int(re.search(r"(\d+) requests in", done.stdout)[1])
        return float(re.search(r"Requests/sec: +(\S+)", done.stdout)[1]), ticks * 10_000 / count


def by_workers(programs, runs, seconds):
    """How reads grow with the workers that answer them."""
    with tempfile.NamedTemporaryFile("w", suffix=".lua") as script:
        script.write(AHEAD)
        script.flush()
        for setting in (ENGINE, TARN):
            one = None
            for workers in (1, 2, 4):
                medians = by_turns(
                    lambda program: by_wrk(program, workers, PATHS["order"], seconds, ("-s", script.name), setting), programs, runs
                )
                tell(f"sent ahead, {setting[0]}, workers {workers}", medians, programs)
                one = one or medians
                print("    times one worker:", *(f"{medians[program][0] / one[program][0]:.2f}" for program in programs))


def by_orders(program, clients, seconds, place):
    """Durable orders in a second."""
    with tempfile.TemporaryDirectory(dir=place) as folder, begun(program, folder, clients, 2 * clients) as service:
        until = time.time() + seconds

        def work(caller):
            number = 1
            with service.client() as client:
                while time.time() < until:
                    number += 1
                    assert client.place(number, CODES, caller)[0] == 201
            return number - 1

        before = service.ticks()
        counts = at_once([lambda caller=f"HALL{place}": work(caller) for place in range(2, clients + 2)])
        return sum(counts) / seconds, (service.ticks() - before) * 10_000 / sum(counts)


def by_turns(measured, programs, runs):
    """The medians of what each program gives, which take turns."""
    gave = {program: [] for program in programs}
    for _ in range(runs):
        for program in programs:
            gave[program].append(measured(program))
    return {program: [statistics.median(column) for column in zip(*rows)] for program, rows in gave.items()}


def tell(what, medians, programs):
    first = medians[programs[0]]
    line = f"{what}: {first[0]:.0f} a second, {first[1]:.1f} us of the processor"
    for other in programs[1:]:
        rate, took = medians[other]
        line += f" | other {rate:.0f}, {took:.1f} us: rate x{first[0] / rate:.2f}, processor time x{first[1] / took:.2f}"
    print(line, flush=True)
    return first


def instructions(program, message, count):
    with tempfile.TemporaryDirectory(dir=work_place()) as folder:
        store, out = os.path.join(folder, "desk.db"), os.path.join(folder, "callgrind.out")
        under = ["valgrind", "--tool=callgrind", f"--callgrind-out-file={out}"]
        with Service(program, store, 1, 1, settings=CLEARED, under=under) as service:
            stream = [
                request("PUT", "/drafts/T", "ANNA", pathlib.Path("examples/engine.csv").read_bytes()),
                request("POST", "/drafts/T/release", "ANNA", b'{"revision":1}'), request("PUT", "/orders/1", "HALL1", CODES),
            ]
            stream += [message(number) for number in range(2, count + 2)]
            with service.connect() as link:
                for part in stream:
                    link.sendall(part)
                    heard = b""
                    while not heard.endswith(b"\n"):
                        heard += link.recv(65536)
            _, _, said = service.ended()
    return int(re.search(r"Collected : (\d+)", said)[1])


def main():
    reader = argparse.ArgumentParser()
    reader.add_argument("--seconds", type=int, default=3)
    reader.add_argument("--runs", type=int, default=5)
    reader.add_argument("--place")
    reader.add_argument("--only")
    reader.add_argument("programs", nargs="+", type=built)
    given = reader.parse_args()
    programs = given.programs
    os.chdir(pathlib.Path(__file__).resolve().parents[2])
    wanted = [given.only] if given.only else ["reads", "workers", "links", "orders", "counted"]
    if "reads" in wanted:
        for name, path in PATHS.items():
            for workers in (1, 2, 4):
                medians = by_turns(lambda program: by_wrk(program, workers, path, given.seconds), programs, given.runs)
                tell(f"{name}, workers {workers}", medians, programs)
    if "workers" in wanted:
        by_workers(programs, given.runs, given.seconds)
    if "links" in wanted:
        close = ("-H", "Connection: close")
        medians = by_turns(lambda program: by_wrk(program, 1, PATHS["owner"], given.seconds, close), programs, given.runs)
        tell("a link for each read", medians, programs)
    if "orders" in wanted:
        for clients in (1, 8):
            medians = by_turns(lambda program: by_orders(program, clients, given.seconds, given.place), programs, given.runs)
            tell(f"durable orders, clients {clients}", medians, programs)
    if "counted" in wanted:
        kinds = {
            "a read of an owner": lambda number: request("GET", "/drafts/T/owner", "HALL1"),
            "a read of an order": lambda number: request("GET", "/orders/1", "HALL1"),
            "a repeated order": lambda number: request("PUT", "/orders/1", "HALL1", CODES),
            "a new order": lambda number: request("PUT", f"/orders/{number}", "HALL1", CODES),
        }
        for name, message in kinds.items():
            counts = [
                (instructions(program, message, 700) - instructions(program, message, 200)) // 500
                for program in programs
            ]
            ratio = f" | other {counts[1]}: x{counts[0] / counts[1]:.2f}" if len(counts) > 1 else ""
            print(f"{name}: {counts[0]} instructions{ratio}", flush=True)


if __name__ == "__main__":
    main()
