"""What scripts that try a service have in common: `partsbook serve` as it runs, its clients, and what a store has behind it.

Nothing here waits for ever: each wait ends by a time after which the service is killed and the script says what it waited for."""

import contextlib
import http.client
import importlib.util
import itertools
import os
import random
import socket
import subprocess
import threading
import time

from desk_stream import TOP, NotWhole, example, rows_left

# Seconds after which something that should come by itself counts as not coming. The machine may be busy with other work.
PATIENCE = 120
CODES = b'{"book":1,"day":1,"codes":["M1"]}'
ACCEPTED = "accepted\ncodes M1 G5\nMOT,P1,A100,1\n"


class Broken(Exception):
    """Something that must hold doesn't."""


class Gone(Broken):
    """The service, or what it had to answer, doesn't come any more."""


def must(what, holds, *seen):
    if not holds:
        raise Broken(what, *seen)


# Ports that the system gives to no connection by itself, each tried once in a while.
PORTS = itertools.count(random.randrange(12_000))


def free_port():
    """A port that nobody has."""
    while True:
        port = 20_000 + next(PORTS) % 12_000
        # It isn't listened at: a process that is made meanwhile has the socket too, and would take a connection.
        with contextlib.suppress(OSError), socket.socket() as place:
            place.setsockopt(socket.SOL_SOCKET, socket.SO_REUSEADDR, 1)
            place.bind(("127.0.0.1", port))
            return port


class Service:
    """A service at a free port of this machine."""

    def __init__(self, program, store, workers, links, port=None, settings=None, under=()):
        self.port = port or free_port()
        self.words = [*under, program, "serve", store, str(self.port), str(workers), str(links)]
        self.process = subprocess.Popen(
            self.words, stdin=subprocess.DEVNULL, stdout=subprocess.PIPE, stderr=subprocess.PIPE, env=settings
        )

    def __enter__(self):
        return self

    def __exit__(self, *_):
        self.kill()

    def connect(self):
        """A connection, when the service listens."""
        until = time.time() + PATIENCE
        while time.time() < until:
            try:
                return socket.create_connection(("127.0.0.1", self.port), timeout=PATIENCE)
            except OSError:
                if self.process.poll() is not None:
                    raise Gone("the service goes on", self.words, self.process.poll())
                time.sleep(0.002)
        raise Broken("the service listens", self.words)

    def wait(self):
        """Waits until it listens, without taking a link."""
        place = "%08X:%04X" % (0x0100007F, self.port)
        until = time.time() + PATIENCE
        while time.time() < until:
            with open("/proc/net/tcp") as lines:
                if any(line.split()[1] == place and line.split()[3] == "0A" for line in lines):
                    return
            if self.process.poll() is not None:
                raise Gone("the service goes on", self.words, self.process.poll())
            time.sleep(0.01)
        raise Broken("the service listens", self.words)

    def client(self):
        return Client(self)

    def ended(self):
        """Its status, the line that it wrote and what it said on standard error, when its links have been."""
        try:
            out, said = self.process.communicate(timeout=PATIENCE)
        except subprocess.TimeoutExpired:
            self.process.kill()
            raise Broken("the service ends when its links have been", self.words)
        return self.process.returncode, out.decode(), said.decode()

    def use_up(self):
        """Takes the links that are left, says nothing on them, and waits for the end."""
        until = time.time() + PATIENCE
        while self.process.poll() is None:
            must("the service ends when its links have been", time.time() < until, self.words)
            with contextlib.suppress(OSError):
                socket.create_connection(("127.0.0.1", self.port), timeout=1).close()
            time.sleep(0.001)
        return self.ended()

    def kill(self):
        if self.process.poll() is None:
            self.process.kill()
        self.process.communicate()

    def ticks(self):
        """The processor time that it has taken, in hundredths of a second."""
        with open(f"/proc/{self.process.pid}/stat") as file:
            fields = file.read().rpartition(")")[2].split()
        return (int(fields[11]) + int(fields[12])) * 100 // os.sysconf("SC_CLK_TCK")


class Client:
    """One who speaks to a service over a connection that is kept."""

    def __init__(self, service):
        self.link = http.client.HTTPConnection("127.0.0.1", service.port, timeout=PATIENCE)
        self.link.sock = service.connect()
        self.link.sock.setsockopt(socket.IPPROTO_TCP, socket.TCP_NODELAY, 1)
        # Without this it would make a new connection by itself, and so take a link more.
        self.link.auto_open = 0

    def ask(self, method, path, caller, body=None):
        """The status and the body of the response."""
        try:
            self.link.request(method, path, body, {"X-Caller": caller})
            response = self.link.getresponse()
            return response.status, response.read().decode()
        except (OSError, http.client.HTTPException) as said:
            raise Gone("an answer", method, path, caller, said)

    def place(self, number, codes=CODES, caller="HALL1"):
        return self.ask("PUT", f"/orders/{number}", caller, codes)

    def release(self):
        """Puts the book of examples/engine.csv and releases it, if nobody has yet."""
        if self.ask("GET", "/books/1", "ANNA")[0] == 404:
            must("a draft", self.ask("PUT", "/drafts/T", "ANNA", example("engine.csv"))[0] in (200, 201))
            revision = self.ask("GET", "/drafts/T/owner", "ANNA")[1].split()[-1]
            body = b'{"revision":%s}' % revision.encode()
            must("a book", self.ask("POST", "/drafts/T/release", "ANNA", body) == (201, "book 1\n"))

    def close(self):
        self.link.close()

    def __enter__(self):
        return self

    def __exit__(self, *_):
        self.close()


def kept_orders(store):
    """The orders that a store has, by caller and number: book, day and codes."""
    if not os.path.exists(store):
        return {}
    if store.endswith(".journal"):
        with open(store, "rb") as file:
            form, tables = journal_rows(file.read())
        must("a journal", form in (0, 2), form)
        rows = [[field.decode() if isinstance(field, bytes) else field for field in row] for row in tables["order"].values()]
    else:
        rows = rows_left(store).get("orders", [])
    return {(caller, number): tuple(rest) for caller, number, *rest in rows}


def journal_rows(data):
    spec = importlib.util.spec_from_file_location("journal_rows", os.path.join(TOP, "tests", "journal-rows.py"))
    module = importlib.util.module_from_spec(spec)
    spec.loader.exec_module(module)
    return module.rows(data)


def at_once(works):
    """Does these works in a thread each, and gives what they gave. What one of them raises is raised when all have ended."""
    gave, raised = [None] * len(works), []

    def do(place):
        try:
            gave[place] = works[place]()
        except Exception as said:
            raised.append(said)

    threads = [threading.Thread(target=do, args=(place,)) for place in range(len(works))]
    for thread in threads:
        thread.start()
    for thread in threads:
        thread.join()
    if raised:
        raise raised[0]
    return gave


def try_subjects(subjects, given):
    """Tries those that were named, or all, and says of each what came out. 1 where something is broken."""
    failed = 0
    for name in given.subject or subjects:
        begun = time.time()
        try:
            told = subjects[name](given.program, given)
            print(f"{name}: {told} ({time.time() - begun:.0f} s)", flush=True)
        except (Broken, NotWhole, subprocess.TimeoutExpired) as said:
            failed = 1
            print(f"{name}: broken: {said!r}", flush=True)
    return failed
