#!/usr/bin/env python3
"""Tries the shipped proxy (examples/service/haproxy.cfg) before a service with callers who want to stop it or to get what they may not,
and looks whether another dealer's orders are answered meanwhile, each within two seconds.

    tests/hostile-proxy.py [--book "CODES SLICES GROUPS"] [PROGRAM [SUBJECT..]]

PROGRAM is crates/partsbook/out/partsbook without the word, and SUBJECT one of these. The service has the words of the shipped unit,
but its port, and its store in memory, so that the disk of a busy machine keeps nobody waiting. The proxy has the shipped file as it
is; its variables of the environment give it ports, a certificate made on the spot and a place for its log, and some subjects limits
that are reached sooner. Where root tries it, HAProxy becomes its own user in its empty folder, as under its unit. The large book is
drawn by tests/speed/draw_book.py. The callers come from addresses of their own, 127.0.0.2 and so on.

files      the proxy's files and the units pass `haproxy -c` and `systemd-analyze verify` without a warning.
half       a hundred requests of one address that have half a head and no password, and 700 connections on which nothing comes.
up         /up asked as fast as it goes, by a stranger and by the watch; both /up and /alive where the service is gone and comes back.
passwords  200 wrong passwords of one address, and then right ones.
questions  three sockets of one dealer who asks `free` and `why` of a large book with the largest budget, and with none.
slow       one who reads a certificate a few bytes a second, and one whose body comes so.
orders     one user who floods the desk with orders from thirty sockets; and one who orders more than a day allows.
paths      targets that a dealer may not name, and other ways to write them.
eyes       two pairs of eyes: who writes a draft doesn't release it.
told       what the log says was decided, the counts for a watch, and that who comes without TLS is sent to it.

It isn't part of the gate. It needs the built program, python3, haproxy, openssl and for `files` systemd-analyze, and ends by itself.
The status is 1 where something doesn't hold."""

import argparse
import base64
import contextlib
import http.client
import json
import os
import pathlib
import pwd
import select
import socket
import ssl
import subprocess
import sys
import tempfile
import threading
import time
import types

sys.path.insert(1, str(pathlib.Path(__file__).resolve().parent / "speed"))
from trial import TOP, built
from desk_stream import PROGRAM, example, work_place
from proxy import CONFIGURATION, Proxy, make_certificate, unit_words
from service import ACCEPTED, PATIENCE, Broken, Service, at_once, kept_orders, must, try_subjects
from draw_book import Drawn

# How long another dealer's order may take, in seconds.
SOON = 2
# How long the release of a large book may take.
LARGE_PATIENCE = 580
SECRETS = {"ANNA": "a-secret", "OTTO": "an-eye", "KIEL1": "another-secret", "OSLO1": "one-more-secret"}
WATCH, STRANGER, ATTACKER, HONEST = "127.0.0.1", "127.0.0.66", "127.0.0.5", "127.0.0.2"
ORDER = '{"book":1,"day":%d,"codes":["M1"]}'
SERVICE_FILES = TOP / "examples" / "service"


def password(name, secret=None):
    return "Basic " + base64.b64encode(f"{name}:{secret or SECRETS[name]}".encode()).decode()


class Caller:
    """One who asks through the proxy from an address, over a connection that is kept while the proxy keeps it."""

    def __init__(self, proxy, name, source=HONEST, secret=None, patience=PATIENCE):
        self.proxy, self.source, self.link, self.patience = proxy, source, None, patience
        self.fields = {} if name is None else {"Authorization": password(name, secret)}

    def ask(self, method, path, body=None):
        """The status and the body, or 0 where the connection ended without an answer."""
        for last in (False, True):
            fresh = self.link is None
            if fresh:
                self.link = http.client.HTTPSConnection("localhost", self.proxy.port, timeout=self.patience, context=self.proxy.trust, source_address=(self.source, 0))
            try:
                self.link.request(method, path, body, self.fields)
                answer = self.link.getresponse()
                said = answer.status, answer.read().decode()
                if answer.will_close:
                    self.close()
                return said
            except (OSError, http.client.HTTPException):
                self.close()
                # A connection that was kept may have ended meanwhile.
                if fresh or last:
                    return 0, ""

    def close(self):
        if self.link is not None:
            self.link.close()
        self.link = None

    def place(self, number):
        return self.ask("PUT", f"/orders/{number}", ORDER % (1 + number % 1000))


def tls(proxy, source, small=False):
    """A connection with TLS on which nothing was said yet, by a socket that takes little at a time where it is small."""
    plain = socket.socket()
    if small:
        plain.setsockopt(socket.SOL_SOCKET, socket.SO_RCVBUF, 4096)
    plain.settimeout(PATIENCE)
    plain.bind((source, 0))
    plain.connect(("127.0.0.1", proxy.port))
    return proxy.trust.wrap_socket(plain, server_hostname="localhost")


def is_open(link):
    """Whether the other side of a connection hasn't ended it."""
    link.settimeout(0.05)
    try:
        while link.recv(4096):
            pass
        return False
    except TimeoutError:
        return True
    except OSError:
        return False


def has_come(link):
    """Whether bytes have come on a connection with TLS."""
    return bool(link.pending() or select.select([link], [], [], 0)[0])


class Log:
    """The lines that the proxy logs."""

    def __init__(self):
        self.lines = []
        self.socket = socket.socket(socket.AF_INET, socket.SOCK_DGRAM)
        self.socket.bind(("127.0.0.1", 0))
        self.place = "127.0.0.1:%d" % self.socket.getsockname()[1]
        threading.Thread(target=self.read, daemon=True).start()

    def read(self):
        with contextlib.suppress(OSError):
            while True:
                self.lines.append(self.socket.recv(9000).decode().strip())

    def line(self, part):
        """A line with this part, when it has come."""
        until = time.time() + PATIENCE
        while time.time() < until:
            for line in list(self.lines):
                if part in line:
                    return line
            time.sleep(0.05)
        raise Broken("the log has a line", part, self.lines[-5:])


def has_own_user():
    """Whether HAProxy has its user and its folder here."""
    with contextlib.suppress(KeyError):
        return bool(pwd.getpwnam("haproxy")) and os.path.isdir("/var/lib/haproxy")
    return False


class Hall:
    """A service with a book, the shipped proxy before it, and a dealer who orders while something is tried at them."""

    def __init__(self, program, folder, **settings):
        self.folder, self.program, self.count, self.log = folder, program, 0, Log()
        _, _, store, _, self.workers, self.links = unit_words()
        self.store = os.path.join(folder, store)
        self.service = self.start()
        self.service.wait()
        self.by_hand = "" if os.getuid() == 0 and has_own_user() else "1"
        self.proxy = Proxy(folder, self.service.port, DESK_BY_HAND=self.by_hand, DESK_LOG=self.log.place, **settings)

    def release(self):
        """Makes the book of examples/engine.csv book 1."""
        anna = Caller(self.proxy, "ANNA")
        must("a draft", anna.ask("PUT", "/drafts/T", example("engine.csv")) == (201, "kept T 1\n"))
        must("a book", anna.ask("POST", "/drafts/T/release", '{"revision":1}') == (201, "book 1\n"))

    def start(self, port=None, links=None):
        settings = {**os.environ, "PARTSBOOK_COUNTS": "1"}
        return Service(self.program, self.store, self.workers, links or self.links, port, settings)

    def __enter__(self):
        return self

    def __exit__(self, *_):
        self.proxy.stop()
        self.service.kill()
        self.log.socket.close()

    def told(self):
        """The counts that the service said last before it is killed here."""
        time.sleep(1.5)
        self.service.process.kill()
        said = self.service.process.communicate()[1].decode().splitlines()
        counts = [line.split() for line in said if line.startswith("links ")]
        must("the service said its counts", counts, said)
        return dict(zip(counts[-1][::2], map(int, counts[-1][1::2])))

    def beside(self, trial):
        """Does the trial while another dealer orders. What it gave, and how the orders fared."""
        words = [sys.executable, __file__, "--deal", str(self.proxy.port), str(self.proxy.pem), str(self.count)]
        with subprocess.Popen(words, stdin=subprocess.PIPE, stdout=subprocess.PIPE, text=True) as dealer:
            try:
                must("a first order before it", dealer.stdout.readline() == "begun\n")
                gave = trial()
                said, _ = dealer.communicate("", timeout=PATIENCE)
            finally:
                dealer.kill()
        last, longest, wrong = json.loads(said)
        must("another dealer's orders are accepted", wrong is None, wrong)
        must("and answered soon", longest < SOON, longest)
        told = f"beside it {last - self.count} orders of another dealer, the longest {1000 * longest:.0f} ms"
        self.count = last
        return gave, told


def deal(port, pem, before):
    """What the other dealer does, in a process of his own, so that nobody who tries something keeps him from it here: he orders until
    his input ends, and three times at least, each time over a connection of its own. His last number, how long one took at most, and
    what was wrong."""
    dealer = Caller(types.SimpleNamespace(port=int(port), trust=ssl.create_default_context(cafile=pem)), "OSLO1")
    number, longest, wrong = int(before), 0, None
    while wrong is None:
        number += 1
        asked = time.time()
        answer = dealer.place(number)
        dealer.close()
        longest = max(longest, time.time() - asked)
        if answer != (201, ACCEPTED):
            wrong = [number, *answer]
        if number == int(before) + 1:
            print("begun", flush=True)
        if select.select([sys.stdin], [], [], 0.05)[0] and number >= int(before) + 3:
            break
    print(json.dumps([number, longest, wrong]))


def over(program, trial, **settings):
    with tempfile.TemporaryDirectory(dir=work_place()) as folder, Hall(program, folder, **settings) as hall:
        if "DESK_EYES" not in settings:
            hall.release()
        return trial(hall)


def try_files(_program, _given):
    """Both modes of haproxy.cfg, desks.cfg, and the units with their programs where they are here."""
    with tempfile.TemporaryDirectory() as folder:
        place = pathlib.Path(folder)
        make_certificate(place / "desk.pem")
        settings = {name: value for name, value in os.environ.items() if not name.startswith("DESK_")} | {"DESK_PEM": str(place / "desk.pem")}
        modes = [("haproxy.cfg", {"DESK_BY_HAND": "1"}), ("desks.cfg", {}), *([("haproxy.cfg", {})] if has_own_user() else [])]
        for name, more in modes:
            # -dW: a warning is an error.
            done = subprocess.run(["haproxy", "-c", "-dW", "-f", SERVICE_FILES / name], capture_output=True, text=True, check=False, env=settings | more, cwd=TOP)
            must("the proxy's file has no fault", done.returncode == 0 and "WARNING" not in done.stderr, name, more, done.stderr)
        units = sorted(SERVICE_FILES.glob("*.service"))
        for unit in units:
            text = unit.read_text()
            words = {"/usr/local/bin/partsbook": "/bin/true", "/usr/local/lib/partsbook/tools": str(TOP / "tools")}
            for was, becomes in words.items():
                text = text.replace(was, becomes)
            (place / unit.name).write_text(text)
        done = subprocess.run(["systemd-analyze", "verify", *[place / unit.name for unit in units]], capture_output=True, text=True, check=False)
        must("the units have no fault", done.returncode == 0 and not done.stdout + done.stderr, done.stdout, done.stderr)
        _, _, store, port, workers, _ = unit_words()
        text = CONFIGURATION.read_text()
        must("the unit's port is the proxy's", f"presetenv DESK_AT 127.0.0.1:{port}\n" in text and int(port) < 1024, port)
        servers = sum(int(line.split("maxconn")[1]) for line in text.splitlines() if '"${DESK_AT}" maxconn' in line)
        must("the unit's workers are one more than the proxy's servers have", int(workers) == servers + 1, workers, servers)
        must("the unit's store is a journal", store == "desk.journal", store)
    return f"{len(modes)} configurations and {len(units)} units without a warning; port {port}, {workers} workers"


def try_half(program, _given):
    def trial(hall):
        def halves():
            links, shut = [], 0
            for _ in range(100):
                try:
                    link = tls(hall.proxy, STRANGER)
                    link.sendall(b"PUT /orders/1 HTTP/1.1\r\nHost: desk\r\n")
                    links.append(link)
                except OSError:
                    shut += 1
            left = sum(map(is_open, links))
            most = int(hall.proxy.settings.get("DESK_CONNECTIONS", 60))
            must("an address has no more connections than the limit", left <= most and shut + len(links) - left >= 100 - most, left, shut)
            time.sleep(12)
            must("who says half a head is gone after ten seconds", not any(map(is_open, links)))
            for link in links:
                link.close()
            return left

        def silent():
            links = []
            for _ in range(700):
                link = socket.socket()
                link.settimeout(PATIENCE)
                link.bind((STRANGER, 0))
                with contextlib.suppress(OSError):
                    link.connect(("127.0.0.1", hall.proxy.port))
                links.append(link)
            time.sleep(3)
            left = sum(map(is_open, links))
            must("an address has no more connections than the limit", left <= int(hall.proxy.settings.get("DESK_CONNECTIONS", 60)), left)
            for link in links:
                link.close()
            return left

        left, first = hall.beside(halves)
        kept, second = hall.beside(silent)
        return f"of 100 half requests {left} were kept, for ten seconds; {first}. Of 700 silent connections {kept}; {second}"

    return over(program, trial)


def try_up(program, _given):
    def trial(hall):
        def flood(source, seconds):
            """How often /up was answered how, by eight who ask as fast as it goes."""
            counts = {}

            def ask():
                caller, until = Caller(hall.proxy, None, source), time.time() + seconds
                while time.time() < until:
                    said = caller.ask("GET", "/up")
                    key = (said[0], said[1] if said[0] in (200, 503) else "")
                    counts[key] = counts.get(key, 0) + 1

            at_once([ask] * 8)
            return counts

        (strangers, watch), beside = hall.beside(lambda: (flood(STRANGER, 5), flood(WATCH, 5)))
        must("a stranger isn't told", set(strangers) <= {(401, ""), (429, ""), (0, "")} and (429, "") in strangers, strangers)
        must("the watch is told, or asks too often", set(watch) <= {(200, "up"), (429, ""), (0, "")} and watch.get((200, "up"), 0) > 50, watch)
        before = hall.count
        counts = hall.told()
        asked = sum(strangers.values()) + sum(watch.values())
        must("the service isn't reached by them", counts["links"] < before + 60 and asked > 500, counts, before, asked)
        # The service is gone, and comes back.
        caller = Caller(hall.proxy, None, WATCH)

        def wait(path, wanted):
            until = time.time() + 30
            while (said := caller.ask("GET", path)) != wanted:
                must(f"{path} is {wanted}", time.time() < until, said)
                time.sleep(0.2)

        wait("/up", (503, "down"))
        wait("/alive", (503, "down"))
        hall.service = hall.start(hall.service.port)
        hall.service.wait()
        wait("/up", (200, "up"))
        wait("/alive", (200, "alive"))
        return f"{asked} were asked, of which {watch[200, 'up']} were told; the service was reached by {counts['links'] - before} links beside {before} orders; {beside}; gone and back were seen"

    return over(program, trial)


def try_passwords(program, _given):
    def trial(hall):
        def guess():
            counts = {}

            def ask(place):
                caller = Caller(hall.proxy, "KIEL1", ATTACKER, f"guess-{place}")
                status = caller.ask("GET", "/books")[0]
                counts[status] = counts.get(status, 0) + 1
                caller.close()

            for begin in range(0, 200, 8):
                at_once([lambda place=place: ask(place) for place in range(begin, begin + 8)])
            return counts

        counts, beside = hall.beside(guess)
        limit = int(hall.proxy.settings.get("DESK_WRONG", 20))
        must("so many are looked at, and no more", set(counts) == {401, 429} and limit <= counts[401] <= limit + 8 and counts[429] == 200 - counts[401], counts)
        must("nor is a right one from there", Caller(hall.proxy, "KIEL1", ATTACKER).ask("GET", "/books")[0] == 429)
        must("from elsewhere it is", Caller(hall.proxy, "KIEL1").ask("GET", "/books")[0] == 200)
        return f"of 200 wrong passwords {counts[401]} were looked at; {beside}"

    return over(program, trial)


def release_large(hall, given):
    """The number of a large book."""
    anna = Caller(hall.proxy, "ANNA", patience=LARGE_PATIENCE)
    must("a large draft", anna.ask("PUT", "/drafts/L", Drawn(*map(int, given.book.split())).text().encode()) == (201, "kept L 1\n"))
    status, said = anna.ask("POST", "/drafts/L/release", '{"revision":1}')
    must("a large book", status == 201, status, said)
    return int(said.split()[1])


def try_questions(program, given):
    def trial(hall):
        number = release_large(hall, given)

        def ask(body, seconds=10):
            counts = {}

            def one(word):
                caller, until = Caller(hall.proxy, "KIEL1", ATTACKER), time.time() + seconds
                while time.time() < until:
                    status = caller.ask("POST", f"/books/{number}/{word}", body)[0]
                    counts[status] = counts.get(status, 0) + 1

            at_once([lambda: one("free"), lambda: one("why"), lambda: one("free")])
            return counts

        largest, first = hall.beside(lambda: ask('{"day":1,"codes":[],"budget":50000}', 3))
        must("a dealer names no budget", set(largest) <= {403, 429} and largest[403] > 50, largest)
        # Until what was refused counts no longer among his requests.
        time.sleep(21)
        for body in ('{"day":1,"codes":[],"\\u0062udget":50000}', '{"day":1,"codes":[],"budget":1,"budget":50000}', '{"budget" : 50000,"day":1,"codes":[]}'):
            said = Caller(hall.proxy, "KIEL1").ask("POST", f"/books/{number}/free", body)
            must("nor in another way", said[0] in (400, 403), body, said)
        none, second = hall.beside(lambda: ask('{"day":1,"codes":[]}'))
        must("he is answered without one, as often as a user may ask", set(none) <= {200, 429} and none[200] > 10, none)
        anna = Caller(hall.proxy, "ANNA")
        (status, said), third = hall.beside(lambda: anna.ask("POST", f"/books/{number}/free", '{"day":1,"codes":[],"budget":50000}'))
        must("an engineer may name one", status == 200 and said.startswith("now "), status, said[:80])

        def many():
            return at_once([lambda: Caller(hall.proxy, "KIEL1", ATTACKER).ask("POST", f"/books/{number}/free", '{"day":1,"codes":[]}')[0] for _ in range(16)])

        said, fourth = hall.beside(many)
        must("sixteen at a time are too many of one dealer", set(said) == {200, 429}, said)
        return f"{largest[403]} with the largest budget were refused, {first}; {none[200]} without one were answered, {second}; an engineer's with it was, {third}; of sixteen at a time {said.count(429)} were refused, {fourth}"

    return over(program, trial)


def try_slow(program, given):
    def trial(hall):
        number = release_large(hall, given)
        size = 0

        def read_slowly():
            nonlocal size
            link = tls(hall.proxy, ATTACKER, small=True)
            fields = f"Host: localhost:{hall.proxy.port}\r\nAuthorization: {password('ANNA')}"
            link.sendall(f"GET /books/{number}/certificate HTTP/1.1\r\n{fields}\r\n\r\n".encode())
            head, until = b"", time.time() + PATIENCE
            while b"\r\n\r\n" not in head and time.time() < until:
                head += link.recv(64)
            must("the certificate is begun", head.startswith(b"HTTP/1.1 200"), head)
            size = int(head.lower().split(b"content-length:")[1].split(b"\r\n")[0])
            for _ in range(20):
                must("it goes on", link.recv(16) != b"")
                time.sleep(0.5)
            # Where the certificate is more than what the proxy keeps, another one waits for it: the worker of these alone is taken.
            other = Caller(hall.proxy, "OTTO", patience=5).ask("GET", f"/books/{number}/certificate")[0]
            return link, "another one waited" if other == 0 else "another one was had"

        (link, other), first = hall.beside(read_slowly)
        must("a dealer gets no certificate", Caller(hall.proxy, "KIEL1").ask("GET", f"/books/{number}/certificate")[0] == 403)
        link.close()
        whole = Caller(hall.proxy, "ANNA").ask("GET", f"/books/{number}/certificate")
        must("behind it the certificate is had whole", whole[0] == 200 and len(whole[1]) == size, whole[0], len(whole[1]), size)

        def send_slowly():
            link = tls(hall.proxy, ATTACKER)
            fields = f"Host: localhost:{hall.proxy.port}\r\nAuthorization: {password('KIEL1')}\r\nContent-Length: 1000"
            link.sendall(f"PUT /orders/1 HTTP/1.1\r\n{fields}\r\n\r\n".encode())
            begun = time.time()
            with contextlib.suppress(OSError):
                while time.time() < begun + PATIENCE and not has_come(link):
                    link.sendall(b"{")
                    time.sleep(0.5)
            answer = link.recv(64)
            must("a body that comes slowly is answered 408", answer.startswith(b"HTTP/1.1 408"), answer)
            return time.time() - begun

        took, second = hall.beside(send_slowly)
        return f"a certificate of {size} bytes was read slowly for ten seconds, and {other}, {first}; a slow body was given up after {took:.0f} s, {second}"

    return over(program, trial)


def try_orders(program, _given):
    def trial(hall):
        def flood():
            counts, number, lock = {}, [0], threading.Lock()

            def one():
                caller, until = Caller(hall.proxy, "KIEL1", ATTACKER), time.time() + 12
                while time.time() < until:
                    with lock:
                        number[0] += 1
                        mine = number[0]
                    status = caller.place(mine)[0]
                    with lock:
                        counts[status] = counts.get(status, 0) + 1

            at_once([one] * 30)
            return counts

        counts, beside = hall.beside(flood)
        must("some are kept, and the rest refused", set(counts) <= {201, 429, 0} and counts[201] and counts[429] > counts[201] // 2, counts)
        kept = sum(caller == "KIEL1" for caller, _ in kept_orders(hall.store))
        must("what was answered 201 is kept, and no more", kept == counts[201], kept, counts)
        return f"of {sum(counts.values())} orders of one user in 12 s {counts[201]} were kept, {counts[429]} refused, and the others had no connection; {beside}"

    def day(hall):
        caller = Caller(hall.proxy, "KIEL1")
        said = [caller.place(number)[0] for number in (1, 2, 2, 2, 3, 4, 4)]
        must("three in a day, one of them sent three times", said == [201, 201, 200, 200, 201, 429, 429], said)
        must("another user has his own", Caller(hall.proxy, "OSLO1").place(1)[0] == 201)
        must("what is kept can be read", caller.ask("GET", "/orders/2")[0] == 200)
        refused = Caller(hall.proxy, "OSLO1").ask("PUT", "/orders/9", '{"book":1,"day":1,"codes":["M2"]}')
        must("a refused one doesn't count", refused == (422, "refused C3\n"), refused)
        must("nor does it", [Caller(hall.proxy, "OSLO1").place(number)[0] for number in (2, 3, 4)] == [201, 201, 429])
        return "of three new orders a day the fourth was refused, and no repetition was counted"

    return f"{over(program, trial)}; {over(program, day, DESK_ORDERS='3')}"


# What a dealer may not name, and other ways to write it: method and target, where SITE is the name of the site.
DENIED = [
    ("GET", "/drafts/T"), ("PUT", "/drafts/T"), ("GET", "//drafts/T"), ("GET", "/%64rafts/T"), ("GET", "/books/../drafts/T"), ("GET", "/./drafts/T"),
    ("GET", "/drafts/T?/orders/1"), ("GET", "/orders/1/../../drafts/T"), ("GET", "/DRAFTS/T"), ("GET", "/drafts"), ("POST", "/drafts/T/check"),
    ("POST", "/drafts/T/release"), ("POST", "/drafts/T/owner"), ("GET", "/drafts/T/owner"), ("POST", "/books/1/withdraw"), ("POST", "/books/1/withdraw/"),
    ("POST", "//books/1/withdraw"), ("POST", "/books/1/withdraw?x=/free"), ("GET", "/books/1/certificate"), ("GET", "/books/1/certificate#/free"),
    ("GET", "http://SITE/drafts/T"), ("GET", "https://SITE/drafts/T"), ("GET", "https://localhost/drafts/T"), ("POST", "https://SITE/books/1/withdraw?/free"), ("GET", "http://a/b?http://localhost/orders/1"), ("GET", "http:///drafts/T"),
    ("GET", "*http:///drafts/T"), ("OPTIONS", "*"), ("GET", "drafts/T"), ("DELETE", "/orders/1"), ("POST", "/orders/1"), ("GET", "/orders/0"),
    ("GET", "/orders/1234567890"), ("GET", "/orders/1/"), ("GET", "/books/1/x"), ("GET", "/metrics"), ("GET", "/metrics/desk"), ("GET", "/up"),
    ("GET", "/alive"), ("GET", "/\\drafts/T"), ("GET", "/;/drafts/T"), ("CONNECT", "localhost:1"), ("PUT", "/books/1/free"), ("GET", "/books/1/free"),
]


def raw(hall, name, method, target, body=b"", more=""):
    """The status, the head and the body of the answer to a request with just this target."""
    link = tls(hall.proxy, HONEST)
    fields = f"Host: localhost:{hall.proxy.port}\r\nAuthorization: {password(name)}\r\nConnection: close\r\nContent-Length: {len(body)}{more}"
    target = target.replace("SITE", f"localhost:{hall.proxy.port}")
    link.sendall(f"{method} {target} HTTP/1.1\r\n{fields}\r\n\r\n".encode() + body)
    said = b""
    with contextlib.suppress(OSError):
        while piece := link.recv(65536):
            said += piece
    link.close()
    head, _, body = said.partition(b"\r\n\r\n")
    return int(head.split(b" ")[1]) if head.startswith(b"HTTP/1") else 0, head, body


def try_paths(program, _given):
    def trial(hall):
        book = example("engine.csv")

        def targets():
            for method, target in DENIED:
                status, _, body = raw(hall, "KIEL1", method, target)
                must("it is refused by the proxy", status in (400, 403) and book[:20] not in body, method, target, status, body[:100])
            return len(DENIED)

        count, beside = hall.beside(targets)
        for method, target, status in (("GET", "/books", 200), ("GET", "/books/1", 200), ("GET", "/books/1?x", 200), ("GET", "https://SITE/books/1", 200), ("GET", "/orders", 200),
                                       ("GET", "/orders/after/3", 200), ("GET", "/orders/999", 404), ("GET", "/who", 200), ("GET", "/", 200)):
            must("what dealers may is answered", raw(hall, "KIEL1", method, target)[0] == status, method, target)
        for target in ("/drafts/T", "/drafts/T?x", "https://SITE/drafts/T"):
            status, _, body = raw(hall, "ANNA", "GET", target)
            must("an engineer gets it", status == 200 and body == book, target, status)
        status, _, body = raw(hall, "KIEL1", "GET", "/who", more="\r\nX-Caller: ANNA")
        must("the caller is who gave the password", body == b"KIEL1 dealer", body)
        status, _, _ = raw(hall, "KIEL1", "PUT", "/orders/700", (ORDER % 1).encode(), "\r\nX-Caller: ANNA\r\nConnection: X-Caller")
        must("also of an order", status == 201 and ("KIEL1", 700) in kept_orders(hall.store), status)
        for body, wanted in ((b"x" * 65_537, 413), (b'{"book":1,"day":1,"codes":["\\u004d1"]}', 400)):
            must("a dealer's body is short and has no backslash", raw(hall, "KIEL1", "PUT", "/orders/701", body)[0] == wanted, wanted)
        return f"{count} targets were refused by the proxy; {beside}"

    return over(program, trial)


def try_eyes(program, _given):
    def trial(hall):
        anna, otto = Caller(hall.proxy, "ANNA"), Caller(hall.proxy, "OTTO")
        must("OTTO writes no draft", otto.ask("PUT", "/drafts/O", example("engine.csv"))[0] == 403)
        must("ANNA writes one", anna.ask("PUT", "/drafts/A", example("engine.csv")) == (201, "kept A 1\n"))
        must("she doesn't release it", anna.ask("POST", "/drafts/A/release", '{"revision":1}')[0] == 403)
        must("nor does he, while it is hers", otto.ask("POST", "/drafts/A/release", '{"revision":1}') == (403, "owner ANNA\n"))
        must("she gives it to him", anna.ask("POST", "/drafts/A/owner", '{"to":"OTTO"}') == (200, "given A OTTO\n"))
        must("and changes it no more", anna.ask("PUT", "/drafts/A", example("van.csv"))[0] == 403)
        must("he can't either", otto.ask("PUT", "/drafts/A", example("van.csv"))[0] == 403)
        must("he reads and releases it", otto.ask("GET", "/drafts/A")[0] == 200 and otto.ask("POST", "/drafts/A/release", '{"revision":1}') == (201, "book 1\n"))
        line = hall.log.line(" OTTO POST /drafts/A/release 201 ")
        must("the log says who released what as which book", line.endswith(' "book 1"'), line)
        return "a draft of one was released by the other alone"

    return over(program, trial, DESK_EYES="2")


def try_told(program, _given):
    def trial(hall):
        dealer, anna = Caller(hall.proxy, "KIEL1"), Caller(hall.proxy, "ANNA")
        asked = [
            (dealer, "PUT", "/orders/31", ORDER % 1, 201, ' 1 "accepted"'),
            (dealer, "PUT", "/orders/32", '{"book":1,"day":1,"codes":["M2"]}', 422, ' 1 "refused C3"'),
            (dealer, "PUT", "/orders/33", '{"book":7,"day":1,"codes":["M1"]}', 404, ' 7 "no such book"'),
            (dealer, "PUT", "/orders/31", ORDER % 2, 409, ' 1 "number used 1"'),
            (dealer, "PUT", "/orders/34", '{"book":1,"day":1,"codes":["M9"]}', 422, ' 1 "order fault 2 1"'),
            (dealer, "GET", "/orders/31", None, 200, ' - ""'),
            (dealer, "GET", "/drafts/T", None, 403, ' - ""'),
            (anna, "POST", "/drafts/T/check", "", 200, ' - ""'),
            (anna, "PUT", "/drafts/U", "text", 201, ' - "kept U 1"'),
            (anna, "POST", "/books/1/withdraw", "", 200, ' - "withdrawn 1"'),
            (dealer, "PUT", "/orders/35", ORDER % 1, 410, ' 1 "withdrawn 1"'),
        ]
        for caller, method, path, body, status, end in asked:
            said = caller.ask(method, path, body)
            must("the status", said[0] == status, method, path, said)
            name = "KIEL1" if caller is dealer else "ANNA"
            line = hall.log.line(f" {name} {method} {path} {status} ")
            must("the log says what was decided", line.endswith(end), line, end)
        must("the log has no password", not any(word in line for word in SECRETS.values() for line in hall.log.lines))
        watch, stranger = Caller(hall.proxy, None, WATCH), Caller(hall.proxy, None, STRANGER)
        status, text = watch.ask("GET", "/metrics")
        must("the proxy's counts", status == 200 and 'haproxy_backend_http_responses_total{proxy="orders",code="2xx"}' in text, status, text[:200])
        must("are the watch's alone", stranger.ask("GET", "/metrics")[0] == 401 and stranger.ask("GET", "/metrics/desk")[0] == 401)
        where = hall.proxy.settings["DESK_COUNTS_AT"].split(":")[1]
        words = [TOP / "tools" / "desk-counts", "--port", where, "--store", hall.store, os.path.join(hall.folder, "desk.prom")]
        counts = subprocess.Popen(words, stdin=hall.service.process.stderr, stderr=subprocess.DEVNULL)
        try:
            until = time.time() + 30
            while "partsbook_orders_total 1\n" not in (said := watch.ask("GET", "/metrics/desk"))[1]:
                must("the desk's counts come", time.time() < until, said)
                time.sleep(0.5)
        finally:
            counts.kill()
            counts.wait()
        must("with the size of the store", f"partsbook_store_bytes {os.path.getsize(hall.store)}\n" in said[1], said)
        plain = http.client.HTTPConnection("127.0.0.1", hall.proxy.plain_port, timeout=PATIENCE)
        plain.request("GET", "/books/1", headers={"Authorization": password("KIEL1")})
        answer = plain.getresponse()
        must("who comes without TLS is sent to it", (answer.status, answer.getheader("Location")) == (301, f"https://localhost:{hall.proxy.port}/books/1"), answer.status)
        answer.read()
        plain.request("PUT", "/orders/1", ORDER % 1)
        must("and nothing is taken from him", plain.getresponse().status == 403)
        plain.close()
        rights = "by hand"
        if not hall.by_hand:
            with open(f"/proc/{hall.proxy.process.pid}/status") as file:
                user = next(line.split()[2] for line in file if line.startswith("Uid:"))
            must("HAProxy has its own user and its own root", pwd.getpwuid(int(user)).pw_name == "haproxy" and os.readlink(f"/proc/{hall.proxy.process.pid}/root") == "/var/lib/haproxy", user)
            rights = "as user haproxy below /var/lib/haproxy"
        return f"{len(asked)} lines of the log say what was decided; counts of the proxy and of the desk; HAProxy ran {rights}"

    with socket.socket() as free:
        free.bind(("127.0.0.1", 0))
        port = free.getsockname()[1]
    return over(program, trial, DESK_COUNTS_AT=f"127.0.0.1:{port}")


def main():
    if sys.argv[1:2] == ["--deal"]:
        return deal(*sys.argv[2:])
    subjects = {
        "files": try_files, "half": try_half, "up": try_up, "passwords": try_passwords, "questions": try_questions, "slow": try_slow,
        "orders": try_orders, "paths": try_paths, "eyes": try_eyes, "told": try_told,
    }
    reader = argparse.ArgumentParser(usage="tests/hostile-proxy.py [--book 'CODES SLICES GROUPS'] [PROGRAM [SUBJECT..]]")
    reader.add_argument("--book", default="300 24 40")
    reader.add_argument("program", nargs="?", default=PROGRAM, type=built)
    reader.add_argument("subject", nargs="*")
    return try_subjects(subjects, reader.parse_args())


if __name__ == "__main__":
    sys.exit(main())
