"""The shipped proxy (examples/service/haproxy.cfg) as trials start it: the file as it is, with ports, a certificate and limits of their
own by its variables of the environment (those that its lines with `presetenv` name)."""

import contextlib
import os
import pathlib
import shlex
import ssl
import subprocess
import time

from trial import TOP
from service import PATIENCE, Broken, free_port

CONFIGURATION = TOP / "examples" / "service" / "haproxy.cfg"
# What no honest trial of many orders from one address should meet.
UNLIMITED = {"DESK_CONNECTIONS": "500", "DESK_ADDRESS_REQUESTS": "1000000", "DESK_REQUESTS": "1000000", "DESK_ORDERS": "1000000"}


def unit_words():
    """The words that the shipped unit starts."""
    with open(CONFIGURATION.parent / "partsbook.service") as file:
        return next(shlex.split(line.partition("=")[2]) for line in file if line.startswith("ExecStart="))


def make_certificate(path):
    """A certificate with its key, as docs/SERVING.md makes it."""
    words = ["openssl", "req", "-x509", "-newkey", "rsa:2048", "-nodes", "-days", "30", "-subj", "/CN=localhost", "-addext", "subjectAltName=DNS:localhost"]
    subprocess.run([*words, "-keyout", path, "-out", path], check=True, stderr=subprocess.DEVNULL)


class Proxy:
    """HAProxy before a service at this port, until the end of a `with`. `settings` are further variables."""

    def __init__(self, folder, service_port, configuration=CONFIGURATION, **settings):
        self.pem = pathlib.Path(folder, "desk.pem")
        if not self.pem.exists():
            make_certificate(self.pem)
        self.port, self.plain_port = free_port(), free_port()
        own = {
            "DESK_BY_HAND": "1",
            "DESK_SITE": f"localhost:{self.port}",
            "DESK_HTTPS": f"127.0.0.1:{self.port}",
            "DESK_HTTP": f"127.0.0.1:{self.plain_port}",
            "DESK_AT": f"127.0.0.1:{service_port}",
            "DESK_PEM": str(self.pem),
        }
        self.settings = {**os.environ, **own, **settings}
        if not self.settings["DESK_BY_HAND"]:
            del self.settings["DESK_BY_HAND"]
        self.process = subprocess.Popen(["haproxy", "-db", "-q", "-f", configuration], stdin=subprocess.DEVNULL, stderr=subprocess.DEVNULL, env=self.settings)
        self.trust = ssl.create_default_context(cafile=self.pem)
        self.wait()

    def wait(self):
        """Waits until it listens."""
        until = time.time() + PATIENCE
        place = "%08X:%04X" % (0x0100007F, self.port)
        while time.time() < until:
            if self.process.poll() is not None:
                raise Broken("the proxy goes on", self.process.poll())
            with contextlib.suppress(OSError), open("/proc/net/tcp") as lines:
                if any(line.split()[1] == place and line.split()[3] == "0A" for line in lines):
                    return
            time.sleep(0.02)
        raise Broken("the proxy listens")

    def __enter__(self):
        return self

    def __exit__(self, *_):
        self.stop()

    def stop(self):
        self.process.kill()
        self.process.wait()
