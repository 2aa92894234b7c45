"""Where the built program is, and how a tool runs it. Nothing of these tools is proved: each answer rests on the program, whose
commands are, and on the few lines that read what it said."""

import os
import shutil
import subprocess
import sys
import tempfile

TOP = os.path.dirname(os.path.dirname(os.path.realpath(__file__)))
# The environment of a program that a tool runs: a setting for large checks, as the launcher has it.
TUNED = {**os.environ, "GLIBC_TUNABLES": "glibc.malloc.mmap_threshold=131072"}
# What a program is run under so that it ends with the tool, where the system has it.
UNDER = ["setpriv", "--pdeathsig", "TERM"] if shutil.which("setpriv") else []


class Refused(Exception):
    """What a tool says to its user in place of a result."""


def is_program(path):
    """Whether a file can be run and is no script: a tool that took the launcher for the program would start it without end."""
    if not (os.path.isfile(path) and os.access(path, os.X_OK)):
        return False
    with open(path, "rb") as file:
        return file.read(2) != b"#!"


def find_program(named=None):
    """The program that is named here or in the environment, or else that of an archive, of a clone, or of a folder which has the
    program and the tools side by side."""
    named = named or os.environ.get("PARTSBOOK_PROGRAM")
    if named:
        if not os.path.isfile(named):
            raise Refused(f"there is no program {named}: ./build makes it")
        if not is_program(named):
            raise Refused(f"{named} is a script, or can't be run, and is not the program")
        return os.path.abspath(named)
    places = [os.path.join(TOP, "libexec", "partsbook"), os.path.join(TOP, "crates", "partsbook", "out", "partsbook")]
    # In a clone the file beside the tools is the launcher.
    if not os.path.isdir(os.path.join(TOP, "crates")):
        places.append(os.path.join(TOP, "partsbook"))
    for place in places:
        if is_program(place):
            return place
    raise Refused("there is no program: ./build makes it")


def run(words, text=b""):
    """The status of the program with these words, and what it wrote. Where the tool is ended the program ends with it."""
    called = [*UNDER, find_program(), *words]
    done = subprocess.run(called, input=text, stdout=subprocess.PIPE, env=TUNED, check=False)
    return done.returncode, done.stdout


def start_desk(store):
    """Starts a desk over a store and ends it at once: the full test of a store. Its status, and what it said."""
    status, said = run(["desk", store])
    return status, said.decode("utf-8", "replace").strip()


def has_open(process, wanted):
    """Whether a process has this file open."""
    for name in os.listdir(f"/proc/{process}/fd"):
        try:
            at = os.stat(f"/proc/{process}/fd/{name}")
        except OSError:
            continue
        if (at.st_dev, at.st_ino) == (wanted.st_dev, wanted.st_ino):
            return True
    return False


def is_desk_of(process, words, wanted):
    """Whether a process is a desk whose words name this store: a journal isn't open all the time."""
    for word, store in zip(words, words[1:]):
        if word in ("desk", "serve", "rejudge", "impact") and "partsbook" in words[0]:
            at = os.stat(os.path.join(f"/proc/{process}/cwd", store))
            return (at.st_dev, at.st_ino) == (wanted.st_dev, wanted.st_ino)
    return False


def holders_of(path):
    """The processes that have a store, this one not among them, with their words."""
    try:
        wanted = os.stat(path)
    except OSError:
        return []
    found = []
    for process in filter(str.isdigit, os.listdir("/proc")):
        if int(process) == os.getpid():
            continue
        try:
            with open(f"/proc/{process}/cmdline", "rb") as file:
                words = file.read().decode("utf-8", "replace").split("\0")
            if is_desk_of(process, words, wanted) or has_open(process, wanted):
                found.append((int(process), " ".join(words).strip()))
        except OSError:
            continue
    return found


def refuse_held(path):
    """Refuses a store that some process has open."""
    for process, words in holders_of(path):
        raise Refused(f"process {process} has {path} ({words}): end it first")


def sync_folder(path):
    """So that a name that was made in this folder outlives a loss of power."""
    folder = os.open(os.path.dirname(os.path.abspath(path)), os.O_RDONLY)
    try:
        os.fsync(folder)
    finally:
        os.close(folder)


def new_file(path, fill):
    """Makes a file of this name that wasn't there, filled by a call with another name in the same folder; the name comes last."""
    if os.path.lexists(path):
        raise Refused(f"{path} is there already")
    folder, name = os.path.split(os.path.abspath(path))
    if not os.path.isdir(folder):
        raise Refused(f"there is no folder {folder}")
    with tempfile.TemporaryDirectory(prefix=".making-", dir=folder) as place:
        made = os.path.join(place, name)
        fill(made)
        with open(made, "rb") as file:
            os.fsync(file.fileno())
        os.link(made, path)
    sync_folder(path)


def tool(main):
    """Runs a tool: a refusal is one line on standard error and status 1, and wrong words the usage and 2."""
    try:
        sys.exit(main(sys.argv[1:]))
    except Refused as refused:
        print(f"{os.path.basename(sys.argv[0])}: {refused}", file=sys.stderr)
        sys.exit(1)
    except BrokenPipeError:
        os.dup2(os.open(os.devnull, os.O_WRONLY), 1)
        sys.exit(1)
    except OSError as error:
        print(f"{os.path.basename(sys.argv[0])}: {error}", file=sys.stderr)
        sys.exit(1)
