#!/usr/bin/env python3
"""Reads what a run of the gate takes, crate by crate, from /proc, once a second.

    tests/gate-minutes.py LOG COMMAND [WORD..]   runs the command (rt ci --anew, say), and ends as it does
    tests/gate-minutes.py LOG --of PID           reads a run that is under way, until it ends

LOG gets a line for each crate and kind of work, separated by tabs: crate, kind, processor seconds, and the most memory that a
process of it held, in MB. The kinds are proof, tests (their proof), wrong (wrong bodies, with the checks that they begin with),
compiled (a proved program, by two compilers) and run (programs and tests). The last line is the whole run: its seconds by the
clock and the number of processors. What ends within a second may be missed. tests/gate-table makes the table of it.
"""

import os
import subprocess
import sys
import time

TICKS = os.sysconf("SC_CLK_TCK")


def processes():
    """Returns each process: its number, with the time at which it began, its parent, and its ticks with those of the children that it has waited for."""
    found = {}
    for name in os.listdir("/proc"):
        if name.isdigit():
            try:
                with open(f"/proc/{name}/stat", encoding="utf-8", errors="replace") as it:
                    said = it.read().rpartition(")")[2].split()
            except OSError:
                continue
            found[int(name)] = (int(name), said[19]), int(said[1]), sum(map(int, said[11:15]))
    return found


def work_of(process):
    """Returns the crate and the kind of work that a process is there for, or None."""
    try:
        with open(f"/proc/{process}/cmdline", "rb") as it:
            words = it.read().decode(errors="replace").split("\0")
        folder = os.readlink(f"/proc/{process}/cwd")
    except OSError:
        return None
    program = next((it for it in words if "/rt-run-" in it and "/bin/" in it), None)
    if program and "/rt-run-" in folder:
        return os.path.basename(program).removesuffix("_tests"), "run"
    if os.path.basename(words[0]) != "rattle" or "--crate-name" not in words[:-1]:
        return None
    kind = "wrong" if "/rt-edit-" in folder else "compiled" if "--crate-checked" in words else "tests" if "--test" in words else "proof"
    return words[words.index("--crate-name") + 1], kind


def memory_of(process):
    """Returns the most memory that a process has held, in MB."""
    try:
        with open(f"/proc/{process}/status", encoding="utf-8", errors="replace") as it:
            return next((int(line.split()[1]) // 1024 for line in it if line.startswith("VmHWM:")), 0)
    except OSError:
        return 0


def look(root, seen):
    """Adds what the processes below root have used by now: seen has, by the first process of a piece of work, what it is, its ticks and its memory."""
    found, below = processes(), {}
    for process, (_, parent, _) in found.items():
        below.setdefault(parent, []).append(process)
    left = [(it, None) for it in below.get(root, [])]
    now = {}
    while left:
        process, first = left.pop()
        key, _, ticks = found[process]
        if first is None:
            work = seen[key][0] if key in seen else work_of(process)
            first = (key, work) if work else None
        if first:
            had = now.get(first, (0, 0))
            now[first] = had[0] + ticks, max(had[1], memory_of(process))
        left += [(it, first) for it in below.get(process, [])]
    for (key, work), (ticks, memory) in now.items():
        _, most, held = seen.get(key, (work, 0, 0))
        seen[key] = work, max(most, ticks), max(held, memory)


def write(log, seen, seconds):
    of = {}
    for work, ticks, memory in seen.values():
        had = of.get(work, (0, 0))
        of[work] = had[0] + ticks, max(had[1], memory)
    lines = [f"{crate}\t{kind}\t{ticks / TICKS:.1f}\t{memory}\n" for (crate, kind), (ticks, memory) in sorted(of.items())]
    with open(f"{log}.new", "w", encoding="utf-8") as it:
        it.writelines([*lines, f"all\trun\t{seconds:.0f}\t{len(os.sched_getaffinity(0))}\n"])
    os.replace(f"{log}.new", log)


def main(words):
    if len(words) < 2 or words[1] == "--of" and not (len(words) == 3 and words[2].isdigit()):
        sys.exit(__doc__)
    log, seen, begun = words[0], {}, time.monotonic()
    started = None if words[1] == "--of" else subprocess.Popen(words[1:])
    root = started.pid if started else int(words[2])
    while os.path.exists(f"/proc/{root}") and (not started or started.poll() is None):
        look(root, seen)
        write(log, seen, time.monotonic() - begun)
        time.sleep(1)
    return started.returncode if started else 0


if __name__ == "__main__":
    sys.exit(main(sys.argv[1:]))
