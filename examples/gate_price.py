#!/usr/bin/env python3
"""Measures what a CI run costs for each crate: CPU seconds of its proofs, its tests and its mutation tests.

    gate_price.py watch FILE [PID]   records the CPU time of all running provers in FILE, until it is stopped; with the
                                     process id of a CI run, only of the provers that it started
    gate_price.py table FILE         prints the totals of FILE as lines for tools/gate_prices.txt

It looks at the processes twice a second. A process that ends is counted up to the last look. For the whole cost, watch a
CI run that proves everything: the first one on a machine, or `rt ci --anew`.
"""
import collections
import json
import os
import re
import sys
import time

TOP = os.path.dirname(os.path.dirname(os.path.abspath(__file__)))
# The prover, and the parts of the cost.
PROVER = "/opt/rattle/bin/rattle"
KINDS = ("proofs", "tests", "edits")
TICKS = os.sysconf("SC_CLK_TCK")
# The directories in which mutation tests run.
EDIT = re.compile(r"/rt-edit-")


def kind_of(words, folder):
    """Returns the part of the cost for a prover with these arguments in this directory, or None for other processes."""
    if len(words) < 2 or words[0] != PROVER or words[1] not in ("build", "check"):
        return None
    if EDIT.search(folder):
        return "edits"
    return "tests" if "--test" in words else "proofs"


def status_of(pid):
    """Returns the fields of /proc/PID/stat after the name of the process. The second one is its parent."""
    with open(f"/proc/{pid}/stat", encoding="ascii", errors="replace") as it:
        return it.read().rpartition(")")[2].split()


def is_below(pid, gate):
    """Returns whether a process descends from the CI run `gate`; True if `gate` is None."""
    while gate and pid != gate:
        if pid in ("0", "1"):
            return False
        pid = status_of(pid)[1]
    return True


def look(gate):
    """Returns the provers of a CI run that run now, by process and start: the crate, the part, the CPU seconds so far."""
    found = {}
    for pid in filter(str.isdigit, os.listdir("/proc")):
        try:
            with open(f"/proc/{pid}/cmdline", "rb") as it:
                words = it.read().decode(errors="replace").split("\0")
            kind = kind_of(words, os.readlink(f"/proc/{pid}/cwd"))
            if not kind or "--crate-name" not in words or not is_below(pid, gate):
                continue
            fields = status_of(pid)
        except OSError:
            continue
        # (user and system time of the process without its children, which are recorded themselves)
        seconds = sum(int(it) for it in fields[11:13]) / TICKS
        found[f"{pid}.{fields[19]}"] = [words[words.index("--crate-name") + 1], kind, seconds]
    return found


def watch(file, gate=None):
    noted = {}
    if os.path.exists(file):
        with open(file, encoding="utf-8") as it:
            noted = json.load(it)
    while True:
        noted.update(look(gate))
        with open(f"{file}.new", "w", encoding="utf-8") as it:
            json.dump(noted, it)
        os.replace(f"{file}.new", file)
        time.sleep(0.5)


def crates():
    """Returns the crates in the order of crates.txt, lowest first."""
    with open(f"{TOP}/crates.txt", encoding="utf-8") as it:
        return [line.partition(":")[0].split()[0] for line in it if line.strip() and not line.startswith("#")]


def edits(crate):
    folder = f"{TOP}/crates/{crate}/must-fail"
    return len(os.listdir(folder)) if os.path.isdir(folder) else 0


def table(file):
    with open(file, encoding="utf-8") as it:
        noted = json.load(it)
    price = collections.defaultdict(lambda: dict.fromkeys(KINDS, 0.0))
    for crate, kind, seconds in noted.values():
        price[crate][kind] += seconds
    for name in crates():
        print(name, *(f"{price[name][kind]:.0f}" for kind in KINDS), edits(name))


def main():
    match sys.argv[1:]:
        case ["watch", file, *gate] if len(gate) < 2:
            watch(file, *gate)
        case ["table", file]:
            table(file)
        case _:
            sys.exit(__doc__)


main()
