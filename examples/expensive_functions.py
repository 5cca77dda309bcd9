#!/usr/bin/env python3
"""Lists the functions of a crate that are expensive to prove: those that took two seconds or more, longest first.

    expensive_functions.py CRATE [--test]

It runs `rt check --jobs 1` in the directory of the crate (with --test: with its tests), and records when each function
is done. Functions that an earlier check kept are not proved again: only a crate without `out/`, which no other checkout
on this machine has proved, shows all. Other load makes the times longer, but keeps their order. The time of the first
function in a step of the call graph includes the start of that step.
"""
import os
import re
import subprocess
import sys
import time

TOP = os.path.dirname(os.path.dirname(os.path.abspath(__file__)))
DONE = re.compile(r"checked ([^,]+), \d+ of \d+$")


def main():
    if len(sys.argv) not in (2, 3) or sys.argv[2:] not in ([], ["--test"]):
        sys.exit(__doc__)
    words = ["rt", "check", *sys.argv[2:], "--jobs", "1"]
    folder = f"{TOP}/crates/{sys.argv[1]}"
    with subprocess.Popen(words, cwd=folder, stdout=subprocess.PIPE, stderr=subprocess.STDOUT, text=True) as it:
        before = None
        taken = []
        last = ""
        for line in it.stdout:
            last = line.rstrip()
            now = time.monotonic()
            if found := DONE.match(last):
                taken.append((now - before if before else 0, found[1]))
            before = now
    for seconds, name in sorted(taken, reverse=True):
        if seconds >= 2:
            print(f"{seconds:6.1f} {name}")
    print(last)


if __name__ == "__main__":
    main()
