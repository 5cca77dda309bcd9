#!/usr/bin/env python3
"""Says what a change costs in CI, by tools/gate_prices.txt.

    price.py FILE ..          the cost of a change of these files
    price.py --changed [REF]  the cost of what differs from a commit (default HEAD), files that git does not know included
    price.py --log N          the mean cost of the last N commits that change a crate

A change of a crate's src, specs or proofs, or of its line in crates.txt, proves that crate and all above it again. A
change of its mutation tests tries those that changed; here they count as all of the crate's. Times are CPU minutes of
the machine on which the prices were measured (docs/gate.md).
"""
import subprocess
import sys

sys.dont_write_bytecode = True

from checks import gate
from checks.crates import FOLDERS, Crates
from checks.tree import TOP


def git(*words):
    return subprocess.run(["git", "-C", TOP, *words], check=True, stdout=subprocess.PIPE, text=True).stdout


def touched(paths):
    """Returns the crates that are proved again by themselves, and those of which only mutation tests changed."""
    proved, tried = set(), set()
    for path in paths:
        parts = path.removeprefix("./").split("/")
        if len(parts) > 3 and parts[0] == "crates":
            if parts[2] in FOLDERS:
                proved.add(parts[1])
            elif parts[2] == "must-fail":
                tried.add(parts[1])
    return proved, tried - proved


def price(crates, paths):
    """Returns the CPU minutes of proofs, tests and mutation tests, and the crates that are proved again."""
    proved, tried = touched(paths)
    again = {name for name in crates.names if name in proved or proved & crates.below(name)}
    seconds = gate.measured()
    parts = [sum(seconds.get(name, [0] * 4)[part] for name in again) for part in range(3)]
    parts[2] += sum(seconds.get(name, [0] * 4)[2] for name in tried - again)
    return [part / 60 for part in parts], again


def show(crates, paths):
    parts, again = price(crates, paths)
    for name, minutes in zip(gate.PARTS, parts):
        print(f"{name:15}{minutes:6.1f} min")
    print(f"{'all':15}{sum(parts):6.1f} min")
    print(f"{len(again)} of {len(crates.names)} crates: {' '.join(crates.sorted(again)) or 'none'}")


def mean(crates, count):
    """Prints the mean cost of commits. Crates that are gone count as nothing."""
    costs = []
    commits = git("log", "--no-merges", "--format=%x00", "--name-only", "--", "crates").split("\0")[1:]
    for commit in commits:
        paths = commit.split()
        if any(touched(paths)):
            costs.append(sum(price(crates, paths)[0]))
        if len(costs) == count:
            break
    print(f"{len(costs)} commits, {sum(costs) / max(len(costs), 1):.1f} CPU minutes each on average")


def main(words):
    if not words or words[0] in ("-h", "--help"):
        print(__doc__)
        return 0 if words else 2
    crates = Crates()
    if words[0] == "--log":
        mean(crates, int(words[1]))
    elif words[0] == "--changed":
        new = git("ls-files", "--others", "--exclude-standard")
        show(crates, (git("diff", "--name-only", *(words[1:] or ["HEAD"])) + new).split())
    else:
        show(crates, words)
    return 0


if __name__ == "__main__":
    sys.exit(main(sys.argv[1:]))
