#!/usr/bin/env python3
"""Measures the time, memory and instructions of `bpfs`, alone or beside another program with the same commands.

    bench.py PROGRAM [OTHER] [--runs N] [--core C] [--instructions] [--scale S] [--only CASE ..]
    bench.py PROGRAM [OTHER] --growth [--runs N] [--core C] [--only GROWTH ..]

A case is a command or a script of random calls; the calls are the same each time. PROGRAM makes the images, in a new
folder of /dev/shm (BENCH_DIR names another place). Each run gets a copy of its image, and is bound to core C (the
last one). Two programs run in turn. A row has the minimum of N runs (11) of user plus system time, loading and saving
the image included, and the peak memory of the first run. Two programs have to print the same replies, except after a
storm, which depends on each program's own stores.

--instructions adds the instructions of one run in user space, which valgrind counts.
--scale multiplies the number of calls.
--growth prints by which power the time grows: with the names that are created in one directory and removed again
(without the time of one name), with the blocks of an image that is checked or loaded, and with the calls of `play`.
"""
import argparse
import hashlib
import math
import os
import random
import re
import shutil
import statistics
import subprocess
import sys
import tempfile
from typing import NamedTuple

DIGITS = random.Random(1).randbytes(65536 * 4).hex()
STORMS = ("crashes", "play")
VALGRIND = ("valgrind", "--tool=cachegrind", "--cache-sim=no", "--cachegrind-out-file=/dev/null")


class Case(NamedTuple):
    """A command for an image, with a script on standard input."""

    name: str
    image: str
    script: str
    arguments: tuple


class Run(NamedTuple):
    """CPU seconds, peak memory in MiB, exit status, and a digest of the replies."""

    seconds: float
    memory: float
    status: int
    replies: str


class Cases:
    """The cases that were made so far, and what is needed to make more."""

    def __init__(self, program, folder, scale):
        self.program, self.folder, self.scale, self.made = program, folder, scale, []
        self.random = random.Random(20091011)

    def times(self, count):
        return max(1, int(count * self.scale))

    def digits(self, count):
        """Returns `count` random bytes in hexadecimal."""
        at = 2 * self.random.randrange(len(DIGITS) // 2 - count)
        return DIGITS[at : at + 2 * count]

    def image(self, name, blocks, lines, version=1):
        """Formats an image, runs the lines against it, and returns its path."""
        path = f"{self.folder}/{name}.img"
        options = ["--blocks", str(blocks), "--version", str(version)]
        subprocess.run([self.program, "format", path, *options], check=True, stdout=subprocess.DEVNULL)
        script = "".join(f"{line}\n" for line in lines).encode()
        ran = subprocess.run([self.program, "run", path], input=script, check=True, stdout=subprocess.PIPE)
        refused = [line for line in ran.stdout.split(b"\n") if line.startswith(b"err")]
        assert not refused, refused[:3]
        return path

    def add(self, name, image, lines=(), arguments=("run",)):
        script = f"{self.folder}/{name}.script"
        with open(script, "w") as file:
            file.writelines(f"{line}\n" for line in lines)
        self.made.append(Case(name, image, script, arguments))


# ---- the cases


def small_writes(cases, only_appends):
    """Returns writes of 1 to 200 bytes to 40 files, each of which is emptied when it has 60,000 bytes."""
    draw, sizes, lines = cases.random, [0] * 40, []
    for _ in range(cases.times(200000)):
        i, count = draw.randrange(40), draw.choice([1, 3, 8, 8, 8, 20, 50, 100, 200])
        if sizes[i] > 60000:
            lines.append(f"truncate /f{i} 0")
            sizes[i] = 0
            continue
        at = sizes[i] if only_appends or draw.randrange(2) or not sizes[i] else draw.randrange(sizes[i])
        lines.append(f"write /f{i} {at} {cases.digits(count)}")
        sizes[i] = max(sizes[i], at + count)
    return lines


def add_small_files(cases):
    draw, digits, times = cases.random, cases.digits, cases.times
    small = cases.image("small", 2048, [f"create /f{i}" for i in range(40)])
    cases.add("small-writes", small, small_writes(cases, False))
    cases.add("small-appends", small, small_writes(cases, True))
    sizes = [draw.randrange(1 << draw.randrange(1, 30)) for _ in range(times(100000))]
    cases.add("truncates", small, [f"truncate /f{draw.randrange(40)} {size}" for size in sizes])

    full = [line for i in range(40) for line in (f"create /f{i}", f"write /f{i} 0 {digits(60000)}")]
    filled = cases.image("filled", 2048, full)
    for count in (8, 200, 4096):
        turns = times(200000 if count < 4096 else 30000)
        for name, step in (("anywhere", 1), ("aligned", count)):
            places = [draw.randrange((60000 - count) // step) * step for _ in range(turns)]
            lines = [f"write /f{draw.randrange(40)} {at} {digits(count)}" for at in places]
            cases.add(f"write-{count}-{name}", filled, lines)


def add_large_files(cases):
    draw, digits, times = cases.random, cases.digits, cases.times
    large = cases.image("large", 8192, [f"create /b{i}" for i in range(8)])
    for name, shifts in (("aligned", [0]), ("shifted", [100, 4000])):
        places = [65536 * draw.randrange(20) + draw.choice(shifts) for _ in range(times(600))]
        lines = [f"write /b{draw.randrange(8)} {at} {digits(65536)}" for at in places]
        cases.add(f"write-64k-{name}", large, lines)
    lines = []
    for _ in range(times(30)):
        lines += [f"write /b{i} {65536 * at} {digits(65536)}" for at in range(6) for i in range(8)]
        lines += [f"truncate /b{i} 0" for i in range(8)]
    cases.add("append-64k", large, lines)

    size = 65536 * 1000
    full = ["create /f", *(f"write /f {at} {digits(65536)}" for at in range(0, size, 65536))]
    onefile = cases.image("onefile", 16384, full)
    for count in (8, 200, 4096):
        places = [draw.randrange(size - count) for _ in range(times(20000))]
        cases.add(f"write-{count}-64MiB", onefile, [f"write /f {at} {digits(count)}" for at in places])
    cases.add("read-64k", onefile, [f"read /f {draw.randrange(size - 65536)} 65536" for _ in range(times(4000))])
    cases.add("read-1", onefile, [f"read /f {draw.randrange(size)} 1" for _ in range(times(200000))])


def add_names(cases):
    draw, times = cases.random, cases.times
    for count in (1000, 50000):
        lines = ["mkdir /d", *(f"create /d/file-{i:06d}" for i in range(count))]
        image = cases.image(f"names{count}", 16384 if count > 10000 else 2048, lines)
        have, new, lines = list(range(count)), count, []
        for _ in range(times(30000 if count < 10000 else 400)):
            at = draw.randrange(count)
            lines += [f"unlink /d/file-{have[at]:06d}", f"create /d/file-{new:06d}"]
            have[at], new = new, new + 1
        cases.add(f"create-unlink-{count}", image, lines)
        cases.add(f"list-{count}", image, ["list /d"] * times(200000 // count))
        cases.add(f"check-names-{count}", image, arguments=("check",))

    lines = [f"mkdir /d{i}" for i in range(8)] + [f"create /d{i}/n{k}" for i in range(8) for k in range(125)]
    image = cases.image("renames", 2048, lines)
    have = [(i, k) for i in range(8) for k in range(125)]
    free = [(i, k) for i in range(8) for k in range(125, 250)]
    lines = []
    for _ in range(times(100000)):
        at, to = draw.randrange(len(have)), draw.randrange(len(free))
        lines.append("rename /d%d/n%d /d%d/n%d" % (*have[at], *free[to]))
        have[at], free[to] = free[to], have[at]
    cases.add("renames", image, lines)

    folders = ["".join(f"/directory-{k}" for k in range(depth + 1)) for depth in range(30)]
    leaf = f"{folders[-1]}/directory-30"
    image = cases.image("deep", 1024, [*(f"mkdir {folder}" for folder in folders), f"create {leaf}"])
    cases.add("stat-deep", image, [f"stat {leaf}"] * times(60000))


def add_crashes(cases):
    draw, lines = cases.random, []
    image = cases.image("crashes", 512, ["mkdir /d", *(f"create /d/c{i}" for i in range(100))])
    for _ in range(cases.times(10000)):
        for _ in range(4):
            kind = draw.randrange(6)
            if kind < 4:
                place, count = draw.randrange(12000), draw.choice([8, 100, 700])
                lines.append(f"write /d/c{draw.randrange(100)} {place} {cases.digits(count)}")
            else:
                lines.append(f"{'create' if kind == 4 else 'unlink'} /d/x{draw.randrange(50)}")
        lines.append(draw.choice([f"storm {draw.getrandbits(40)}", "crash none", "crash all"]))
    cases.add("crashes", image, lines)
    image = cases.image("play", 64, [])
    cases.add("play", image, arguments=("play", "--seed", "7", "--count", str(cases.times(100000))))


def add_images(cases):
    image = cases.image("empty", 16384, [])
    cases.add("check-empty", image, arguments=("check",))
    cases.add("run-empty", image)
    cases.add("space", image, ["space"] * cases.times(400000))
    cases.add("long-lines", image, ["x" * 139999] * cases.times(500))
    cases.add("sync", image, ["sync"] * cases.times(8))
    names = [f"/d{i}/file{k}" for i in range(10) for k in range(90)]
    lines = [line for name in names for line in (f"create {name}", f"write {name} 0 {cases.digits(65536)}")]
    image = cases.image("files", 16384, [*(f"mkdir /d{i}" for i in range(10)), *lines])
    cases.add("check-files", image, arguments=("check",))
    cases.add("run-files", image)


# ---- growth


class Growth(NamedTuple):
    """Sizes of one kind of work, with a case for each, and the case whose time is subtracted, if any."""

    name: str
    unit: str
    sizes: list
    base: str = None

    def cases(self):
        return [f"{self.name}-{size}" for size in self.sizes]


GROWTHS = [
    Growth("create-unlink", "names", [1000 << k for k in range(7)], "create-unlink-1"),
    Growth("check", "blocks", [8, 64, 512, 4096, 16384, 65536]),
    Growth("run-empty", "blocks", [8, 64, 512, 4096, 16384, 65536]),
    Growth("play", "calls", [1000, 10000, 100000, 1000000]),
]


def add_growths(cases):
    names, check, run, play = GROWTHS
    image = cases.image("names", 6144, ["mkdir /d"])
    for name, count in zip([names.base, *names.cases()], [1, *names.sizes]):
        paths = [f"/d/file-{i:06d}" for i in range(count)]
        cases.add(name, image, [f"{call} {path}" for call in ("create", "unlink") for path in paths])
    for check_name, run_name, count in zip(check.cases(), run.cases(), check.sizes):
        image = cases.image(f"blocks{count}", count, [], version=2)
        cases.add(check_name, image, arguments=("check",))
        cases.add(run_name, image)
    image = cases.image("play", 64, [])
    for name, count in zip(play.cases(), play.sizes):
        cases.add(name, image, arguments=("play", "--seed", "7", "--count", str(count)))


# ---- measuring

# Runs a program on one core with the given input and output, and prints its CPU seconds, its peak memory in MiB and its
# exit status. It is a small process of its own because the peak memory of a child includes that of its parent.
START = """
import os, sys
core, script, replies, *argv = sys.argv[1:]
pid = os.fork()
if pid == 0:
    os.sched_setaffinity(0, {int(core)})
    os.dup2(os.open(script, os.O_RDONLY), 0)
    os.dup2(os.open(replies, os.O_WRONLY | os.O_CREAT | os.O_TRUNC, 0o600), 1)
    os.execv(argv[0], argv)
_, status, used = os.wait4(pid, 0)
print(used.ru_utime + used.ru_stime, used.ru_maxrss / 1024, os.waitstatus_to_exitcode(status))
"""


def command(program, case, folder):
    """Copies the case's image, and returns the command line for the copy."""
    copy = f"{folder}/copy.img"
    shutil.copyfile(case.image, copy)
    return [program, case.arguments[0], copy, *case.arguments[1:]]


def run(program, case, folder, core):
    replies = f"{folder}/replies"
    argv = [sys.executable, "-S", "-c", START, str(core), case.script, replies, *command(program, case, folder)]
    seconds, memory, status = subprocess.run(argv, check=True, stdout=subprocess.PIPE, text=True).stdout.split()
    with open(replies, "rb") as file:
        return Run(float(seconds), float(memory), int(status), hashlib.sha256(file.read()).hexdigest())


def instructions(program, case, folder):
    """Returns the millions of instructions of one run."""
    with open(case.script) as script:
        argv = [*VALGRIND, *command(program, case, folder)]
        ran = subprocess.run(argv, stdin=script, stdout=subprocess.DEVNULL, stderr=subprocess.PIPE, text=True)
    return int(re.search(r"I\s+refs:\s+([\d,]+)", ran.stderr)[1].replace(",", "")) / 1e6


def print_row(cells):
    print("| " + " | ".join(cells) + " |", flush=True)


def print_head(columns):
    print_row(columns)
    print("|---" + "|---:" * (len(columns) - 1) + "|")


def measure(case, programs, options, folder):
    """Returns each measure of each program, and whether the programs print the same replies."""
    turns = [[run(program, case, folder, options.core) for program in programs] for _ in range(options.runs)]
    least = [min(it.seconds for it in runs) for runs in zip(*turns)]
    found = {"ms": [1000 * seconds for seconds in least], "MiB": [it.memory for it in turns[0]]}
    if options.instructions:
        found["instructions, M"] = [instructions(program, case, folder) for program in programs]
    same = len({it.status if case.name in STORMS else (it.status, it.replies) for it in turns[0]}) == 1
    return found, same


def print_cases(cases, programs, options, folder):
    """Prints a row for each case, and returns the names of the cases in which the programs differ."""
    units, two = ["ms", "MiB"] + ["instructions, M"] * options.instructions, len(programs) == 2
    print_head(["Case", *(head for unit in units for head in ([unit, "other", "ratio"] if two else [unit]))])
    ratios, different = {unit: [] for unit in units}, []
    for case in cases:
        found, same = measure(case, programs, options, folder)
        cells = [case.name]
        for unit, values in found.items():
            ratios[unit].append(values[0] / max(values[-1], 1e-9))
            cells += [f"{value:.1f}" for value in values] + [f"{ratios[unit][-1]:.2f}"] * two
        print_row(cells)
        if not same:
            different.append(case.name)
    if two:
        print()
        for unit, found in ratios.items():
            print(f"Ratios of {unit}: geometric mean {statistics.geometric_mean(found):.2f}, highest {max(found):.2f}.")
    return different


def power(times, sizes, first, later):
    """Returns the power of the size by which the time grows between two sizes."""
    return math.log(max(times[later], 1e-4) / max(times[first], 1e-4)) / math.log(sizes[later] / sizes[first])


def print_growths(growths, cases, programs, options, folder):
    """Measures all cases once, then all again, so that a slow period of the machine meets all of them."""
    wanted = {name for growth in growths for name in [growth.base, *growth.cases()]}
    cases = [case for case in cases if case.name in wanted]
    seconds = {case.name: [math.inf] * len(programs) for case in cases}
    for _ in range(options.runs):
        for case in cases:
            runs = [run(program, case, folder, options.core) for program in programs]
            seconds[case.name] = [min(it.seconds, least) for it, least in zip(runs, seconds[case.name])]
            if len({it.status for it in runs}) > 1:
                sys.exit(f"statuses differ: {case.name}")
    for growth in growths:
        base = seconds.get(growth.base, [0] * len(programs))
        times = [[seconds[name][which] - base[which] for name in growth.cases()] for which in range(len(programs))]
        print_head([f"{growth.name}, {growth.unit}", *["ms", "power", "other", "power"][: 2 * len(programs)]])
        for at, size in enumerate(growth.sizes):
            cells = [f"{size:,}"]
            for it in times:
                cells += [f"{1000 * it[at]:.1f}", f"{power(it, growth.sizes, at - 1, at):.2f}" if at else ""]
            print_row(cells)
        print_row(["all", *(cell for it in times for cell in ("", f"{power(it, growth.sizes, 0, -1):.2f}"))])
        print(flush=True)


def main():
    parser = argparse.ArgumentParser(description=__doc__, formatter_class=argparse.RawDescriptionHelpFormatter)
    parser.add_argument("program")
    parser.add_argument("other", nargs="?")
    parser.add_argument("--runs", type=int, default=11)
    parser.add_argument("--core", type=int, default=max(os.sched_getaffinity(0)))
    parser.add_argument("--instructions", action="store_true")
    parser.add_argument("--scale", type=float, default=1.0)
    parser.add_argument("--growth", action="store_true")
    parser.add_argument("--only", nargs="+", default=[])
    options = parser.parse_args()
    programs = [os.path.abspath(it) for it in (options.program, options.other) if it]
    folder = tempfile.mkdtemp(prefix="bpfs-bench-", dir=os.environ.get("BENCH_DIR", "/dev/shm"))
    try:
        cases = Cases(programs[0], folder, options.scale)
        if options.growth:
            add_growths(cases)
            growths = [it for it in GROWTHS if not options.only or it.name in options.only]
            return print_growths(growths, cases.made, programs, options, folder)
        for add in (add_small_files, add_large_files, add_names, add_crashes, add_images):
            add(cases)
        wanted = [case for case in cases.made if not options.only or case.name in options.only]
        different = print_cases(wanted, programs, options, folder)
    finally:
        shutil.rmtree(folder)
    if different:
        sys.exit(f"replies or statuses differ: {' '.join(different)}")


main()
