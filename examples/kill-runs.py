#!/usr/bin/env python3
"""Kills bpfs runs at random times, and tests that each leaves FILE as of one of its syncs.

    kill-runs.py PROGRAM [COUNT]

PROGRAM is a built bpfs, such as crates/bpfs/out/bpfs. COUNT is the number of runs to kill (default 300). The images have
256 to 8,192 blocks, in version 1 or 2, in a directory in TMPDIR.

A run has eight rounds. Each round writes its number to many blocks of a file, adds a link to the file, and syncs. The run
gets SIGKILL at a random time; a run that ends before is tested too, but not counted. Then:

- `check` has to find FILE clean;
- FILE has to be the tree after one of the rounds, not older than the last sync that was answered `ok`;
- the next run has to serve FILE, to replace it by a new file, and to leave no second file.

A program that writes FILE in place fails after a few kills.
"""
import os
import random
import signal
import subprocess
import sys
import tempfile
import threading
import time

SIZES = (256, 1024, 4096, 8192)
TURNS = 8
PIECE = 65_536
MOST_PIECES = 8


def pieces(blocks):
    """Returns the number of pieces of 64 KiB that each round writes, for an image of this many blocks."""
    return min(blocks // 128, MOST_PIECES)


def script(blocks):
    lines = ["create /all"]
    for turn in range(TURNS):
        lines += [f"write /all {PIECE * piece} {PIECE * f'{turn:02x}'}" for piece in range(pieces(blocks))]
        lines += [f"link /all /f{turn}", "sync"]
    return "".join(f"{line}\n" for line in lines).encode()


def run(program, words, lines=b""):
    return subprocess.run([program, *words], input=lines, stdout=subprocess.PIPE, stderr=subprocess.PIPE, check=False)


def turns_held(program, image, blocks):
    """Returns the number of rounds that FILE has, or a text that says what is wrong."""
    said = run(program, ["check", image])
    if said.returncode != 0 or not said.stdout.startswith(b"clean "):
        return f"no clean image: status {said.returncode}, {said.stdout!r}"
    lines = ["list /", "links /all", *(f"read /all {PIECE * piece} {PIECE}" for piece in range(pieces(blocks)))]
    told = run(program, ["run", image], "".join(f"{line}\n" for line in lines).encode()).stdout.decode().split("\n")
    names = told[: told.index("end")]
    if not names:
        return 0
    held = len(names) - 1
    wanted = ["entry f all", *(f"entry f f{turn}" for turn in range(held)), "end", f"links {held + 1}"]
    wanted += [f"data {PIECE * f'{held - 1:02x}'}"] * pieces(blocks) + [""]
    return held if told == wanted else f"the tree of no round, with {names}"


def feed(stream, lines):
    """Writes the lines until all are written or the reader has closed the stream."""
    try:
        with stream:
            stream.write(lines)
    except BrokenPipeError:
        pass


def killed_run(program, image, blocks, after):
    """Runs the script, and kills the run after `after` seconds. Returns the number of answered syncs, and whether it was killed."""
    replies = bytearray()
    with subprocess.Popen([program, "run", image], stdin=subprocess.PIPE, stdout=subprocess.PIPE) as child:
        reader = threading.Thread(target=lambda: replies.extend(child.stdout.read()))
        reader.start()
        writer = threading.Thread(target=feed, args=(child.stdin, script(blocks)))
        writer.start()
        try:
            child.wait(after)
        except subprocess.TimeoutExpired:
            os.kill(child.pid, signal.SIGKILL)
        status = child.wait()
        writer.join()
        reader.join()
    if replies.strip(b"ok\n"):
        sys.exit(f"FAILED: a run replied {bytes(replies)!r}")
    return max(replies.count(b"ok\n") - 1, 0) // (pieces(blocks) + 2), status == -signal.SIGKILL


def main():
    if len(sys.argv) not in (2, 3):
        sys.exit(__doc__)
    program = os.path.abspath(sys.argv[1])
    count = int(sys.argv[2]) if len(sys.argv) == 3 else 300
    draw = random.Random(1)
    runs = kills = leftovers = ahead = 0
    held_by_all = [0] * (TURNS + 1)
    with tempfile.TemporaryDirectory() as folder:
        image = os.path.join(folder, "FILE")
        others = (image + ".bpfs-sync", image + ".bpfs-sync-old")
        longest = {}
        for size in SIZES:
            run(program, ["format", image, "--blocks", str(size)])
            began = time.monotonic()
            killed_run(program, image, size, None)
            longest[size] = time.monotonic() - began
        while kills < count:
            runs += 1
            size = draw.choice(SIZES)
            run(program, ["format", image, "--blocks", str(size), "--version", draw.choice("12")])
            answered, was_killed = killed_run(program, image, size, draw.uniform(0, longest[size]))
            kills += was_killed
            leftovers += any(map(os.path.exists, others))
            held = turns_held(program, image, size)
            if not isinstance(held, int) or held < answered:
                sys.exit(f"FAILED: run {runs}, {size} blocks: {answered} syncs were answered, but FILE has {held}")
            ahead += held > answered
            held_by_all[held] += 1
            was = os.stat(image).st_ino
            after = run(program, ["run", image], b"create /after\n")
            if after.returncode != 0 or after.stdout != b"ok\n" or os.stat(image).st_ino == was or any(map(os.path.exists, others)):
                sys.exit(f"FAILED: after run {runs}, the next run: {after}")
    print(f"ok: {runs} runs, {kills} of them killed: FILE was always clean and as of one sync")
    print(f"runs by the number of rounds in FILE, from 0: {held_by_all}; FILE was ahead of the answered syncs in {ahead}; a second file remained in {leftovers}")


main()
