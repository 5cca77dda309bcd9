#!/usr/bin/env python3
"""Tests `bpfs export`: exports images, runs the scripts on fresh images, and compares the trees.

    exports.py PROGRAM [COUNT] [SEED]

PROGRAM is a built bpfs, such as crates/bpfs/out/bpfs. COUNT is the number of random trees (default 100), SEED the seed
of the first one (default 1). The tests use a directory in TMPDIR:

- Random trees in versions 1 to 3: directories, files with holes, with zeros and with several links, names of any bytes,
  unlinks, renames, attributes, and in some images a snapshot. The script of each image is run on a fresh image of another
  size. All replies have to be `ok`, the export of that image has to be the same script, both images have to show the same
  attributes, and the exported FILE has to stay unchanged.
- 2,047 nested directories, the last with a path of 4,095 bytes, in the same way.
- A path that is too long for a line, made by a rename: the export has to end with status 9 and print `err 40 deep` only.
"""
import os
import random
import subprocess
import sys
import tempfile

BLOCK = 4096
NESTED = 2_047
ROOM = 4_096


def run(program, words, lines=()):
    text = "".join(f"{line}\n" for line in lines).encode()
    return subprocess.run([program, *words], input=text, stdout=subprocess.PIPE, stderr=subprocess.PIPE, check=False)


def fail(what):
    sys.exit(f"exports.py: {what}")


def make(program, image, blocks, version, lines=()):
    """Makes a fresh image and runs a script on it; returns the replies."""
    if run(program, ["format", image, "--blocks", str(blocks), "--version", str(version)]).returncode != 0:
        fail(f"format of {blocks} blocks failed")
    done = run(program, ["run", image], [*lines, "sync"])
    if done.returncode != 0:
        fail(f"a run ended with status {done.returncode}")
    return done.stdout.split(b"\n")[:-2]


def spelled(name):
    return "".join(chr(b) if 33 <= b <= 126 and b != ord("%") else f"%{b:02x}" for b in name)


class Tree:
    """The lines of a script that makes a random tree in a version."""

    def __init__(self, seed, version):
        self.random = random.Random(seed)
        self.version = version
        self.lines = []
        self.directories = [""]
        self.files = []

    def name(self):
        length = self.random.choice((1, 2, 8, 60, 240))
        return spelled(bytes(self.random.choice([b for b in range(1, 256) if b != 47]) for _ in range(length)))

    def path(self):
        return f"{self.random.choice(self.directories)}/{self.name()}"

    def add(self):
        path = self.path()
        if len(path) > 1000:
            return
        if self.random.random() < 0.3:
            self.directories.append(path)
            self.lines.append(f"mkdir {path}")
        else:
            self.files.append(path)
            self.lines.append(f"create {path}")

    def write(self):
        path = self.random.choice(self.files)
        off = self.random.choice((0, 1, BLOCK - 1, BLOCK, 3 * BLOCK, 600 * BLOCK + 5, 5_000_000_000)) + self.random.randrange(3)
        length = self.random.choice((1, 7, 100, BLOCK, BLOCK + 1, 20_000))
        byte = self.random.choice((0, self.random.randrange(256)))
        self.lines.append(f"write {path} {off} {length * f'{byte:02x}'}")

    def resize(self):
        size = self.random.choice((0, 1, BLOCK, BLOCK + 1, 5000, 4_000_000_000))
        self.lines.append(f"truncate {self.random.choice(self.files)} {size}")

    def link(self):
        path = self.path()
        self.lines.append(f"link {self.random.choice(self.files)} {path}")
        self.files.append(path)

    def leave(self):
        path = self.files.pop(self.random.randrange(len(self.files)))
        self.lines.append(f"unlink {path}")

    def move(self):
        path = self.path()
        index = self.random.randrange(len(self.files))
        self.lines.append(f"rename {self.files[index]} {path}")
        self.files[index] = path

    def set_attribute(self):
        path = self.random.choice(self.directories + self.files) or "/"
        value = self.random.choice((0, 1, 0o100644, self.random.randrange(2**64), 2**64 - 1))
        self.lines.append(f"setattr {path} {self.random.randrange(3)} {value}")

    def grow(self, steps):
        for _ in range(steps):
            deeds = [self.add, self.add] + ([self.write, self.write, self.resize, self.link, self.leave, self.move] if self.files else [])
            if self.version == 3:
                deeds += [self.set_attribute, self.set_attribute]
            self.random.choice(deeds)()
        return self.lines

    def asks(self):
        """The lines that ask for all attributes."""
        return [f"attr {path or '/'} {number}" for path in self.directories + self.files for number in range(3)]


def exported(program, image):
    with open(image, "rb") as it:
        before = it.read()
    done = run(program, ["export", image], ["mkdir /never"])
    with open(image, "rb") as it:
        if it.read() != before:
            fail("an export changed FILE")
    if done.stderr:
        fail(f"an export printed on standard error: {done.stderr!r}")
    return done.returncode, done.stdout


def comes_back(program, folder, image, blocks, version):
    """Tests that the export of an image, run on a fresh one, makes the same tree; returns the export."""
    status, script = exported(program, image)
    if status != 0:
        fail(f"an export ended with status {status}")
    other = f"{folder}/other"
    replies = make(program, other, blocks, version, script.decode("ascii").split("\n")[:-1])
    if set(replies) - {b"ok"}:
        fail(f"the reply to a line of an export is {(set(replies) - {b'ok'}).pop()!r}")
    if run(program, ["check", other]).returncode != 0 or exported(program, other) != (0, script):
        fail("the copy has another tree")
    return script


def random_trees(program, folder, count, first):
    image, held = f"{folder}/image", 0
    for seed in range(first, first + count):
        version = 1 + seed % 3
        tree = Tree(seed, version)
        lines = tree.grow(tree.random.choice((5, 50, 300)))
        if version > 1 and seed % 4 == 1:
            lines = [*lines[: len(lines) // 2], "snap", *lines[len(lines) // 2:]]
        make(program, image, ROOM, version, lines)
        held += len(comes_back(program, folder, image, ROOM + 1000 * (seed % 5), version))
        if run(program, ["run", image], tree.asks()).stdout != run(program, ["run", f"{folder}/other"], tree.asks()).stdout:
            fail("the copy has other attributes")
    print(f"ok: {count} random trees are equal after export and run; scripts of {held} bytes")


def nested(program, folder):
    image = f"{folder}/image"
    lines = [f"mkdir {depth * '/d'}" for depth in range(1, NESTED + 1)] + [f"create {NESTED * '/d'}x"]
    make(program, image, ROOM, 2, lines)
    script = comes_back(program, folder, image, ROOM, 2)
    if script.count(b"\n") != NESTED + 1:
        fail("nested directories are missing from an export")
    print(f"ok: {NESTED} nested directories are equal after export and run")


def deep(program, folder):
    image, half = f"{folder}/image", NESTED // 2 + 2
    lines = [f"mkdir /e{depth * '/d'}" for depth in range(half)] + [f"mkdir /f{depth * '/d'}" for depth in range(half)]
    make(program, image, ROOM, 1, [*lines, f"rename /f /e{(half - 1) * '/d'}/f"])
    if exported(program, image) != (9, b"err 40 deep\n"):
        fail("a path that is too long does not give status 9 and `err 40 deep`")
    print("ok: a path that is too long is reported before any line")


def main():
    if not 2 <= len(sys.argv) <= 4:
        sys.exit(__doc__)
    program = os.path.abspath(sys.argv[1])
    count = int(sys.argv[2]) if len(sys.argv) > 2 else 100
    seed = int(sys.argv[3]) if len(sys.argv) > 3 else 1
    with tempfile.TemporaryDirectory() as folder:
        random_trees(program, folder, count, seed)
        nested(program, folder)
        deep(program, folder)


main()
