#!/usr/bin/env python3
"""Makes file system images of 16,384 blocks (64 MiB), for timing `bpfs check`.

    make_image.py full FILE        as many files of one block as fit, in directories of 512 files; few blocks are free
    make_image.py directory FILE   as many empty files as fit, all in the root directory

The layout is that of docs/format.md. The same command always makes the same image.
"""

import random
import string
import struct
import sys

BLOCKS = 16_384
BLOCK_BYTES = 4_096
POINTERS = 512
INODE_BYTES = 64
ENTRY_BYTES = 256
FILES_OF_A_DIRECTORY = 512
MAGIC = 0x3130_5352_5346_5042
FILE, DIRECTORY = 1, 2
ROOT = 1


def quotient_up(count, size):
    return -(-count // size)


def blocks_of_tree(size):
    """Returns the number of blocks of a tree of `size` bytes without nulls."""
    nodes = quotient_up(size, BLOCK_BYTES)
    blocks = nodes
    while nodes > 1:
        nodes = quotient_up(nodes, POINTERS)
        blocks += nodes
    return blocks


def most(blocks_for):
    """Returns the greatest count for which BLOCKS blocks suffice. `blocks_for` must not decrease."""
    low, high = 0, BLOCKS * BLOCK_BYTES // INODE_BYTES
    while low < high:
        middle = (low + high + 1) // 2
        if blocks_for(middle) <= BLOCKS:
            low = middle
        else:
            high = middle - 1
    return low


class Image:
    """An image in the making: its bytes, the first unused block, and the inodes from 0 on."""

    def __init__(self):
        self.bytes = bytearray(BLOCKS * BLOCK_BYTES)
        self.next_block = 1
        self.inodes = [bytes(INODE_BYTES)] * (ROOT + 1)

    def add_block(self, content):
        block = self.next_block
        self.next_block += 1
        self.bytes[block * BLOCK_BYTES : block * BLOCK_BYTES + len(content)] = content
        return block

    def add_tree(self, content):
        """Stores the content of a tree, and returns its root word."""
        if not content:
            return 0
        height = 0
        nodes = [self.add_block(content[at : at + BLOCK_BYTES]) for at in range(0, len(content), BLOCK_BYTES)]
        while len(nodes) > 1:
            parts = [nodes[at : at + POINTERS] for at in range(0, len(nodes), POINTERS)]
            nodes = [self.add_block(struct.pack(f"<{len(part)}Q", *(block << 12 for block in part))) for part in parts]
            height += 1
        return nodes[0] << 12 | height

    def inode(self, kind, content):
        return struct.pack("<3Q", kind, self.add_tree(content), len(content)).ljust(INODE_BYTES, b"\0")

    def add_inode(self, kind, content):
        """Stores a file or a directory, and returns its inode number."""
        self.inodes.append(self.inode(kind, content))
        return len(self.inodes) - 1

    def finish(self, entries):
        """Stores the root directory, the inode file and the superblock."""
        self.inodes[ROOT] = self.inode(DIRECTORY, directory(entries))
        inodes = b"".join(self.inodes)
        size = quotient_up(len(inodes), BLOCK_BYTES) * BLOCK_BYTES
        root = self.add_tree(inodes.ljust(size, b"\0"))
        struct.pack_into("<4Q", self.bytes, 0, MAGIC, BLOCKS, root, size)


def directory(entries):
    """Returns the content of a directory with these pairs of a name and an inode number."""
    return b"".join(struct.pack("<2Q240s", inode, len(name), name) for name, inode in entries)


def blocks_of_inodes(count):
    """Returns the number of blocks of the inode file for `count` inodes besides inode 0 and the root."""
    return blocks_of_tree((count + ROOT + 1) * INODE_BYTES)


def blocks_of_full(files):
    directories, rest = divmod(files, FILES_OF_A_DIRECTORY)
    number = directories + (rest > 0)
    return (
        1
        + files
        + directories * blocks_of_tree(FILES_OF_A_DIRECTORY * ENTRY_BYTES)
        + blocks_of_tree(rest * ENTRY_BYTES)
        + blocks_of_tree(number * ENTRY_BYTES)
        + blocks_of_inodes(files + number)
    )


def full(image):
    files = most(blocks_of_full)
    top = []
    for first in range(0, files, FILES_OF_A_DIRECTORY):
        entries = []
        for number in range(first, min(first + FILES_OF_A_DIRECTORY, files)):
            content = bytes([number % 251]) * BLOCK_BYTES
            entries.append((b"file%05d" % number, image.add_inode(FILE, content)))
        name = b"directory%02d" % (first // FILES_OF_A_DIRECTORY)
        top.append((name, image.add_inode(DIRECTORY, directory(entries))))
    image.finish(top)


def blocks_of_directory(files):
    return 1 + blocks_of_tree(files * ENTRY_BYTES) + blocks_of_inodes(files)


def one_directory(image):
    files = most(blocks_of_directory)
    chance = random.Random(1)
    names = {}
    while len(names) < files:
        names["".join(chance.choices(string.ascii_lowercase, k=8))] = None
    image.finish([(name.encode(), image.add_inode(FILE, b"")) for name in names])


def main(words):
    kinds = {"full": full, "directory": one_directory}
    if len(words) != 2 or words[0] not in kinds:
        sys.exit(__doc__)
    kind, name = words
    image = Image()
    kinds[kind](image)
    with open(name, "wb") as file:
        file.write(image.bytes)
    print(f"{len(image.inodes) - ROOT} files and directories (including the root), {BLOCKS - image.next_block} blocks free")


if __name__ == "__main__":
    main(sys.argv[1:])
