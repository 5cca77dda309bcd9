#!/usr/bin/env python3
"""Draws two pictures for the documents: tree.svg, an image as one tree of blocks, and commit.svg, a commit in three steps."""
import os

CELL, HIGH = 26, 34
STYLE = """<style>
text { font-family: sans-serif; font-size: 12px; fill: #222 }
.small { font-size: 10px; fill: #555 }
.block { fill: #fff; stroke: #555 }
.new { fill: #d9ecff; stroke: #1667b8 }
.gone { fill: #eee; stroke: #bbb }
.word { fill: #fff1c9; stroke: #b8860b; stroke-width: 2 }
.link { stroke: #555; fill: none; marker-end: url(#tip) }
.newlink { stroke: #1667b8; stroke-width: 2; fill: none; marker-end: url(#tip) }
.gonelink { stroke: #bbb; stroke-dasharray: 3 3; fill: none; marker-end: url(#tip) }
</style><defs><marker id="tip" markerWidth="8" markerHeight="8" refX="7" refY="4" orient="auto"><path d="M0,0 L8,4 L0,8 z" fill="#555"/></marker></defs>"""


class Picture:
    def __init__(self, width, height):
        self.width, self.height, self.parts = width, height, []

    def text(self, x, y, words, kind="", anchor="start"):
        self.parts.append(f'<text x="{x}" y="{y}" class="{kind}" text-anchor="{anchor}">{words}</text>')

    def lines(self, x, y, *lines):
        """Writes the lines of a caption, one below the other."""
        for number, line in enumerate(lines):
            self.text(x, y + 18 * number, line)

    def block(self, x, y, cells, title, kind="block", marked=()):
        """Draws a block as a row of words, and the words at the marked places as those of a store."""
        for at in range(cells):
            self.parts.append(f'<rect x="{x + CELL * at}" y="{y}" width="{CELL}" height="{HIGH}" class="{"word" if at in marked else kind}"/>')
        self.text(x, y - 6, title, "small")

    def link(self, x, y, to, down, kind="link"):
        self.parts.append(f'<path d="M{x},{y} C{x},{y + 34} {to},{down - 40} {to},{down - 18}" class="{kind}"/>')

    def save(self, name):
        folder = os.path.dirname(os.path.abspath(__file__))
        head = f'<svg xmlns="http://www.w3.org/2000/svg" width="{self.width}" height="{self.height}" viewBox="0 0 {self.width} {self.height}">'
        with open(f"{folder}/{name}", "w") as it:
            it.write("\n".join([head, STYLE, f'<rect width="{self.width}" height="{self.height}" fill="#fff"/>', *self.parts, "</svg>"]) + "\n")


def middle(x, at):
    return x + CELL * at + CELL // 2


def tree():
    it = Picture(760, 480)
    it.block(270, 40, 5, "superblock (block 0): magic number, N, root word and size of the inode file")
    it.link(middle(270, 2), 40 + HIGH, 380, 140)
    it.block(240, 140, 11, "leaf of the inode file: inode 1 (kind, root word, size), inode 2, inode 3, ..")
    it.link(middle(240, 1), 140 + HIGH, 110, 240)
    it.link(middle(240, 4), 140 + HIGH, 380, 240)
    it.link(middle(240, 7), 140 + HIGH, 620, 240)
    it.block(30, 240, 7, "leaf of the root directory: entries")
    it.text(30, 292, "an entry is a name and an inode number:", "small")
    it.text(30, 306, "a has inode 2, b has inode 3", "small")
    it.block(310, 240, 6, "file a, height 1: a node of pointers")
    it.block(560, 240, 6, "file b, height 0: a leaf with its bytes")
    it.link(middle(310, 0), 240 + HIGH, 320, 350)
    it.link(middle(310, 2), 240 + HIGH, 560, 350)
    it.text(middle(310, 1), 261, "null", "small", "middle")
    it.block(250, 350, 6, "leaf 0 of file a")
    it.block(490, 350, 6, "leaf 2 of file a")
    it.lines(
        30,
        420,
        "A null pointer represents zeros, so leaf 1 of file a takes no block.",
        "The lowest bits of a root word are the height of its tree.",
        "Bytes at and past the size of a tree are dead: no reader uses them.",
    )
    it.save("tree.svg")


def commit():
    it = Picture(960, 400)
    for column, title in ((0, "before"), (320, "prepared: no reader finds the copies"), (640, "after the one store")):
        it.text(column + 20, 24, title)
        done = column == 640
        it.block(column + 90, 60, 4, "inode: .. root word ..", marked=(1,) if done else ())
        it.block(column + 20, 170, 4, "node", kind="gone" if done else "block")
        it.block(column + 20, 280, 4, "leaf with the old bytes", kind="gone" if done else "block")
        it.link(middle(column + 20, 1), 170 + HIGH, column + 60, 280, "gonelink" if done else "link")
        if not done:
            it.link(middle(column + 90, 1), 60 + HIGH, column + 60, 170)
        if column:
            it.block(column + 170, 170, 4, "copy of the node", kind="new")
            it.block(column + 170, 280, 4, "leaf with the new bytes", kind="new")
            it.link(middle(column + 170, 1), 170 + HIGH, column + 210, 280, "newlink")
        if done:
            it.link(middle(column + 90, 1), 60 + HIGH, column + 215, 170, "newlink")
    it.lines(
        20,
        352,
        "The one store replaces the root word (yellow). There is a barrier before it and a barrier after it.",
        "The grey blocks are then free. Nothing above the root word is copied.",
    )
    it.save("commit.svg")


tree()
commit()
