"""Snippets of the documents: equal to files that are compiled, or to rows that are run.

The convention is in the docstring of tools/check_docs.py.
"""
import itertools
import os
import re

from . import rows
from .blocks import blocks_of
from .console import commands, console_fault
from .tree import TOP, exists, read

# In these pages each block with output has a comment that says what it equals.
PAGES = ("README.md", "docs/tutorial.md", "docs/bpfs.1")


def needs_marker(page, block):
    """Returns whether a block has output that has to be compared, or is code that has to be compiled."""
    if page not in PAGES:
        return False
    if block.kind == "table":
        return re.match(r"\| *Line *\| *Reply *\|", block.lines[0]) is not None
    if any(line.startswith("$ ") for line in block.lines):
        return any(output for _, output in commands(block.lines))
    return block.kind in ("", "console", "rust")


# ---- text: a block that equals some lines of a file

def unindented(lines):
    indent = min((len(line) - len(line.lstrip()) for line in lines if line.strip()), default=0)
    return [line[indent:].rstrip() for line in lines]


def text_fault(block, path):
    """Looks for the lines of a block, one after another, in a file, with any common indent."""
    if not exists(path):
        return None
    shown, lines = unindented(block.lines), read(path).splitlines()
    best, differs = 0, f"`{shown[0]}` is not a line of {path}" if shown else "an empty block"
    for start in range(len(lines)):
        wanted = unindented(lines[start:start + len(shown)])
        same = sum(1 for _ in itertools.takewhile(lambda pair: pair[0] == pair[1], zip(shown, wanted)))
        if shown and same == len(shown):
            return None
        if same > best and same < len(wanted):
            best, differs = same, f"`{shown[same]}` is `{wanted[same]}` in {path}:{start + same + 1}"
    return differs


# ---- rows: lines with their replies

def cells(line):
    return [cell.strip() for cell in re.split(r"(?<!\\)\|", line.strip().strip("|"))]


def code_in(cell):
    return [code.replace("\\|", "|") for code in re.findall(r"`([^`]*)`", cell)]


def table_pairs(lines):
    for line in lines[2:]:
        first, second, *_ = cells(line) + ["", ""]
        yield "".join(code_in(first)), code_in(second)


def column_pairs(lines):
    """Reads lines with their replies, two blanks or more before each. Blanks alone before a reply continue the last."""
    found = []
    for line in lines:
        parts = re.split(r"  +", line.rstrip())
        if parts == [""]:
            continue
        if parts[0]:
            found.append((parts[0], parts[1:2]))
        elif found:
            found[-1][1].append(parts[1])
    return found


def pairs_fault(pairs, runs):
    """Compares pairs of a line and a reply with runs: they have to stand one after another in one of them."""
    best, reason = 0, "is in no run of the row"
    for run in runs:
        other = run.pairs()
        for start in range(len(other)):
            same = 0
            while same < len(pairs) and start + same < len(other) and pairs[same] == other[start + same]:
                same += 1
            if same == len(pairs):
                return None
            if same > best or (same == best == 0 and start < len(other) and pairs[0][0] == other[start][0]):
                best = same
                if start + same < len(other):
                    reason = f"is `{other[start + same][0]}` with `{', '.join(other[start + same][1])}` in the row"
    line, reply = pairs[min(best, len(pairs) - 1)]
    return f"`{line}` with `{', '.join(reply)}` {reason}"


def row_fault(block, name):
    runs = rows.rows().get(name)
    if runs is None:
        return f"no row `{name}` in {rows.STDIN} that is made of simple runs"
    if block.kind == "table":
        return pairs_fault(list(table_pairs(block.lines)), runs)
    if any(line.startswith("$ ") for line in block.lines):
        return console_fault(block.lines, runs)
    return pairs_fault(column_pairs(block.lines), runs)


# ---- all

def block_fault(page, block):
    if not block.marker:
        return "no comment before the block says what it equals" if needs_marker(page, block) else None
    kind, words = block.marker
    if kind == "unchecked":
        return None if words else "no reason why the block is not checked"
    return text_fault(block, words) if kind == "text" else row_fault(block, words)


def example_faults():
    """Each examples/NAME.bpfs is the script of the row `tutorial: NAME`, and NAME.replies are its replies."""
    for file in sorted(os.listdir(os.path.join(TOP, "examples"))):
        name, ending = os.path.splitext(file)
        if ending != ".bpfs":
            continue
        runs = rows.rows().get(f"tutorial: {name}")
        if not runs:
            yield f"examples/{file}: no row `tutorial: {name}` in {rows.STDIN}"
        elif runs[0].script != read(f"examples/{file}").splitlines():
            yield f"examples/{file}: its lines are not those of the row `tutorial: {name}`"
        elif runs[0].replies != read(f"examples/{name}.replies").splitlines():
            yield f"examples/{name}.replies: these are not the replies of the row `tutorial: {name}`"


def faults(pages):
    for page in pages:
        for block in blocks_of(page):
            if fault := block_fault(page, block):
                yield f"{page}:{block.line}: {fault}"
    yield from example_faults()


def notes(pages):
    """Yields what is not compared because its file is missing."""
    for page in pages:
        for block in blocks_of(page):
            if block.marker and block.marker[0] == "text":
                if not exists(block.marker[1]):
                    yield f"{page}:{block.line}: not compared, since {block.marker[1]} is missing"
