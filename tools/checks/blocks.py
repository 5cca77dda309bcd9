"""Reads the code blocks and the tables of a page, each with the comment that says what it equals."""
import re
from dataclasses import dataclass

from .tree import read

COMMENT = re.compile(r'(?:<!--|\.\\")\s*(text|row|unchecked):\s*(.*?)\s*(?:-->\s*)?$')


@dataclass
class Block:
    """A code block or a table of a page."""

    line: int
    kind: str
    lines: list
    marker: tuple


def marker_before(lines, place):
    """Returns the marker in the line before a block, with blank lines between, as its kind and its words."""
    while place > 0 and not lines[place - 1].strip():
        place -= 1
    found = COMMENT.match(lines[place - 1].strip()) if place else None
    return found.groups() if found else None


def end_of_block(lines, place, is_end):
    while place < len(lines) and not is_end(lines[place]):
        place += 1
    return place


def markdown_blocks(lines):
    place = 0
    while place < len(lines):
        line, first = lines[place], place
        if fence := re.match(r"\s*(```+|~~~+)(\w*)", line):
            place = end_of_block(lines, place + 1, lambda it: it.strip().startswith(fence.group(1)))
            yield Block(first + 1, fence.group(2), lines[first + 1:place], marker_before(lines, first))
        elif line.startswith("|"):
            place = end_of_block(lines, place, lambda it: not it.startswith("|")) - 1
            yield Block(first + 1, "table", lines[first:place + 1], marker_before(lines, first))
        place += 1


def manual_blocks(lines):
    place = 0
    while place < len(lines):
        if lines[place].startswith(".Bd"):
            first = place
            place = end_of_block(lines, place + 1, lambda it: it.startswith(".Ed"))
            body = [line.replace("\\e", "\\").replace("\\-", "-") for line in lines[first + 1:place]]
            yield Block(first + 1, "console", body, marker_before(lines, first))
        place += 1


def blocks_of(page):
    lines = read(page).splitlines()
    return markdown_blocks(lines) if page.endswith(".md") else manual_blocks(lines)
