"""Parts of the documents that are made from the tree, each between two comments."""
import itertools
import re

from . import closure, counts, definitions, gate, layers
from .tree import exists, line_at, read, write

PART = re.compile(
    r"(<!-- (?P<name>[\w-]+)(?: (?P<args>[^:\n]+))?: made by tools/check_docs\.py --write -->\n)"
    r"(?P<text>.*?)(\n?<!-- end of (?P=name) -->)",
    re.S,
)
COUNT = re.compile(r"(<!-- count: (?P<what>[^>\n]+?) -->)(?P<text>[^<\n]*)(<!-- end -->)")
MARK = re.compile(r"<!-- ([\w-]+)[^:\n]*: made by|<!-- (count:)")
# What makes a part: called with the crates, and with what follows the name in the comment.
MAKERS = {
    "edges": lambda crates, args: layers.edges(crates),
    "prices": lambda crates, args: gate.prices(crates),
    "changes": lambda crates, args: gate.changes(crates),
    "definitions": lambda crates, args: definitions.page(crates),
    "closure": closure.what_to_read,
}
# The pages that have to have these parts.
WANTED = {
    "docs/architecture.md": ["edges"],
    "docs/gate-tables.md": ["prices", "changes"],
    "docs/definitions.md": ["definitions"],
    "docs/headline.md": ["closure"],
}


def part(crates, found):
    """Returns a part as it has to be, or None for a name that nothing makes."""
    name, args = found["name"], found["args"]
    if name not in MAKERS or name == "closure" and not exists(closure.root_file(args or "")):
        return None
    return f"{found[1]}{MAKERS[name](crates, args)}\n{found[5].lstrip()}"


def first_difference(wanted, text):
    """Returns how many lines of a text are as they have to be before the first that is not."""
    pairs = itertools.zip_longest(wanted.split("\n"), text.split("\n"))
    return sum(1 for _ in itertools.takewhile(lambda pair: pair[0] == pair[1], pairs))


def count(crates, found):
    number = counts.number_of(crates, found["what"], found["text"])
    return None if number is None else f"{found[1]}{number}{found[4]}"


def each(page, text):
    """Yields the parts and the numbers of a page, each with the function that makes it."""
    for pattern, make in ((PART, part), (COUNT, count)):
        for found in pattern.finditer(text):
            yield found, make


def write_parts(crates, pages):
    for page in pages:
        old = text = read(page)
        for found, make in sorted(each(page, old), key=lambda it: -it[0].start()):
            made = make(crates, found)
            if made is not None:
                text = text[:found.start()] + made + text[found.end():]
        if text != old:
            write(page, text)


def faults(crates, pages):
    for page in pages:
        text, names, made_at = read(page), [], set()
        for found, make in each(page, text):
            line = line_at(text, found.start())
            made_at.add(found.start())
            wanted = make(crates, found)
            what = found["name"] if make is part else found["what"]
            names.append(what)
            if wanted is None:
                yield f"{page}:{line}: nothing makes `{what}`"
            elif wanted != found[0]:
                line += first_difference(wanted, found[0])
                yield f"{page}:{line}: `{what}` is not what the tree has: run tools/check_docs.py --write"
        for found in MARK.finditer(text):
            if found.start() not in made_at:
                yield f"{page}:{line_at(text, found.start())}: `{found[1] or found[2]}` lacks its second comment"
        for name in WANTED.get(page, []):
            if name not in names:
                yield f"{page}: the part `{name}` lacks its two comments"
    for page in WANTED:
        if page not in pages:
            yield f"{page}: missing"
