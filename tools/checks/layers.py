"""docs/architecture.md: the edges between crates, the list of layers, and the table of boundaries."""
import re

from .text import wrapped_rows
from .tree import read

PAGE = "docs/architecture.md"
# Tests and programs, which export nothing to a layer above.
ENDS = {"bp_samples", "bp_examples", "bp_rows", "bp_hello", "bpfs"}
# The first code block below a heading with the word layers.
LAYERS = re.compile(r"^#+ [^\n]*\blayers\b[^\n]*\n(?:(?!#|```)[^\n]*\n)*```\w*\n(.*?)^```", re.M | re.S | re.I)


def edges(crates):
    """Returns for each crate the nearest crates that it names, and after a bar the others."""
    rows = []
    for name in crates.names:
        nearest = crates.nearest(name)
        others = crates.sorted(crates.direct[name] - nearest)
        rows.append((name, " ".join(crates.sorted(nearest) + (["|"] + others if others else []))))
    return wrapped_rows(rows)


def layer_faults(crates):
    found = LAYERS.search(read(PAGE))
    if not found:
        yield f"{PAGE}: no code block below a heading with the word layers"
        return
    shown = [word for line in found.group(1).splitlines() for word in line.split()[:2] if word in crates.names]
    if sorted(shown) != sorted(crates.names):
        wrong = sorted(set(crates.names) ^ set(shown)) or ["a crate"]
        yield f"{PAGE}: the layers lack or repeat {' '.join(wrong)}"
    for place, name in enumerate(shown):
        for below in crates.sorted(crates.below(name) & set(shown[:place])):
            yield f"{PAGE}: in the layers {below} is above {name}, which depends on it"


def boundary_faults(crates):
    shown = set()
    for lower, upper in re.findall(r"^\| ([\w, ]+) to ([\w, ]+) \|", read(PAGE), re.M):
        for low in lower.split(", "):
            for high in crates.above(low) if upper == "all above" else upper.split(", "):
                if low not in crates.names or high not in crates.names:
                    yield f"{PAGE}: a boundary of {low} and {high}, one of which is no crate"
                elif upper != "all above" and low not in crates.direct[high]:
                    yield f"{PAGE}: a boundary of {low} and {high}, but {high} does not name {low}"
                shown.add((low, high))
    for high in crates.names:
        for low in crates.sorted(crates.nearest(high) & set(crates.names)):
            if (low, high) not in shown and high not in ENDS:
                yield f"{PAGE}: no boundary of {low} and {high}"


def faults(crates):
    yield from layer_faults(crates)
    yield from boundary_faults(crates)
