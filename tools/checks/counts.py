"""Numbers of the tree, which pages quote between two comments."""
import re

from . import closure, rows
from .tree import files_below, line_count


def lines_of(folder, suffix):
    return sum(line_count(path) for path in files_below("crates", (suffix,)) if f"/{folder}/" in path)


def closure_count(words):
    files = closure.closure(closure.root_file(words[2]))[0]
    return len(files) if words[0] == "files" else sum(map(line_count, files))


COUNTS = {
    "crates": lambda crates: len(crates.names),
    "source lines": lambda crates: lines_of("src", ".rt"),
    "definition lines": lambda crates: lines_of("specs", ".antt"),
    "proof lines": lambda crates: lines_of("proofs", ".antt"),
    "mutation tests": lambda crates: len(files_below("crates", (".edit",))),
    "rows": lambda crates: len(rows.rows()),
}


def exact(crates, what):
    """Returns a number, or None for a kind of number that is not counted."""
    words = what.split()
    if what in COUNTS:
        return COUNTS[what](crates)
    if words[:2] == ["lines", "of"] and len(words) == 3:
        return line_count(closure.root_file(words[2]))
    if words[:2] in (["lines", "below"], ["files", "below"]) and len(words) == 3:
        return closure_count(words)
    return None


def rounded(number):
    """Returns a number with its first two digits, or three if it is large."""
    unit = 10 ** max(0, len(str(number)) - (2 if number < 100_000 else 3))
    return round(number / unit) * unit


def number_of(crates, what, shown):
    """Returns a number as pages write it. A number with `about` stays as it is while it is right within 3 %."""
    is_about = what.startswith("about ")
    number = exact(crates, what.removeprefix("about "))
    if number is None:
        return None
    if is_about:
        old = int(shown.replace(",", "")) if re.fullmatch(r"[\d,]+", shown) else 0
        is_right = old == rounded(old) and abs(old - number) <= 0.03 * number
        number = old if is_right else rounded(number)
    return f"{number:,}"
