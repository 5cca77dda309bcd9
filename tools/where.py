#!/usr/bin/env python3
"""Says where a name of a contract is defined, and what uses it.

    where.py NAME ..    a definition (as IsWellFormed), a function (as do_write), or a clause's own name

For each name it prints where it is defined, which functions require it and which ensure it, and which mutation tests
change such a function. A mutation test belongs to the function that has the first text that it replaces.
"""
import bisect
import glob
import os
import re
import sys

sys.dont_write_bytecode = True

from checks.tree import TOP, files_below, line_at, read

DEFINED = r"^ *(?:(?:pub|abbrev|record|data|unfoldable) )+{}\b"
FUNCTION = re.compile(r"^ *(?:pub(?:\(crate\))? )?(?:unsafe )?(?:extern \"C\" )?fn (\w+)", re.M)
CLAUSE = re.compile(r"\b(requires|ensures)\s+(?:(\w+)\s+)?\{")


def sources(suffix, folder):
    return [path for path in files_below("crates", (suffix,)) if f"/{folder}/" in path]


def block_end(text, start):
    """Returns the place after the brace that closes the one at `start`."""
    depth = 0
    for place in range(start, len(text)):
        depth += {"{": 1, "}": -1}.get(text[place], 0)
        if depth == 0:
            return place + 1
    return len(text)


class File:
    """A source file, with its functions and their clauses."""

    def __init__(self, path):
        self.path = path
        self.text = read(path)
        found = list(FUNCTION.finditer(self.text))
        self.starts = [match.start() for match in found]
        self.names = [match[1] for match in found]

    def function_at(self, place):
        number = bisect.bisect(self.starts, place) - 1
        return self.names[number] if number >= 0 else None

    def clauses(self):
        for match in CLAUSE.finditer(self.text):
            end = block_end(self.text, match.end() - 1)
            yield match.start(), match[1], match[2], self.text[match.end() - 1 : end]


def edits():
    """Returns by file the mutation tests that change it, each with the text that it replaces first."""
    found = {}
    for path in sorted(glob.glob(os.path.join(TOP, "crates/*/must-fail/*.edit"))):
        path = os.path.relpath(path, TOP)
        lines = read(path).splitlines()
        file, old = (next(line[len(key) :] for line in lines if line.startswith(key)) for key in ("file: ", "old: "))
        found.setdefault(os.path.join(os.path.dirname(os.path.dirname(path)), file), []).append((path, old))
    return found


def definitions(name):
    pattern = re.compile(DEFINED.format(re.escape(name)), re.M)
    for path in sources(".antt", "specs"):
        for match in pattern.finditer(read(path)):
            yield path, line_at(read(path), match.start())
    for path in sources(".rt", "src"):
        for match in FUNCTION.finditer(read(path)):
            if match[1] == name:
                yield path, line_at(read(path), match.start(1))


def show(name, files, changed):
    word = re.compile(rf"(?<![\w.]){re.escape(name)}(?!\w)")
    lines, functions = {"requires": [], "ensures": []}, set()
    for file in files:
        for place, kind, label, body in file.clauses():
            if name == label or word.search(body):
                function = file.function_at(place)
                functions.add((file.path, function))
                lines[kind].append(f"{file.path}:{line_at(file.text, place)}: {function}{f', {label}' if label else ''}")
    defined = [f"{path}:{line}" for path, line in definitions(name)]
    against = []
    for file in files:
        for path, old in changed.get(file.path, []):
            function = file.function_at(file.text.find(old))
            if (file.path, function) in functions or function == name:
                against.append(f"{path}: {function}")
    parts = [("defined", defined), ("required", lines["requires"]), ("ensured", lines["ensures"]), ("mutation tests", against)]
    print(f"{name}")
    for title, found in parts:
        print(f"  {title}: {len(found)}")
        print("".join(f"    {line}\n" for line in found), end="")
    return bool(defined or functions)


def main(words):
    if not words or words[0] in ("-h", "--help"):
        print(__doc__)
        return 0 if words else 2
    files = [File(path) for path in sources(".rt", "src")]
    changed = edits()
    found = [show(name, files, changed) for name in words]
    return 0 if all(found) else 1


if __name__ == "__main__":
    sys.exit(main(sys.argv[1:]))
