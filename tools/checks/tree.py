"""Reads the files of the repository."""
import functools
import os

TOP = os.path.dirname(os.path.dirname(os.path.dirname(os.path.abspath(__file__))))


@functools.cache
def read(path):
    """Returns the text of a file, whose path starts at the top of the repository."""
    with open(os.path.join(TOP, path), encoding="utf-8") as file:
        return file.read()


def write(path, text):
    with open(os.path.join(TOP, path), "w", encoding="utf-8") as file:
        file.write(text)
    read.cache_clear()


def exists(path):
    return os.path.exists(os.path.join(TOP, path))


def is_file(path):
    return os.path.isfile(os.path.join(TOP, path))


@functools.cache
def files_below(folder, suffixes):
    """Returns the files below a folder whose names end so, sorted. Skips build output and hidden folders."""
    found = []
    for at, folders, names in os.walk(os.path.join(TOP, folder)):
        folders[:] = sorted(name for name in folders if name != "out" and not name.startswith("."))
        found += (os.path.relpath(os.path.join(at, name), TOP) for name in sorted(names) if name.endswith(suffixes))
    return found


def pages():
    """Returns all Markdown files."""
    return files_below(".", (".md",))


def line_count(path):
    return len(read(path).splitlines())


def line_at(text, place):
    """Returns the number of the line, from 1, that has the character at a place of a text."""
    return text.count("\n", 0, place) + 1
