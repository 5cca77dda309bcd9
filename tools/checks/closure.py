"""The import closure of a file of definitions: what somebody has to read who wants to believe a theorem."""
import functools
import re

from .text import table
from .tree import is_file, line_count, read

USED = re.compile(r"^\s*(?:pub )?use Rattle\.(\w+)\.specs\.([\w.]+)", re.M)


def file_of(crate, path):
    """Returns the file of definitions that an import names, such as `Tree` or `Lookup.Node`."""
    parts = path.strip(".").split(".")
    for count in range(len(parts), 0, -1):
        file = f"crates/{crate}/specs/{'/'.join(parts[:count])}.antt"
        if is_file(file):
            return file
    return None


def source_of(crate, path):
    """Returns the source that declares a type of the program which a file of definitions names."""
    modules = [part for part in path.strip(".").split(".")[1:] if part[0].islower()]
    for file in (f"crates/{crate}/src/{'/'.join(modules)}.rt", f"crates/{crate}/src/{'/'.join(modules)}/mod.rt"):
        if modules and is_file(file):
            return file
    return f"crates/{crate}/src/lib.rt"


@functools.cache
def closure(root):
    """Returns the files of definitions that a file imports, with itself, and the sources whose types they name."""
    files, sources, todo = set(), set(), [root]
    while todo:
        file = todo.pop()
        if file in files:
            continue
        files.add(file)
        for crate, path in USED.findall(read(file)):
            if path.startswith("declared"):
                if is_file(f"crates/{crate}/src/lib.rt") or is_file(f"crates/{crate}/src/main.rt"):
                    sources.add(source_of(crate, path))
            elif found := file_of(crate, path):
                todo.append(found)
    return files, sources


def root_file(name):
    """Returns the file that a page means by a name such as `bp_shell/specs/Running`."""
    return f"crates/{name.strip('`').removesuffix('.antt')}.antt"


def by_crate(crates, files):
    for name in crates.names:
        of_crate = sorted(file for file in files if file.startswith(f"crates/{name}/"))
        if of_crate:
            yield name, of_crate


def what_to_read(crates, root):
    """Returns a table of the closure: for each crate its files with their lines, and the sources of named types."""
    files, sources = closure(root_file(root))
    rows = []
    for name, of_crate in by_crate(crates, files):
        short = [file.split("/specs/")[1].removesuffix(".antt") for file in of_crate]
        cells = ", ".join(f"{file} {line_count(path)}" for file, path in zip(short, of_crate))
        rows.append([f"`{name}/specs`", cells, f"{sum(map(line_count, of_crate)):,}"])
    rows.append([f"{len(files)} files", "", f"{sum(map(line_count, files)):,}"])
    named = []
    for name, of_crate in by_crate(crates, sources):
        named.append(f"`{name}/src`: " + ", ".join(file.split("/src/")[1] for file in of_crate))
    if named:
        rows.append(["types in", "; ".join(named), ""])
    return table(["Crate", "Files, each with its lines", "Lines:"], rows)
