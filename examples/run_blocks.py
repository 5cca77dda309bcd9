#!/usr/bin/env python3
"""Runs the commands in documents, and compares their output with the documents.

    run_blocks.py PROGRAM [PAGE ..]

PROGRAM is a built bpfs, such as crates/bpfs/out/bpfs. A PAGE is Markdown or a manual page, with its path from the top of
the repository; the default is docs/tutorial.md, docs/bpfs.1 and README.md. The code blocks of a page that call bpfs run
in their order, in one shell and one new directory:

- In a block with lines that begin with `$ `, each such line is a command, which may go on in indented lines. Its output
  follows it, standard error included.
- Any other block runs as a whole and has to end with status 0. Its output is not compared.

Two spaces and `#` begin a remark.
"""
import os
import re
import shutil
import subprocess
import sys
import tempfile

TOP = os.path.dirname(os.path.dirname(os.path.abspath(__file__)))
PAGES = ("docs/tutorial.md", "docs/bpfs.1", "README.md")
CALL = re.compile(r"\bbpfs (format|run|check|play|export)\b")


def blocks(page, lines):
    """Yields each block of code that is for a shell, as the number of its first line and its lines."""
    begin, end = (r"\.Bd", r"\.Ed") if page.endswith(".1") else (r"```(sh|console|)$", r"```")
    first = None
    for number, line in enumerate(lines, 1):
        if first is None:
            first = number if re.match(begin, line) else None
        elif re.match(end, line):
            yield first + 1, lines[first:number - 1]
            first = None


def commands(first, block):
    """Yields the commands of a block: the number of the line, the text, and the output, None where it is not compared."""
    block = [re.sub(r"  +#.*$", "", line) for line in block]
    starts = [place for place, line in enumerate(block) if line.startswith("$ ")]
    if not starts:
        yield first, block, None
    for start, end in zip(starts, starts[1:] + [len(block)]):
        last = start + 1
        while last < end and block[last].startswith(" "):
            last += 1
        yield first + start, [block[start][2:], *block[start + 1:last]], block[last:end]


def read_commands(page):
    with open(os.path.join(TOP, page), encoding="utf-8") as file:
        lines = file.read().splitlines()
    if page.endswith(".1"):
        lines = [line.replace(r"\e", "\\") for line in lines]
    for first, block in blocks(page, lines):
        if CALL.search("\n".join(block)):
            yield from commands(first, block)


def prepare(folder, program):
    """Puts the program and the files that the pages expect into a directory."""
    os.mkdir(os.path.join(folder, "bin"))
    os.symlink(program, os.path.join(folder, "bin", "bpfs"))
    os.symlink(os.path.join(TOP, "examples"), os.path.join(folder, "examples"))
    shutil.copy(os.path.join(TOP, "LICENSE"), folder)
    with open(os.path.join(folder, "notes"), "w", encoding="utf-8") as file:
        file.write("hello\n")


def script_of(found):
    """Returns a script of the commands, which writes the output and the status of each to files."""
    text = ""
    for index, (_, command, output) in enumerate(found):
        stops = "set -e" if output is None else "set +e"
        text += "\n".join([stops, "{", *command, f"}} > out.{index} 2>&1", f"echo $? > status.{index}", ""])
    return text


def read_result(folder, name, index):
    """Returns the lines of the output or the status of a command, None if there are none."""
    try:
        with open(os.path.join(folder, f"{name}.{index}"), encoding="utf-8", errors="replace") as file:
            return file.read().splitlines()
    except FileNotFoundError:
        return None


def fault(folder, index, output):
    """Returns what is wrong with a command, None if nothing is."""
    status, printed = (read_result(folder, name, index) for name in ("status", "out"))
    if printed is None:
        return "not run"
    if status is None or output is None and status != ["0"]:
        return f"failed: {printed}"
    return None if output in (None, printed) else f"printed {printed}"


def run_page(page, program):
    """Runs the commands of a page, and returns whether all outputs are those of the page."""
    found, is_right = list(read_commands(page)), True
    with tempfile.TemporaryDirectory() as folder:
        prepare(folder, program)
        env = dict(os.environ, PATH=f"{folder}/bin:{os.environ['PATH']}")
        subprocess.run(["sh", "-c", script_of(found)], cwd=folder, env=env, stdin=subprocess.DEVNULL, check=False)
        for index, (line, command, output) in enumerate(found):
            name = f"{page}:{line}: {command[0]}{' ..' if len(command) > 1 else ''}"
            if why := fault(folder, index, output):
                print(f"FAILED: {name}: {why}")
                is_right = False
            else:
                print(f"ok: {name}")
    return is_right


def main():
    if len(sys.argv) < 2:
        sys.exit(__doc__)
    program, pages = os.path.abspath(sys.argv[1]), sys.argv[2:] or PAGES
    return 0 if all([run_page(page, program) for page in pages]) else 1


sys.exit(main())
