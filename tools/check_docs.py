#!/usr/bin/env python3
"""Checks crates.txt and the documents against the tree, and makes the parts of documents that are made from it.

    check_docs.py                  prints each difference, one a line; the status is 1 if there is one
    check_docs.py --write          first writes the parts that are made from the tree
    check_docs.py --edges          prints for each crate the crates that its files name, and after a bar the
                                   others on which it depends
    check_docs.py --style FILE ..  checks these pages, or files of definitions, as if they were in the list FINISHED

What is checked (one module of tools/checks for each subject):

- crates: crates.txt lists for each crate exactly those on which it depends, lowest first.
- layers: in docs/architecture.md each crate is in the layers once, above those on which it depends. Each row of the
  boundaries is of crates one of which names the other, and no edge lacks its row that no other edge implies.
- made: the parts between two comments are what the tree has (below).
- snippets: code and examples in the documents are equal to files and rows that the CI run compiles or runs (below).
- links: links between documents lead to files and headings, and paths below crates/ exist.
- style: the rules of docs/STYLE.md that a program can check, in the pages of the list FINISHED of checks/style.py.
- gate: tools/gate_prices.txt has four numbers for each crate.
from checks import completions, gate, layers, links, made, snippets, style, version

Parts that are made. A page has

    <!-- NAME ARGUMENT: made by tools/check_docs.py --write -->
    <!-- end of NAME -->

and --write puts the part between these lines. NAME is `edges` (what each crate names), `prices` and `changes` (what CI
costs, from tools/gate_prices.txt), `definitions` (the comments of crates/*/specs), or `closure FILE`, such as
`closure bp_shell/specs/Running`: a table of the files of definitions that FILE imports, with their lines. A number is

    <!-- count: WHAT -->313<!-- end -->

where WHAT is `crates`, `source lines`, `definition lines`, `proof lines`, `mutation tests`, `rows`, `lines of FILE`, or
`lines below FILE` and `files below FILE`: those of the closure of FILE, itself among them. With `about` before WHAT the
number is rounded, and has to be right within 3 %.

Snippets. A comment in the line before a block says what the block equals (in a manual page `.\\" row: NAME`):

    <!-- text: PATH -->          the block is some lines of the file, one after another, with any common indent
    <!-- row: NAME -->           it is what a row of crates/bp_rows does
    <!-- unchecked: REASON -->   it is not compared

A block with a row has one of three forms. In a table the first cell has a line of a script, and the second its reply;
several lines of a reply are several pieces of code. In a code block without `$`, two blanks or more separate a line,
its reply, and a remark; these pairs stand one after another in one run of the row. In a code block with `$`, each
command is followed by its output: `bpfs ..`, with its script by `< examples/NAME.bpfs` or from echo or printf, and with
`; echo $?` for the status; a remark begins with two blanks and `#`. Each such command with its output is a run of the
row, in the same order. A file is called *.img where the row calls it f, and what the shell replaces (`$(..)`, `$name`)
may be anything. In README.md, docs/tutorial.md and docs/bpfs.1 each block with output has such a comment: each code
block without a language or of `console` or `rust`, and each table of lines and replies.
"""
import sys

sys.dont_write_bytecode = True  # (a CI run leaves no file in the clone)

from checks import completions, gate, layers, links, made, snippets, style, version
from checks.crates import Crates
from checks.tree import pages


def faults(crates):
    yield from crates.faults()
    yield from gate.faults(crates)
    yield from version.faults()
    yield from made.faults(crates, pages())
    yield from layers.faults(crates)
    yield from links.faults(pages())
    yield from completions.faults()
    yield from snippets.faults([*pages(), "docs/bpfs.1"])
    yield from style.faults(crates, [*pages(), "docs/bpfs.1"])


def print_edges(crates):
    for name in crates.names:
        direct = crates.direct[name]
        others = crates.sorted(crates.below(name) - direct)
        print(" ".join([f"{name}:", *crates.sorted(direct), *(["|"] + others if others else [])]))


def report(found):
    """Prints what was found, and returns the status."""
    status = 0
    for fault in found:
        print(fault)
        status = 1
    return status


def main():
    match sys.argv[1:]:
        case [] | ["--write"] as words:
            crates = Crates()
            if words:
                made.write_parts(crates, pages())
            for note in snippets.notes(pages()):
                print(f"note: {note}")
            return report(faults(crates))
        case ["--edges"]:
            return print_edges(Crates())
        case ["--style", file, *others]:
            return report(fault for it in [file, *others] for fault in style.faults_of(it))
        case _:
            return __doc__


sys.exit(main())
