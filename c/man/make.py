#!/usr/bin/env python3
"""Makes the manual pages of section 3 from the comments of the headers.

    make.py            writes man/bpfs.3, man/bpfs_carry.3 and man/bpfs_follow.3
    make.py --check    prints the name of each page that would change; the status is 1 if there is one
"""
import os
import re
import sys

TOP = os.path.dirname(os.path.dirname(os.path.abspath(__file__)))
DATE = "December 1, 2026"
# A page: its name, its description, its headers, the library, and the pages that it refers to.
PAGES = [
    ("bpfs", "crash-safe file system over 64-bit words, in the calling process", ["bpfs.h"], "-lbpfs",
     ["bpfs_carry 3", "bpfs_follow 3", "bpfs 5"]),
    ("bpfs_carry", "carriers of the log of a bpfs volume to files and to persistent memory",
     ["bpfs/carry.h", "bpfs/file.h", "bpfs/redo.h", "bpfs/pmem.h"], "-lbpfs (bpfs/pmem.h: -lbpfs_pmem -lbpfs -lpmem)",
     ["bpfs 3", "bpfs_follow 3", "bpfs 5"]),
    ("bpfs_follow", "streams of the log of a bpfs volume, and followers", ["bpfs/stream.h", "bpfs/follow.h"], "-lbpfs_follow -lbpfs",
     ["bpfs 3", "bpfs_carry 3", "bpfs 5"]),
]
LAST_SECTION = "pointers that are NULL"  # the wrappers, of which no page speaks
SENTENCE_END = re.compile(r"(?<=[.:;])\s+(?=[A-Z])")
PROTOTYPE = re.compile(r"^(?:static inline )?((?:const )?\w+(?: \*| ))(\w+)\((.*)\)(?:;| \{)$", re.S)
PIECE = re.compile(r"(?P<comment>/\*.*?\*/)|(?P<rest>[^\n]+)", re.S)


def escaped(line):
    line = line.replace("\\", "\\e")
    return "\\&" + line if line.startswith((".", "'")) else line


def literal(lines):
    return [".Bd -literal -offset indent", *map(escaped, lines), ".Ed"]


def text(words):
    """Returns a paragraph with each sentence on a line of its own."""
    return [escaped(sentence) for sentence in SENTENCE_END.split(" ".join(words))]


def comment_lines(comment):
    lines = comment.strip().removeprefix("/*").removesuffix("*/").rstrip().split("\n")
    return [re.sub(r"^ \* ?", "", line).rstrip() if i else line.strip() for i, line in enumerate(lines)]


ITEM = re.compile(r" *(?:- |\d+\. )| +(?=E[A-Z]+ {3})| +(?=BPFS_[A-Z]+ {2,})")


def prose(lines, indent=4):
    """Returns mdoc for the lines of a comment: paragraphs, items and, with that indent, what is literal."""
    blocks, kind = [], None
    for line in lines:
        if not line.strip():
            if kind == "literal":
                blocks[-1][1].append("")
            kind = None if kind != "literal" else kind
        elif kind != "item" and line.startswith(" " * indent) and not ITEM.match(line):
            if kind != "literal":
                blocks.append(("literal", []))
            kind = "literal"
            blocks[-1][1].append(line[indent:])
        elif ITEM.match(line):
            kind = "item"
            blocks.append((kind, [line.strip()]))
        else:
            if kind not in ("text", "item") or kind == "item" and not line.startswith(" "):
                kind = "text"
                blocks.append((kind, []))
            blocks[-1][1].append(line.strip())
    made, before = [], None
    for kind, words in blocks:
        if before == "item" and kind != "item":
            made.append(".El")
        if kind == "literal":
            made += literal("\n".join(words).rstrip().split("\n"))
        elif kind == "item":
            if before != "item":
                made.append(".Bl -item -offset indent -compact")
            made += [".It", *text([re.sub(r"^- ", "", words[0]), *words[1:]])]
        else:
            made += ([".Pp"] if made else []) + text(words)
        before = kind
    return made + ([".El"] if before == "item" else [])


def head(lines):
    """Returns mdoc for the comment at the top of a header, whose sections have titles in capitals."""
    made, section = [], []
    for line in [*lines, "END"]:
        if re.match(r"[A-Z][A-Z ]+$", line):
            made += prose(section, 2 if made else 4)
            section = []
            if line != "END":
                made.append(f".Ss {line.capitalize()}")
        else:
            section.append(re.sub(r"^  ", "", line) if made else line)
    return made


def parts(source):
    """Yields the comments and declarations after the head, as kinds with their texts and whether a blank line follows."""
    body = source[source.index("*/") + 2:source.rindex("#ifdef __cplusplus")]
    body = re.sub(r"^#if.*?^#endif$", "", body[body.index("#ifdef __cplusplus"):], flags=re.M | re.S)
    for chunk in re.split(r"\n\s*\n(?=\S)", body):
        at = 0
        while at < len(chunk):
            rest = chunk[at:].lstrip("\n")
            at = len(chunk) - len(rest)
            if not rest.strip():
                break
            found = re.match(r"/\*.*?\*/", rest, re.S)
            if found:
                kind, end = "comment", found.end()
            elif rest.startswith("#"):
                kind, end = "macro", (rest + "\n").index("\n")
            elif re.match(r"(typedef )?(struct|enum)\b[^;()]*\{", rest):
                kind, end = "type", re.search(r"^\}.*?;|\};$|\} \w+;$", rest, re.M).end()
            elif rest.startswith(("typedef", "struct", "#")):
                kind, end = "type", rest.index(";") + 1
            else:
                end = min(rest.find(it) for it in (";", "{") if it in rest) + 1
                kind = "function"
                if rest[end - 1] == "{":
                    at += rest.index("\n}") + 2 - end
            yield kind, rest[:end], not chunk[at + end:].strip()
            at += end


def function(declaration):
    found = PROTOTYPE.match(" ".join(declaration.split()))
    if not found:
        raise SystemExit(f"make.py: not a function: {declaration}")
    return found.group(1).strip(), found.group(2), [it.strip() for it in found.group(3).split(",")]


def synopsis(functions):
    made = []
    for result, name, parameters in functions:
        made += [f".Ft {result}", f".Fo {name}", *(f'.Fa "{it}"' for it in parameters), ".Fc"]
    return made


def header(path):
    """Returns the functions of a header, mdoc for its head and its declarations, and for its results."""
    source = open(os.path.join(TOP, "include", path), encoding="utf-8").read()
    lines = comment_lines(source[:source.index("*/") + 2])
    lines[0] = lines[0].split(" - ", 1)[1]
    lines[0] = lines[0][0].upper() + lines[0][1:]
    top, made, results, functions, comment, names = head(lines), [], [], [], [], []

    def flush():
        nonlocal comment, names
        if names:
            made.extend([".Bl -tag -width Ds", *(f".It Fn {it}" for it in names), *prose(comment), ".El"])
        elif comment:
            made.extend([".Pp", *prose(comment)])
        comment, names = [], []

    for kind, piece, is_last in parts(source):
        section = re.match(r"/\* ---- (.*?) -+ ?\*/", piece)
        if section and section.group(1) == LAST_SECTION:
            break
        if section:
            flush()
            made.append(f".Ss {section.group(1).capitalize()}")
        elif kind == "comment":
            flush()
            comment = comment_lines(piece)
        elif kind == "function":
            functions.append(function(piece))
            names.append(functions[-1][1])
        elif "BPFS_OK = 0" in piece:
            for name, number, meaning in re.findall(r"(BPFS_\w+) = (\d+), +/\* (.*?) \*/", "BPFS_OK = 0, /* success */" + piece):
                results += [f".It Dv {name} Pq {number}", *text([meaning[0].upper() + meaning[1:] + "."])]
        else:
            if comment:
                flush()
            made.extend(literal(piece.split("\n")))
        if is_last:
            flush()
    flush()
    return functions, top, made, results


def page(name, description, headers, library, others):
    read = [(path, *header(path)) for path in headers]
    names = [it[1] for _, functions, *_ in read for it in functions]
    made = ['.\\" Made by man/make.py of the headers. Change these.', f".Dd {DATE}", f".Dt {name.upper()} 3", ".Os", ".Sh NAME"]
    made += [f".Nm {it}" for it in [name, *(it for it in names if it != name)]]
    made[5:-1] = [f"{it} ," for it in made[5:-1]]
    made += [f".Nd {description}", ".Sh LIBRARY", f"Link with {library}, or by pkg-config.", ".Sh SYNOPSIS"]
    for path, functions, *_ in read:
        made += [f".In {path}", *synopsis(functions)]
    made.append(".Sh DESCRIPTION")
    for path, _, top, declarations, _ in read:
        if len(read) > 1:
            made.append(f".Ss The header {path}")
        made += [*top, *([".Ss Types and constants"] if len(read) == 1 else []), *declarations]
    results = [line for *_, lines in read for line in lines]
    if results:
        made += [".Sh RETURN VALUES", "A call of type uint32_t returns one of these, unless it is described otherwise:", ".Bl -tag -width Ds"]
        made += [*results, ".El"]
    made.append(".Sh SEE ALSO")
    made += [f".Xr {it}" + (" ," if it != others[-1] else "") for it in others]
    return "\n".join(made).replace("\n.Ed\n.Bd -literal -offset indent\n", "\n") + "\n"


def main():
    status = 0
    for name, *rest in PAGES:
        path, made = os.path.join(TOP, "man", f"{name}.3"), page(name, *rest)
        if sys.argv[1:] == ["--check"]:
            if not os.path.exists(path) or open(path, encoding="utf-8").read() != made:
                print(f"man/{name}.3 is not what man/make.py makes")
                status = 1
        else:
            open(path, "w", encoding="utf-8").write(made)
    return status


sys.exit(main())
