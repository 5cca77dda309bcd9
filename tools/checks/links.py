"""Links between documents, and the paths that they name. The index links to each page of docs and of the top."""
import os
import re

from .tree import TOP, exists, files_below, read

INDEX = "docs/README.md"
SUFFIXES = ("", ".antt", ".rt", ".edit")


def anchors(text):
    """Returns the anchors of a page's headings."""
    text = re.sub(r"^```.*?^```", "", text, flags=re.M | re.S)
    found = set()
    for heading in re.findall(r"^#+ +(.*)$", text, re.M):
        plain = re.sub(r"\[([^\]]*)\]\([^)]*\)", r"\1", heading.strip()).lower()
        found.add(re.sub(r"[^\w\- ]", "", plain).replace(" ", "-"))
    return found


def link_faults(page):
    text = re.sub(r"^```.*?^```", "", read(page), flags=re.M | re.S)
    for target in re.findall(r"\]\(([^)\s]+)\)", text):
        if re.match(r"[a-z]+:", target):
            continue
        path, _, anchor = target.partition("#")
        file = os.path.normpath(os.path.join(os.path.dirname(page), path)) if path else page
        if not exists(file):
            yield f"{page}: a link to {target}, which does not exist"
        elif anchor and file.endswith(".md") and anchor not in anchors(read(file)):
            yield f"{page}: a link to {target}, but {file} has no such heading"


def path_faults(page):
    for path in re.findall(r"`(?:crates/)?((?!c/)\w+/(?:src|specs|proofs|must-fail)(?:/[\w.]+)*)`", read(page)):
        if "NAME" not in path and not any(exists(f"crates/{path}{suffix}") for suffix in SUFFIXES):
            yield f"{page}: crates/{path} does not exist"


def index_faults():
    linked = re.findall(r"\]\(([^)\s#]+)", read(INDEX))
    tops = sorted(name for name in os.listdir(TOP) if name.endswith(".md"))
    for page in [*tops, *files_below("docs", (".md", ".1"))]:
        if page != INDEX and os.path.relpath(page, "docs") not in linked:
            yield f"{INDEX}: no link to {page}"


def faults(pages):
    for page in pages:
        yield from link_faults(page)
        yield from path_faults(page)
    yield from index_faults()
