"""docs/definitions.md: the public definitions of crates/*/specs, with the comments above them."""
import re
from dataclasses import dataclass, field

from .text import wrap
from .tree import files_below, read

PUBLIC = re.compile(r"^(?:  )?(?:(?:unfoldable|abbrev) pub|pub (?:abbrev|record|data|unfoldable)) ([^\s:({]+)")
SECTION = re.compile(r"^-- ---- (.*)$")
CODE_SPAN = re.compile(r"(`[^`]*`)")


@dataclass
class Comment:
    """Some lines of comment, without their dashes, and the number of the first."""

    line: int = 0
    lines: list = field(default_factory=list)

    def blocks(self):
        """Yields the paragraphs as texts, and what is indented as lists of lines."""
        words, code = [], []
        for line in [*self.lines, ""]:
            is_code = line.startswith("    ")
            if words and (is_code or not line.strip()):
                yield " ".join(words)
                words = []
            if code and not is_code:
                yield code
                code = []
            if is_code:
                code.append(line[4:])
            elif line.strip():
                words.append(line.strip())


@dataclass
class Definitions:
    """A file: its first comment, and in their order the names with their comments and the heads of sections."""

    path: str
    head: Comment
    items: list


def parse(path):
    head, items, comment = None, [], Comment()
    for number, line in enumerate(read(path).splitlines(), 1):
        section, public = SECTION.match(line), PUBLIC.match(line)
        if section:
            items.append((None, Comment(number, [section.group(1)])))
            comment = Comment()
        elif line.startswith("--"):
            comment = comment if comment.lines else Comment(number)
            comment.lines.append(line[3:] if line.startswith("-- ") else line[2:])
        elif public:
            items.append((public.group(1), comment if comment.lines else None))
            comment = Comment()
        elif line.startswith("module _"):
            pass  # (a comment above a module with parameters is that of its first definition)
        else:
            if head is None and comment.lines and not items:
                head = comment
            comment = Comment()
    return Definitions(path, head or Comment(), items)


def all_files(crates):
    """Yields the files with public definitions, crate by crate."""
    for name in crates.names:
        files = [parse(path) for path in files_below(f"crates/{name}/specs", (".antt",))]
        files = [file for file in files if any(name for name, _ in file.items)]
        if files:
            yield name, files


def escaped(text):
    """Returns a text in which Markdown sees no markup outside of code."""
    parts = CODE_SPAN.split(text)
    parts[::2] = (re.sub(r"(?<! )\*|\*(?! )|<(?=[a-zA-Z/!])|[\[\]](?=\()", r"\\\g<0>", part) for part in parts[::2])
    return "".join(parts)


def layout(comment, first, later):
    lines = []
    for block in comment.blocks():
        if isinstance(block, list):
            lines += ["", *(f"{later}{line}".rstrip() for line in ["```", *block, "```"])]
        else:
            lines += [""] * (len(lines) > 0) + wrap(escaped(block), first if not lines else later, later)
    return lines


def names_of(names):
    return ", ".join(f"`{name}`" for name in names)


def items_of(file):
    """Returns a list of the items of a file. Names that have no comment follow the item before them, or stand alone."""
    lines, bare, is_list = [], [], False

    def flush():
        if bare:
            lines.extend(wrap(f"Next to it: {names_of(bare)}.", "  ") if is_list else wrap(f"Also: {names_of(bare)}."))
            bare.clear()

    for name, comment in file.items:
        if name and comment is None:
            bare.append(name)
            continue
        flush()
        if name:
            lines += [""] * bool(lines and not is_list and lines[-1]) + layout(comment, f"- `{name}`: ", "  ")
        else:
            lines += [""] * bool(lines and lines[-1]) + [f"**{escaped(comment.lines[0])}**", ""]
        is_list = bool(name)
    flush()
    return lines


def page(crates):
    """Returns all of it, a section for each crate and file."""
    lines = []
    for name, files in all_files(crates):
        lines += ["", f"## {name}"]
        for file in files:
            title = file.path.removeprefix("crates/").removesuffix(".antt")
            lines += ["", f"### {title}", "", *layout(file.head, "", "")]
            lines += [""] * bool(file.head.lines) + items_of(file)
    return "\n".join(lines[1:])


def comments(file):
    """Returns the comments that the page takes from a file."""
    found = [file.head, *(comment for _, comment in file.items if comment)]
    return [comment for comment in found if comment.lines]
