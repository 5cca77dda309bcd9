"""Lays out text that is made."""
import re
import textwrap

WIDTH = 100
# An operator that would begin a list, a quotation or a heading if a line began with it.
OPERATOR = re.compile(r" (?=(?:[-+*>#=]+|\d+[.)])(?: |$))")


def wrap(text, first="", later=""):
    """Returns the lines of a paragraph of Markdown."""
    glued = OPERATOR.sub("\0", text)
    lines = textwrap.wrap(
        glued, WIDTH, initial_indent=first, subsequent_indent=later, break_long_words=False, break_on_hyphens=False
    )
    return [line.replace("\0", " ") for line in lines]


def wrapped_rows(rows):
    """Returns a code block with a row for each head and its words, the words below one another."""
    width = max(len(head) for head, _ in rows) + 2
    lines = []
    for head, words in rows:
        lines += textwrap.wrap(words, WIDTH, initial_indent=head.ljust(width), subsequent_indent=" " * width) or [head]
    return "\n".join(["```", *lines, "```"])


def table(head, rows):
    """Returns a table of Markdown. A head that ends with a colon has its column aligned to the right."""
    rule = ["---:" if cell.endswith(":") else "---" for cell in head]
    lines = [[cell.rstrip(":") for cell in head], *rows]
    body = ["| " + " | ".join(cells) + " |" for cells in lines]
    return "\n".join([body[0], "|" + "|".join(rule) + "|", *body[1:]])
