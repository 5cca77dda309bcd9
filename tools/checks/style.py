"""The rules of docs/STYLE.md that a program can check, for the pages that are finished."""
import fnmatch
import os
import re

from . import definitions
from .tree import read

# The pages that these rules hold for, as patterns.
FINISHED = ["*.md", "docs/*.md", "crates/*/README.md", "c/README.md", "c/*/README.md", "docs/*.1"]
MOST_COLUMNS, MOST_IN_PARAGRAPH, MOST_IN_SENTENCE = 100, 80, 40
WORDS = re.compile(r"\b(behind|tells?|told|so\s+many|but\s+for|anew|whoever|dear|stands\s+for)\b", re.I)
# A made part that is checked where its text comes from.
MADE_ELSEWHERE = re.compile(r"<!-- definitions: made by .*?<!-- end of definitions -->", re.S)
ITEM = re.compile(r"\s*(?:[-*+]|\d+[.)])\s+")
LINK = re.compile(r"!?\[([^\]]*)\](\([^)\s]*\)|\[[^\]]*\])")
SENTENCE_END = re.compile(r"(?<=[.!?])[)\"'*_]*\s+(?=[\"'(*_`\[]*[A-Z0-9`])")


def blanked(found):
    """Returns blanks in place of a match, with its ends of lines."""
    return re.sub(r"[^\n]", " ", found.group(0))


def without_comments(text):
    return re.sub(r"<!--.*?-->", blanked, text, flags=re.S)


def masked_code(text):
    """Returns a text with one word of the same length in place of each inline code."""
    return re.sub(r"(`+)(?!`)(.+?)(?<!`)\1(?!`)", lambda found: "C" + "x" * (len(found.group(0)) - 1), text, flags=re.S)


def linkless(text):
    """Returns a text with the words of each link, and blanks in place of its target."""
    return LINK.sub(lambda found: f" {found.group(1)} " + " " * len(found.group(2)), text)


class Paragraph:
    """Some lines of prose with the number of the first."""

    def __init__(self, line, text, is_prose=True):
        self.line, self.texts, self.is_prose = line, [text], is_prose

    def faults(self):
        text = linkless(masked_code("\n".join(self.texts)))
        for found in WORDS.finditer(text):
            word = " ".join(found.group(0).lower().split())
            yield self.line + text.count("\n", 0, found.start()), f'the word "{word}"'
        if not self.is_prose:
            return
        if (count := word_count(text)) > MOST_IN_PARAGRAPH:
            yield self.line, f"a paragraph of {count} words, more than {MOST_IN_PARAGRAPH}"
        start = 0
        for end in [*SENTENCE_END.finditer(text), None]:
            sentence = text[start:end.start() if end else len(text)]
            if (count := word_count(sentence)) > MOST_IN_SENTENCE:
                line = self.line + text.count("\n", 0, start)
                begin = " ".join("\n".join(self.texts)[start:].split()[:6])
                yield line, f'a sentence of {count} words, more than {MOST_IN_SENTENCE}: "{begin} .."'
            start = end.end() if end else len(text)


def word_count(text):
    return sum(1 for word in text.split() if re.search(r"\w", word))


def prose(lines):
    """Yields the paragraphs of a page of Markdown, and as no prose its headings and the rows of its tables."""
    current, fence, in_item, was_blank = None, None, False, True
    for number, line in enumerate(lines, 1):
        bare = re.sub(r"^\s*(?:> ?)+", "", line)
        opens = re.match(r"\s*(```+|~~~+)", bare)
        is_code = not current and was_blank and not in_item and bare.startswith("    ")
        if fence or opens or is_code or not bare.strip() or re.match(r"#|\||\s*[-=*_]{3,}\s*$", bare):
            if current:
                yield current
            current = None
            if fence:
                fence = None if bare.strip() == fence else fence
            elif opens:
                fence = opens.group(1)
            elif re.match(r"#|\|", bare):
                in_item = False
                yield Paragraph(number, bare, False)
        elif ITEM.match(bare):
            if current:
                yield current
            current, in_item = Paragraph(number, ITEM.sub("", bare, count=1)), True
        elif current:
            current.texts.append(bare)
        else:
            in_item = in_item and bare.startswith(" ")
            current = Paragraph(number, bare)
        was_blank = not line.strip()
    if current:
        yield current


def is_only_links(line):
    return LINK.search(line) and not re.search(r"\w", LINK.sub("", line))


def width_faults(lines):
    fence = None
    for number, line in enumerate(lines, 1):
        if opens := re.match(r"[\s>]*(```+|~~~+)", line):
            if not fence:
                fence = opens.group(1)
            elif line.strip("> \n") == fence:
                fence = None
        elif not fence and len(line.rstrip()) > MOST_COLUMNS and not re.match(r"#|\||    ", line):
            if not is_only_links(line) and len(line.split()) > 1:
                yield number, f"{len(line.rstrip())} columns, more than {MOST_COLUMNS}"


def page_faults(page):
    """Yields what is wrong in a page of Markdown, as the number of a line and a message."""
    text = MADE_ELSEWHERE.sub(blanked, read(page))
    yield from width_faults([re.sub(r"<!--.*?-->", "", line) for line in text.split("\n")])
    for paragraph in prose(without_comments(text).split("\n")):
        yield from paragraph.faults()


def manual_faults(page):
    """Yields the words that a manual page may not have."""
    for number, line in enumerate(read(page).split("\n"), 1):
        if not line.startswith((".Bd", '.\\"')):
            yield from Paragraph(number, line, False).faults()


def comment_faults(comment):
    """Yields what is wrong in a comment that docs/definitions.md takes."""
    for paragraph in prose(comment.lines):
        for line, message in paragraph.faults():
            yield comment.line + line - 1, message


def definition_faults(path):
    """Yields what is wrong in the comments of a file of definitions."""
    for comment in definitions.comments(definitions.parse(path)):
        yield from comment_faults(comment)


CHECKS = {".md": page_faults, ".1": manual_faults, ".antt": definition_faults}


def faults_of(path):
    """Yields what is wrong in a file of a kind that is checked, in the order of its lines."""
    check = CHECKS[os.path.splitext(path)[1]]
    for line, message in sorted(set(check(path))):
        yield f"{path}:{line}: {message}"


def is_finished(page):
    return any(fnmatch.fnmatchcase(page, pattern) and page.count("/") == pattern.count("/") for pattern in FINISHED)


def faults(crates, pages):
    for page in pages:
        if is_finished(page):
            yield from faults_of(page)
    if is_finished("docs/definitions.md"):
        for _, files in definitions.all_files(crates):
            for file in files:
                yield from faults_of(file.path)
