"""Compares commands of a page and their output with the runs of a row."""
import re
import shlex
from dataclasses import dataclass

from .tree import exists, read

# A blank in a command, which the shell fills in.
ANYTHING = "\1"
PUT_BY_SHELL = re.compile(r"\$\([^()]*\)|\$\{[^}]*\}|\$\w+")
ENDS_COMMAND = set(";|<>&}")


@dataclass
class Step:
    """A command of a page: the arguments of bpfs, its script, and the output and status that the page shows."""

    words: list
    script: list
    output: list
    status: int | None


def commands(lines):
    """Returns each command of a console, which may go on in indented lines, with the lines of its output."""
    found = []
    for line in lines:
        line = re.sub(r"  +#.*$", "", line)
        if line.startswith("$ "):
            found.append([line[2:], []])
        elif found and line.startswith(" ") and not found[-1][1]:
            found[-1][0] += "\n" + line
        elif found:
            found[-1][1].append(line)
    return found


def tokens(text):
    """Splits a command of the shell, with blanks for `$(..)`, `${..}` and `$name`."""
    text = PUT_BY_SHELL.sub(ANYTHING, text).replace("\n", " ; ")
    lexer = shlex.shlex(text, posix=True, punctuation_chars=";|<>&")
    lexer.whitespace_split = True
    lexer.commenters = ""
    return list(lexer)


def script_of(words):
    """Returns the lines that the echo and printf among these words print."""
    lines, command = [], None
    for word in [*words, ";"]:
        if set(word) <= ENDS_COMMAND:
            if command:
                lines += " ".join(command[1:]).replace("\\n", "\n").removesuffix("\n").split("\n")
            command = None
        elif word in ("echo", "printf"):
            command = [word]
        elif command:
            command.append(word)
    return lines


def step_of(text, output):
    """Returns what a command asks of bpfs, None if it shows no output, or the reason why it can't be compared."""
    if not output:
        return None
    words, status = tokens(text), None
    if words[-3:] == [";", "echo", "$?"]:
        words, status, output = words[:-3], int(output[-1]), output[:-1]
    if words.count("bpfs") != 1:
        return "not one command of bpfs"
    place = words.index("bpfs")
    script, words = script_of(words[:place]), words[place:]
    if "<" in words:
        place = words.index("<")
        path = words[place + 1]
        if not exists(path):
            return f"no file {path}"
        script, words = read(path).splitlines(), words[:place] + words[place + 2:]
    if any(set(word) <= ENDS_COMMAND for word in words):
        return "the output of bpfs passes through another command"
    return Step(words, script, output, status)


def fits(line, shown):
    """Returns whether a line of a row is one that a page shows, with anything in place of its blanks."""
    return re.fullmatch(re.escape(shown).replace(re.escape(ANYTHING), ".*"), line) is not None


def is_word(word, shown):
    """Returns whether an argument of a row is one that a page shows. The file is called f in the row."""
    return word == shown or word == "f" and shown.endswith((".img", "FILE"))


def are_words(words, shown):
    return len(words) == len(shown) and all(map(is_word, words, shown))


def is_step(run, step):
    return (
        are_words(run.words, step.words)
        and len(run.script) == len(step.script)
        and all(map(fits, run.script, step.script))
        and run.replies == step.output
        and step.status in (None, run.status)
    )


def console_fault(lines, runs):
    """Compares commands and their output with the runs of a row, which have to come in the same order."""
    left = iter(runs)
    for text, output in commands(lines):
        step, name = step_of(text, output), " ".join(text.split())
        if isinstance(step, str):
            return f"`{name}`: {step}"
        if step and not any(is_step(run, step) for run in left):
            return f"no further run of the row is `{name}` with this output"
    return None
