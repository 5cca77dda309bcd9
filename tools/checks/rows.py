"""The worked examples of crates/bp_rows: what each row runs, and what it has to print (docs/rows.md)."""
import functools
import re
from dataclasses import dataclass, field

from .tree import read

STDIN, STDOUT = "crates/bp_rows/stdin", "crates/bp_rows/stdout"
# How a row can end a run besides `go`. The output of these has other forms, which no page shows.
OTHERS = {"sweep", "plain", "cuts", "parts"}
CHANGED_WORD = re.compile(r"  (?:\d+ 0x[0-9a-f]+|and \d+ more)$")


@dataclass
class Run:
    """One run of a program: its arguments, its script, and what it has to print."""

    words: list
    script: list
    replies: list = field(default_factory=list)
    status: int = 0

    def pairs(self):
        """Returns each line of the script with the lines of its reply."""
        found, replies = [], iter(self.replies)
        for line in self.script:
            answer = [next(replies, "(no reply)")]
            while answer[-1].startswith("entry "):
                answer.append(next(replies, "end"))
            found.append((line, answer))
        return found


def expanded(line):
    """Returns a line of a script in which `{N*TEXT}` is N copies of TEXT."""
    return re.sub(r"\{(\d+)\*([^}]*)\}", lambda found: found.group(2) * int(found.group(1)), line)


def asked():
    """Returns by the name of a row its runs, or None for a row that does anything but simple runs."""
    found, name, words, script = {}, None, [], []
    for line in read(STDIN).splitlines():
        word, _, rest = line.partition(" ")
        if word == "row":
            name, words, script = rest, ["bpfs", "run", "f"], []
            found[name] = []
        elif word == "words":
            words = rest.split()
        elif word in (">", ">|"):
            script.append(expanded(rest))
        elif word in OTHERS:
            found[name] = None
        elif word == "go" and found[name] is not None:
            found[name].append(Run(words, script))
            words, script = ["bpfs", "run", "f"], []
    return found


def printed():
    """Yields each row of the expected output with the replies and the status of its runs, of two versions the first."""
    for section in re.split(r"^== ", read(STDOUT), flags=re.M)[1:]:
        name, _, text = section.partition("\n")
        runs, replies, is_second = [], [], False
        for line in text.splitlines():
            if line == "version 2":
                is_second = True
            elif line.startswith("status "):
                if not is_second:
                    runs.append((replies, int(line.split()[1].rstrip(","))))
                replies, is_second = [], False
            elif line.startswith("  ") and not CHANGED_WORD.match(line):
                replies.append(line[2:])
        yield name, runs


@functools.cache
def rows():
    """Returns the rows by name, each a list of runs; None for a row that is not made of simple runs."""
    found = asked()
    for name, runs in printed():
        if found.get(name) is None:
            continue
        if len(runs) != len(found[name]):
            found[name] = None
            continue
        for run, (replies, status) in zip(found[name], runs):
            run.replies, run.status = replies, status
    return found
