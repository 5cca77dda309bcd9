"""The completions of the command line, and the manual page, have each subcommand and each option."""
import os
import re

from .tree import TOP, read

SOURCE = "crates/bp_command/src/subcommands.rt"
FOLDER = "completions"
MANUAL = "docs/bpfs.1"


def faults():
    text = read(SOURCE)
    commands = [name for name in re.findall(r'Command::new\(alloc, "(\w+)"\)', text) if name != "bpfs"]
    options = re.findall(r'\.long\("(\w+)"\)', text)
    for page in [f"{FOLDER}/{name}" for name in sorted(os.listdir(os.path.join(TOP, FOLDER)))] + [MANUAL]:
        for command in commands:
            if not re.search(rf"\b{command}\b", read(page)):
                yield f"{page}: no subcommand {command}, which {SOURCE} has"
        for option in options:
            if not re.search(rf"(?:--|-l |Fl -){option}\b", read(page)):
                yield f"{page}: no option --{option}, which {SOURCE} has"
