"""The version of the C package: the file VERSION has it, and the header has the same."""
import re

from .tree import read

HEADER = "c/include/bpfs.h"


def faults():
    version = read("VERSION").strip()
    if not re.fullmatch(r"\d+\.\d+\.\d+", version):
        yield f"VERSION: {version} is not MAJOR.MINOR.PATCH"
    found = dict(re.findall(r"^#define BPFS_VERSION_(MAJOR|MINOR|PATCH) (\d+)$", read(HEADER), re.M))
    stated = ".".join(found.get(name, "?") for name in ("MAJOR", "MINOR", "PATCH"))
    if stated != version:
        yield f"{HEADER}: version {stated}, and VERSION has {version}"
