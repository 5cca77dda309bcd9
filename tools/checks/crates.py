"""The crates: what crates.txt lists, and what their files name."""
import functools
import os
import re

from .tree import TOP, files_below, read

# Parts of the standard library. A crate that names one lists it; the crates above that crate need not.
OF_STD = {"core", "std_alloc"}
FOLDERS = ("src", "specs", "proofs")
COMMENT = {".rt": re.compile(r"//.*"), ".antt": re.compile(r"--.*")}
NAMED = re.compile(r"(?<![\w.:])([a-z]\w*)::|\bRattle\.([a-z]\w*)\.")


class Crates:
    def __init__(self):
        self.listed = {}
        for line in read("crates.txt").splitlines():
            if line.strip() and not line.startswith("#"):
                name, _, libraries = line.partition(":")
                self.listed[name.split()[0]] = libraries.split()
        self.names = list(self.listed)
        kit = {name for libraries in self.listed.values() for name in libraries} - set(self.names)
        self.order = self.names + sorted(kit)
        self.direct = {name: self._named_by(name) for name in self.names}
        self.below = functools.cache(self.below)

    def _named_by(self, crate):
        found = set()
        for folder in FOLDERS:
            for path in files_below(f"crates/{crate}/{folder}", tuple(COMMENT)):
                text = COMMENT[os.path.splitext(path)[1]].sub("", read(path))
                found.update(first or second for first, second in NAMED.findall(text))
        return found & (set(self.order) - {crate})

    def sorted(self, crates):
        return sorted(crates, key=self.order.index)

    def below(self, crate):
        """Returns all crates that a crate depends on, directly or not."""
        found = set(self.direct.get(crate, ()))
        for name in self.direct.get(crate, ()):
            found |= self.below(name) - OF_STD
        return found

    def above(self, crate):
        """Returns all crates that depend on this one."""
        return [name for name in self.names if crate in self.below(name)]

    def nearest(self, crate):
        """Returns the crates that this one names, without those on which another of them depends."""
        named = self.direct[crate]
        return {name for name in named if not any(name in self.below(other) for other in named)}

    def faults(self):
        folders = {
            name
            for name in os.listdir(os.path.join(TOP, "crates"))
            if os.path.isdir(os.path.join(TOP, "crates", name, "src"))
        }
        for name in self.sorted(set(self.names) - folders):
            yield f"crates.txt: {name} has no folder"
        for name in sorted(folders - set(self.names)):
            yield f"crates.txt: {name} is missing"
        for place, name in enumerate(self.names):
            listed, wanted = self.listed[name], self.below(name)
            for library in self.sorted(wanted - set(listed)):
                yield f"crates.txt: {name} lacks {library}"
            for library in self.sorted(set(listed) - wanted):
                yield f"crates.txt: {name} lists {library}, which no file of it needs"
            for library in self.sorted(set(listed) & set(self.names[place:])):
                yield f"crates.txt: {name} comes before {library}, on which it depends"
            if len(set(listed)) < len(listed):
                yield f"crates.txt: {name} lists a crate twice"
