"""A checkout of this repository: its crates, what each stands on, and which of them are proved."""

import hashlib
import os

SOURCES = ("src", "specs", "proofs")


class Checkout:
    """The crates of a checkout, with what each stands on."""

    def __init__(self, top):
        self.top = top
        self.uses = {}
        self.sums = {}
        with open(f"{top}/crates.txt", encoding="utf-8") as file:
            lines = [line.split("#")[0].strip() for line in file]
        for name, _, uses in (line.partition(":") for line in lines if line):
            self.uses[name.split()[0]] = uses.split()

    def folder(self, name):
        return f"{self.top}/crates/{name}"

    def own(self, name):
        return [it for it in self.uses[name] if it in self.uses]

    def below(self, name):
        found, left = set(), self.own(name)
        while left:
            it = left.pop()
            if it not in found:
                found.add(it)
                left += self.own(it)
        return found

    def files(self, name):
        for part in SOURCES:
            for at, folders, names in os.walk(f"{self.folder(name)}/{part}"):
                folders.sort()
                yield from (f"{at}/{it}" for it in sorted(names))

    def sum(self, name):
        """A sum of what the crate is proved from: its sources, and those of all below it."""
        if name not in self.sums:
            made = hashlib.sha256(repr(self.uses[name]).encode())
            for path in self.files(name):
                with open(path, "rb") as file:
                    made.update(path[len(self.top) :].encode() + file.read())
            for it in self.own(name):
                made.update(self.sum(it).encode())
            self.sums[name] = made.hexdigest()
        return self.sums[name]

    def mark(self, name):
        return f"{self.folder(name)}/out/proved"

    def is_proved(self, name):
        if not os.path.isfile(self.mark(name)):
            return False
        with open(self.mark(name), encoding="utf-8") as file:
            return file.read() == self.sum(name)

    def note(self, name):
        with open(self.mark(name), "w", encoding="utf-8") as file:
            file.write(self.sum(name))

    def program(self, name):
        """The path of a program that is proved as its sources stand: bench/prove noted it so, and it
        wasn't built again since, or it is newer than all that it is made from, since only a proved
        program is built there. None where there is no such program."""
        path = f"{self.folder(name)}/out/{name}"
        if not os.path.isfile(path):
            return None
        built = os.stat(path).st_mtime_ns
        if self.is_proved(name) and built <= os.stat(self.mark(name)).st_mtime_ns:
            return path
        made_from = [f"{self.top}/crates.txt"]
        for it in self.below(name) | {name}:
            made_from += self.files(it)
        return path if built > max(os.stat(it).st_mtime_ns for it in made_from) else None
