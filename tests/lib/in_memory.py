"""Cases of the program in_memory, which runs over trees in memory, and what it answers to them.

A tree is a dict from paths to objects, and an object is a kind and its bytes.
"""
import re

import asked
from asked import Wrong

NAME = "in_memory"
PLAIN, EXEC, LINK = "-", "x", "l"
ESCAPES = {"\\": "\\\\", "\t": "\\t", "\n": "\\n"}
MEANT = {"t": "\t", "n": "\n"}


def escaped(text):
    return "".join(ESCAPES.get(letter, letter) for letter in text)


def unescaped(text):
    return re.sub(r"\\(.)", lambda found: MEANT.get(found[1], found[1]), text)


def objects(begin, entries):
    """A field for each of these pairs of a path and an object, which begins so."""
    return [f"{begin} {kind} {data.hex()} {escaped(path)}" for path, (kind, data) in entries]


def common(tree, stop=None, fail=None, watch=()):
    """The fields that a run and a recovery share."""
    faults = [("stop", stop), ("fail", fail)]
    calls = [f"{name} {call}" for name, call in faults if call is not None]
    return [*objects("tree", tree.items()), *calls, *(f"watch {escaped(path)}" for path in watch)]


def run_case(words, tree, images, write=None, broken=False, **faults):
    """A run of these words over a tree, where the images are lists of paths and objects, by their
    packages; any other package has none. The faults are the number of a call of the tree at which
    it stops or which fails alone, of a write that fails, and a builder that is broken; the paths to
    watch are named beside them."""
    fields = [f"word {escaped(word)}" for word in words]
    for package, image in images.items():
        fields += objects(f"image {package}", image)
    fields += common(tree, **faults)
    if write is not None:
        fields.append(f"write {write}")
    if broken:
        fields.append("broken")
    return "\t".join(["run", *fields])


def recovery_case(tree, **faults):
    """A recovery of a tree."""
    return "\t".join(["recover", *common(tree, **faults)])


class Answer:
    """What a case came to: its named values, those of the watched paths that were touched, and the
    tree."""

    def __init__(self, line):
        self.values, self.touched, self.tree = {}, [], {}
        for field in line.split("\t"):
            name, _, value = field.partition(" ")
            if name == "tree":
                kind, data, path = value.split(" ", 2)
                self.tree[unescaped(path)] = (kind, bytes.fromhex(data))
            elif name == "touched":
                self.touched.append(unescaped(value))
            else:
                self.values[name] = unescaped(value)

    def __getattr__(self, name):
        if name not in self.values:
            raise Wrong(f"the answer tells no {name}: {self.values}")
        return self.values[name]

    def told(self):
        """The number of a run's status, and behind a space what it wrote."""
        return f"{self.code} {self.said}"


def ask(cases):
    """The lines that answer these cases. What runs many tests may put another function here."""
    return asked.ask(NAME, cases)


def answers(cases):
    """What the program answers to each of these cases."""
    return [Answer(line) for line in ask(cases)]
