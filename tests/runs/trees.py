"""The trees and images that the runs begin with, and what a merge makes of them."""
import hashlib

from asked import Wrong, shown
from in_memory import EXEC, LINK, PLAIN, answers, run_case
from repository import package

PROFILE = "etc/portage/make.profile"
KINDS = {"-": PLAIN, "x": EXEC, "l": LINK}
DONE = "0 done 1 +c/p-1\nemerge: ok 1\n"


def text_file(text):
    return (PLAIN, text.encode())


def texts(files):
    """A tree of plain files, by their texts."""
    return {path: text_file(text) for path, text in files.items()}


# a profile on amd64, whose stable packages alone are accepted
AMD64 = texts({f"{PROFILE}/make.defaults": 'ARCH="amd64"\nACCEPT_KEYWORDS="amd64"\n'})


def offered(name, slot="0", **values):
    """The entry and the ebuild of a package that is stable on amd64, and needs what the values
    say."""
    return texts(package(name, SLOT=slot, **values))


def tree_of(*parts):
    """A tree with that profile and these parts."""
    return {path: held for part in (AMD64, *parts) for path, held in part.items()}


def sample_tree():
    """A tree with nothing installed, and one candidate: `c/p-1`."""
    return tree_of(offered("c/p-1"))


def image_of(text):
    """An image of a text, which has a line for each entry: its kind, its path, and behind a space
    its bytes."""
    image = []
    for line in text.splitlines():
        kind, _, rest = line.partition(" ")
        path, _, data = rest.partition(" ")
        image.append((path, (KINDS[kind], data.encode())))
    return image


# an image of one empty file
ONE = image_of("- usr/bin/p")

# an image of an executable file, a link and an empty file
SEVERAL = image_of("x usr/bin/p abc\nl usr/lib/p.so p.so.1\n- etc/p")


def contents(image):
    """The list of what a package owns."""
    lines = []
    for path, (kind, data) in sorted(image, key=lambda it: it[0].encode()):
        if kind == LINK:
            lines.append(f"sym /{path} -> {data.decode()} 0\n")
        else:
            lines.append(f"obj /{path} {hashlib.md5(data).hexdigest()} 0\n")
    return "".join(lines)


def record_files(package, image, slot="0", **fields):
    """The record of an installed package: its paths and what they hold. A further field has one
    line."""
    lines = {"EAPI": "8", "SLOT": slot, **fields}
    held = {"CONTENTS": contents(image), **{name: f"{line}\n" for name, line in lines.items()}}
    return [(f"var/db/pkg/{package}/{name}", text_file(held[name])) for name in sorted(held)]


def installed(package, image=(), slot="0", **fields):
    """What an installed package holds in a tree: its image and its record."""
    return {**dict(image), **dict(record_files(package, image, slot, **fields))}


def placed(image):
    """What a merge of `c/p-1` places, in the order of the group's stages."""
    return [*image, *record_files("c/p-1", image)]


def placed_by(package, image, **fields):
    """How many objects a merge of a package places."""
    return len(image) + len(record_files(package, image, **fields))


def merged(tree, image, package="c/p-1", slot="0", **fields):
    """The tree that a merge of a package leaves."""
    return {**tree, **installed(package, image, slot, **fields)}


def without(tree, package, image=(), slot="0", **fields):
    """The tree without an installed package."""
    gone = installed(package, image, slot, **fields)
    return {path: it for path, it in tree.items() if path not in gone}


def case(words, tree, image, package="c/p-1", **faults):
    """A run of these words, a space between two, where one package has an image."""
    return run_case(words.split(), tree, {package: image}, **faults)


def run(words, tree, image=(), package="c/p-1", **faults):
    """What such a run comes to."""
    return answers([case(words, tree, image, package, **faults)])[0]


def told_each(cases):
    return [answer.told() for answer in answers(cases)]


def check(came, wanted, at=""):
    if came != wanted:
        found = f"wanted {shown(repr(wanted))}, came {shown(repr(came))}"
        raise Wrong(f"{at}: {found}" if at else found)
