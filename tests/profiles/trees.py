"""Trees for ask_offers, and rows of a tree and what is wanted of its configuration."""
import asked

PROGRAM = "ask_offers"
PROFILE = "etc/portage/make.profile"
REPOSITORY_MASKS = "var/db/repos/gentoo/profiles/package.mask"


def link(target):
    """A link, where a text alone stands for a file."""
    return ("l", target)


def executable(text):
    return ("x", text)


def under(folder, files):
    """Files of a folder, by their names there."""
    return {f"{folder}/{name}": held for name, held in files.items()}


def user(files):
    return under("etc/portage", files)


# The profile is in `p/top`, which has nothing but an empty file.
EMPTY = {PROFILE: link("../../p/top"), "p/top/eapi": ""}


def line(tree, call=0):
    """The line that asks for the configuration of the tree, of which this call fails."""
    return f"profile\t{fields(tree, call)}"


def fields(tree, call):
    """The fields that tell of the tree, of which this call fails."""
    return "\t".join([str(call), *[object_text(path, held) for path, held in tree.items()]])


def object_text(path, held):
    kind, content = held if isinstance(held, tuple) else ("-", held)
    data = content if isinstance(content, bytes) else content.encode()
    return f"{kind} {data.hex()} {path}"


def row(tree, *wanted):
    """A tree with the profile above, or one of its own, and the fields that are wanted."""
    return line({**EMPTY, **tree}), "\t".join(wanted)


def check(rows):
    return asked.rows_at_once(PROGRAM, rows)
