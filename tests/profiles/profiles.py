"""What a profile says: its folders in their order, its variables, masks and rules of flags."""
from trees import EMPTY, PROFILE, REPOSITORY_MASKS, check, executable, line, link, row, under

BASE = under(
    "p/base",
    {
        "make.defaults": "USE=\"a b\"\nARCH='amd64'\n",
        "package.mask": "c/p\n>=c/q-2\n",
        "package.use": "c/p x\n",
        "use.mask": "m\n",
        "use.force": "f g\n",
        "package.use.mask": "c/p n\n",
        "package.use.force": "c/p h\n",
    },
)
MIDDLE = under(
    "p/mid",
    {
        "parent": "../base\n",
        "make.defaults": 'USE="$USE -a"\n',
        "package.mask": "-c/p\nc/r\n",
        "package.use": "c/p x\n-c/p   x\nc/p   -y \n",
        "use.force": "-g\n",
    },
)
TOP = under(
    "p/top",
    {
        "parent": "# the one above\n../mid\n",
        "make.defaults": "X=${ARCH}\n",
        "package.mask": "c/r\n",
        "use.mask": "-m\n",
        "package.use.force": "c/p -h i\n",
    },
)


def three_levels():
    # Parents come first. A mask that is repeated stands once, and one that is taken back goes; a
    # hyphen takes back equal rules of earlier files and lines, whatever white space they have; in
    # use.mask and use.force it is a change.
    wanted = [
        "default 1:USE=a b",
        "default 2:ARCH=amd64",
        "default 1:USE=a b -a",
        "default 1:X=amd64",
        "profile_use c/p -y",
        "mask c/s",
        "mask >=c/q-2",
        "mask c/r",
        "hide m",
        "hide c/p n",
        "hide -m",
        "force f g",
        "force c/p h",
        "force -g",
        "force c/p -h i",
    ]
    return check([row({REPOSITORY_MASKS: "c/s\n-c/t\n", **BASE, **MIDDLE, **TOP}, *wanted)])


def where_the_profile_is():
    # A folder, a link from the top, one with empty and idle parts, one that passes the top itself.
    folder = {f"{PROFILE}/use.mask": "m"}
    rows = [(line(folder), "hide m")]
    for target in ["/p/q/", "./../..//p/./q", "../../p/q", "../../p/r/../q"]:
        rows.append((line({PROFILE: link(target), "p/q/use.mask": "m"}), "hide m"))
    return check(rows)


def parents_in_their_order():
    # Two parents, of which one is read twice, since it is named twice; blank lines and comments.
    parents = "\n../a\n#../c\n  ../b/x \r\n../a"
    masks = {"p/a/use.mask": "a", "p/b/x/use.mask": "b", "p/c/use.mask": "c"}
    return check([row({"p/top/parent": parents, **masks}, "hide a", "hide b", "hide a")])


def files_of_a_folder():
    # In byte order of their names; not hidden ones, not deeper ones, and a link says nothing. An
    # executable file is one like the others.
    folder = {
        "b": "-c/p\n",
        "a": "c/p\nc/q\n",
        "B": "c/b\n",
        ".a": "%\n",
        "c/d": "%\n",
        "e": link("a"),
        "f": executable("c/f"),
    }
    tree = under("p/top/package.mask", folder)
    return check([row(tree, "mask c/b", "mask c/q", "mask c/f")])


def an_object_goes_before_a_folder():
    # A link or a file in place of a folder, and folders in place of files that are none.
    tree = {
        "p/top/use.mask": "m",
        "p/top/use.mask/x": "%",
        "p/top/use.force": link("x"),
        "p/top/use.force/x": "%",
        "p/top/parent/x": "%",
        "p/top/make.defaults/x": "%",
    }
    return check([row(tree, "hide m")])


def lines_that_say_nothing():
    # Blank lines and comments, a rule without changes, a mask that is taken back in vain, and texts
    # without a newline at their end.
    tree = {
        "p/top/package.use": "\n \t\n#c/p x\nc/p",
        "p/top/package.mask": "-c/p\n-c/p",
        "p/top/package.use.mask": "c/p -*",
    }
    return check([row(tree, "profile_use c/p", "hide c/p -*")])


def so_many_profiles():
    # 64 are read, each as often as it is named; the line that asks for one more is told.
    parents = "../a\n" * 63
    tree = {"p/top/parent": parents, "p/a/use.mask": "a"}
    deeper = {**tree, "p/top/parent": parents + "../a\n"}
    return check([row(tree, *["hide a"] * 63), row(deeper, "deep p/top/parent 64")])


def nothing_at_all():
    return check([(line(EMPTY), "")])


TESTS = [
    three_levels,
    where_the_profile_is,
    parents_in_their_order,
    files_of_a_folder,
    an_object_goes_before_a_folder,
    lines_that_say_nothing,
    so_many_profiles,
    nothing_at_all,
]
