"""The first fault of a profile or of the user's files, by its file and line."""
from trees import EMPTY, PROFILE, REPOSITORY_MASKS, check, line, link, row, user


def rows(table):
    return check([row(tree, wanted) for tree, wanted in table])


def profiles_that_are_not_there():
    # A plain file, or nothing; links that lead nowhere, to the top or above it; a folder that is
    # named and isn't there, or is a file.
    table = [
        ({}, "missing etc/portage/make.profile"),
        ({PROFILE: "p"}, "missing etc/portage/make.profile"),
        ({PROFILE: link("q")}, "missing etc/portage/q"),
        ({PROFILE: link("/q")}, "missing q"),
        ({PROFILE: link("")}, "text etc/portage/make.profile 1"),
        ({PROFILE: link("../..")}, "text etc/portage/make.profile 1"),
        ({PROFILE: link("../../../p/q")}, "text etc/portage/make.profile 1"),
        ({PROFILE: link(b"p\xff")}, "text etc/portage/make.profile 1"),
        ({PROFILE: link("/p"), "p/parent": "../q"}, "missing q"),
        ({PROFILE: link("/p"), "p/parent": "../q", "q": "x"}, "missing q"),
    ]
    return check([(line(tree), wanted) for tree, wanted in table])


def a_profile_that_is_its_own_ancestor():
    # By its parent's parent, by itself, and through a folder above that its own text names.
    table = [
        ({"p/top/parent": "../a", "p/a/parent": "# b\n\n../top\n"}, "loop p/a/parent 3"),
        ({"p/top/parent": "../a\n./\n", "p/a/use.mask": "a"}, "loop p/top/parent 2"),
        ({"p/top/parent": "x/../../top"}, "loop p/top/parent 1"),
        ({"p/top/parent": "a", "p/top/a/parent": ".."}, "loop p/top/a/parent 1"),
    ]
    return rows(table)


def parents_that_lead_nowhere():
    # The whole file is judged before its first parent is read.
    table = [
        ({"p/top/parent": "../none\n../../../x\n"}, "text p/top/parent 2"),
        ({"p/top/parent": "../none\n/p/a\n"}, "text p/top/parent 2"),
        ({"p/top/parent": "../..\n"}, "text p/top/parent 1"),
        ({"p/top/parent": b"../none\n\xff"}, "text p/top/parent 2"),
        ({"p/top/parent": "../none\n"}, "missing p/none"),
    ]
    return rows(table)


def broken_files_of_a_profile():
    table = [
        ({"p/top/make.defaults": "A=1\nB='x\n"}, "text p/top/make.defaults 2"),
        ({"p/top/package.mask": "c/p\n!c/q\n"}, "atom p/top/package.mask 2"),
        ({"p/top/package.mask": "c/p\nc/q x\n"}, "atom p/top/package.mask 2"),
        ({"p/top/package.mask": "--c/p\n"}, "atom p/top/package.mask 1"),
        ({"p/top/package.use": "\nc/p x\n*/* x\n"}, "atom p/top/package.use 3"),
        ({"p/top/package.use": "c/p x -% y\n"}, "text p/top/package.use 1"),
        ({"p/top/use.mask": "m\n # n\n"}, "text p/top/use.mask 2"),
        ({"p/top/use.force": "c/p\n"}, "text p/top/use.force 1"),
        ({"p/top/package.use.mask": "m\n"}, "atom p/top/package.use.mask 1"),
        ({"p/top/package.use.force": "c/p VAR: x\n"}, "text p/top/package.use.force 1"),
        ({"p/top/package.use.force/b": b"c/p\n#\xff\n"}, "text p/top/package.use.force/b 2"),
    ]
    return rows(table)


def broken_files_of_the_user():
    table = [
        ({"make.conf": "A=1\nB=x y\n"}, "text make.conf 2"),
        ({"make.conf": 'A=1\nB="x'}, "text make.conf 2"),
        ({"make.conf": "\nsource x\n"}, "text make.conf 2"),
        ({"make.conf": b"A=\xff"}, "text make.conf 1"),
        ({"package.use": "c/p\nc/p a +b\n"}, "text package.use 2"),
        ({"package.use/a": "c/p\n", "package.use/b": "\n!!c/p a\n"}, "atom package.use/b 2"),
        ({"package.mask": "c/p\n=c/p\n"}, "atom package.mask 2"),
        ({"package.unmask": "# c\nc/p c/q\n"}, "atom package.unmask 2"),
        ({"package.accept_keywords": "c/p ~x\n~x c/p\n"}, "atom package.accept_keywords 2"),
        ({"package.accept_keywords": b"c/p \xc3\n"}, "text package.accept_keywords 1"),
    ]
    return rows([(user(files), at_user(wanted)) for files, wanted in table])


def at_user(fault):
    """The fault, where its path begins behind the folder of the user's files."""
    name, path, number = fault.split(" ")
    return f"{name} etc/portage/{path} {number}"


def the_first_of_two_faults():
    # The repository's masks, then the profile, a parent's files before those of the profile that
    # names it, and then the user's files; in a profile its variables come first.
    parents = {"p/top/parent": "../a\n../none\n", "p/a/use.force": "%"}
    table = [
        ({REPOSITORY_MASKS: "c/p\n%"}, f"atom {REPOSITORY_MASKS} 2"),
        ({**parents, **user({"make.conf": "%"})}, "text p/a/use.force 1"),
        ({"p/top/package.mask": "%", "p/top/make.defaults": "%"}, "text p/top/make.defaults 1"),
        ({"p/top/use.mask": "%", "p/top/package.use": "%"}, "atom p/top/package.use 1"),
        ({"p/top/use.force": "%", "p/top/package.use.mask": "%"}, "text p/top/use.force 1"),
        (user({"make.conf": "%", "package.use": "%"}), "text etc/portage/make.conf 1"),
        (user({"package.mask": "%", "package.use": "%"}), "atom etc/portage/package.use 1"),
        (user({"package.unmask": "%", "package.mask": "%"}), "atom etc/portage/package.mask 1"),
        (
            user({"package.accept_keywords": "%", "package.unmask": "%"}),
            "atom etc/portage/package.unmask 1",
        ),
    ]
    without = (line({REPOSITORY_MASKS: "%"}), f"atom {REPOSITORY_MASKS} 1")
    return check([row(tree, wanted) for tree, wanted in table] + [without])


TESTS = [
    profiles_that_are_not_there,
    a_profile_that_is_its_own_ancestor,
    parents_that_lead_nowhere,
    broken_files_of_a_profile,
    broken_files_of_the_user,
    the_first_of_two_faults,
]
