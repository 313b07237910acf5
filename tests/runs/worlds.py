"""The world file among what is wanted, and why it is refused."""
from in_memory import EXEC, LINK, answers, run_case
from trees import check, offered, run, text_file, told_each, tree_of

WORLD = "var/lib/portage/world"
OFFERED = tree_of(offered("c/p-1"), offered("c/q-1"), offered("c/r-1"), offered("c/r-2"))


def world(held):
    return {**OFFERED, WORLD: held}


def told(words, tree):
    return run_case(words.split(), tree, {})


def atoms_of_the_world_file_are_wanted():
    """Behind those of the words, wherever the word stands, and once."""
    tree = world(text_file("# by hand\n\nc/q\n \t<c/r-2\r\n"))
    both = "0 done 1 +c/q-1\ndone 2 +c/r-1\nemerge: ok 2\n"
    all_three = "0 done 1 +c/p-1\ndone 2 +c/q-1\ndone 3 +c/r-1\nemerge: ok 3\n"
    rows = (
        ("@world", both),
        ("@world @world", both),
        ("@world c/p", all_three),
        ("c/p @world c/q", all_three),
        ("c/p", "0 done 1 +c/p-1\nemerge: ok 1\n"),
    )
    for (words, wanted), answer in zip(rows, answers([told(words, tree) for words, _ in rows])):
        check(answer.told(), wanted, words)
        check(answer.tree[WORLD], tree[WORLD], words)


def the_first_wanted_atom_without_a_candidate_is_told():
    """Those of the words come first, and then those of the file in its order."""
    tree = world(text_file("c/none\nc/nil\n"))
    rows = (
        ("@world", "7 emerge: NoCandidate: c/none\n"),
        ("@world c/no", "7 emerge: NoCandidate: c/no\n"),
    )
    check(told_each([told(words, tree) for words, _ in rows]), [wanted for _, wanted in rows])


def an_empty_world_wants_nothing():
    trees = [world(text_file(text)) for text in ("", "\n", "# none\n", " \t\n#\n")]
    check(told_each([told("@world", tree) for tree in trees]), ["0 emerge: ok 0\n"] * 4)


def texts_that_are_no_world():
    """The line that is told: none is missing, a text of other bytes is bad at its first, and else
    the first line that is no atom."""
    texts = (
        (b"!c/p\n", 1),
        (b"c/q\n!!c/p\n", 2),
        (b"c/q\n\n# c\n c/p c/q\n", 4),
        (b" # c\n", 1),
        (b"c/p # c\n", 1),
        (b"@system\n", 1),
        (b"p\n", 1),
        (b"*/*\n", 1),
        (b"=c/p\n", 1),
        (b"c/q\nc/r\n# \xff\n", 1),
        (b"p\n\xff\n", 1),
    )
    trees = [(OFFERED, 0), (world((LINK, b"x")), 0), ({**OFFERED, f"{WORLD}/x": text_file("")}, 0)]
    trees += [(world(("-", text)), line) for text, line in texts]
    for (tree, line), answer in zip(trees, answers([told("@world", tree) for tree, _ in trees])):
        check(answer.told(), f"3 emerge: BadText: {WORLD} {line}\n", tree.get(WORLD))
        check(answer.tree, tree)


def an_executable_world_is_read():
    check(run("@world", world((EXEC, b"c/p\n"))).told(), "0 done 1 +c/p-1\nemerge: ok 1\n")


def a_world_of_many_lines():
    lines = "".join(f"# {number}\n\n" for number in range(20_000))
    tree = world(text_file(f"{lines}c/q\n"))
    check(run("@world", tree).told(), "0 done 1 +c/q-1\nemerge: ok 1\n")


def the_world_is_read_behind_the_configuration():
    """And only where it is named."""
    tree = world(text_file("!\n"))
    bad = {**tree, "etc/portage/make.conf": text_file("=\n")}
    told_of = told_each([told("@world", bad), told("c/p", tree), told("--unmerge c/p", tree)])
    check(told_of[0], "3 emerge: BadText: etc/portage/make.conf 1\n")
    check(told_of[1:], ["0 done 1 +c/p-1\nemerge: ok 1\n", "7 emerge: NoCandidate: c/p\n"])


TESTS = [
    atoms_of_the_world_file_are_wanted,
    the_first_wanted_atom_without_a_candidate_is_told,
    an_empty_world_wants_nothing,
    texts_that_are_no_world,
    an_executable_world_is_read,
    a_world_of_many_lines,
    the_world_is_read_behind_the_configuration,
]
