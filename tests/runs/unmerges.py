"""Packages that are taken away: which ones an atom takes, what keeps them, and what a crash leaves."""
from crashes import journal_paths, recovered, three_images, with_all_watched
from in_memory import answers, run_case
from trees import check, image_of, installed, offered, told_each, tree_of, without

IMAGE_U = image_of("x usr/bin/u 1\nl usr/lib/u.so u.so.1")
IMAGE_V = image_of("- usr/bin/v")

# `c/u-1` needs `c/v-1`; beside them stand two slots of `d/s`, and a candidate that isn't installed
SYSTEM = tree_of(
    installed("c/u-1", IMAGE_U, RDEPEND="c/v"),
    installed("c/v-1", IMAGE_V),
    installed("d/s-1"),
    installed("d/s-2", slot="2/2.1"),
    offered("c/x-1"),
)


def unmerged(words, tree=SYSTEM, **faults):
    return run_case(["--unmerge", *words.split()], tree, {}, **faults)


def without_all(tree, *packages):
    for name, image, fields in packages:
        tree = without(tree, name, image, **fields)
    return tree


U = ("c/u-1", IMAGE_U, {"RDEPEND": "c/v"})
V = ("c/v-1", IMAGE_V, {})
OLD = ("d/s-1", (), {})
NEW = ("d/s-2", (), {"slot": "2/2.1"})


def unmerge_what_is_needed():
    kept = "10 emerge: PlanRefused: Unsatisfied 0 c/u-1 RDEPEND c/v\n"
    gone = "0 done 1 -c/u-1 -c/v-1\nemerge: ok 1\n"
    came = answers([unmerged("c/v"), unmerged("c/u c/v")])
    check((came[0].told(), came[0].tree), (kept, SYSTEM))
    check((came[1].told(), came[1].tree), (gone, without_all(SYSTEM, U, V)))


def each_package_that_an_atom_matches_goes_once():
    """Both slots go for their name, and one alone for its own; what several atoms match goes once."""
    table = (
        ("d/s", "0 done 1 -d/s-1 -d/s-2\nemerge: ok 1\n", (OLD, NEW)),
        ("d/s:2", "0 done 1 -d/s-2\nemerge: ok 1\n", (NEW,)),
        ("<d/s-2", "0 done 1 -d/s-1\nemerge: ok 1\n", (OLD,)),
        ("d/s =d/s-1 d/s:2", "0 done 1 -d/s-1 -d/s-2\nemerge: ok 1\n", (OLD, NEW)),
        ("d/s c/u", "0 done 1 -c/u-1 -d/s-1 -d/s-2\nemerge: ok 1\n", (U, OLD, NEW)),
    )
    came = answers([unmerged(words) for words, _, _ in table])
    for (words, told, gone), answer in zip(table, came):
        check((answer.told(), answer.tree), (told, without_all(SYSTEM, *gone)), words)


def the_first_atom_without_an_installed_package_is_told():
    """With no candidate behind it, also where one is offered, and nothing goes."""
    table = (
        ("c/x", "7 emerge: NoCandidate: c/x\n"),
        ("c/u c/x c/y", "7 emerge: NoCandidate: c/x\n"),
        (">d/s-2", "7 emerge: NoCandidate: >d/s-2\n"),
        ("c/v c/y", "7 emerge: NoCandidate: c/y\n"),
    )
    came = answers([unmerged(words) for words, _ in table])
    for (words, told), answer in zip(table, came):
        check((answer.told(), answer.tree), (told, SYSTEM), words)


def lines_of_what_goes_rise_in_bytes():
    """As they are printed, which isn't the order of the packages' lines."""
    names = ("c/a-1", "c/a-b-1", "c/a-10")
    slots = {"c/a-10": "1"}
    tree = tree_of(*(installed(name, slot=slots.get(name, "0")) for name in names))
    shown = "plan 1\ngroup 1\nremove c/a-10:1\nremove c/a-1:0\nremove c/a-b-1:0\n"
    told = told_each([unmerged("--pretend c/a-b c/a", tree), unmerged("c/a-b c/a", tree)])
    check(told[0], f"0 {shown}emerge: ok 0\n")
    check(told[1], "0 done 1 -c/a-10 -c/a-1 -c/a-b-1\nemerge: ok 1\n")


def a_broken_system_is_refused_first():
    """Also where just what is broken is to go."""
    tree = tree_of(installed("c/u-1", RDEPEND="c/v"))
    told = told_each([unmerged("c/u", tree), unmerged("c/none", tree)])
    check(told, ["6 emerge: Inconsistent: Runtime c/u-1 c/v\n"] * 2)


def a_crash_leaves_what_goes_whole_or_gone():
    """Behind a stop at each of the run's calls, of three images."""
    watch = [*SYSTEM, *journal_paths(1, 0)]
    count = int(answers([unmerged("c/u c/v")])[0].calls)
    came = answers([unmerged("c/u c/v", stop=call, watch=watch) for call in range(1, count + 1)])
    ends = with_all_watched(came, watch)
    left = [tree for answer in ends for tree in three_images(answer)]
    before, after = SYSTEM, without_all(SYSTEM, U, V)
    trees = recovered([(at, tree) for at, tree in enumerate(left)])
    check({tree == before or tree == after for tree in trees}, {True})
    check((trees[0], trees[-1]), (before, after))


TESTS = [
    unmerge_what_is_needed,
    each_package_that_an_atom_matches_goes_once,
    the_first_atom_without_an_installed_package_is_told,
    lines_of_what_goes_rise_in_bytes,
    a_broken_system_is_refused_first,
    a_crash_leaves_what_goes_whole_or_gone,
]
