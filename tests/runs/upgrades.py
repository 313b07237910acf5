"""Runs whose package takes the place of the one in its slot."""
from crashes import journal_paths, left_by, recovered, three_images, with_all_watched
from in_memory import PLAIN, answers
from openings import record_file
from trees import (
    case,
    check,
    image_of,
    merged,
    offered,
    record_files,
    run,
    told_each,
    tree_of,
    without,
)

OLD = image_of("- usr/bin/p old\n- usr/share/p/doc abc\nl usr/lib/p.so p.so.1")
NEW = image_of("x usr/bin/p new\n- usr/share/p/notes abc")
UPGRADE = ">=c/p-2:0"
UPGRADED = "0 done 1 -c/p-1 +c/p-2\nemerge: ok 1\n"
REFUSED = "8 emerge: NoSolution\n"

# more calls than a whole run over these trees makes
CALLS = range(1, 170)


def begun(*rows):
    """A tree in which `c/p-1` is installed in slot 0, with these rows of the database, and where
    both of its versions and one of another slot are offered."""
    candidates = (offered("c/p-1"), offered("c/p-2"), offered("c/p-3", "3"))
    return merged(tree_of(*candidates, *(record_file(row) for row in rows)), OLD)


def upgraded(tree):
    return merged(without(tree, "c/p-1", OLD), NEW, "c/p-2")


def an_upgrade_takes_the_place_of_what_is_in_its_slot():
    answer = run(UPGRADE, begun(), NEW, "c/p-2")
    check(answer.told(), UPGRADED)
    check((answer.history, answer.acknowledged), ("1", "1"))
    check(answer.tree, upgraded(begun()))
    again = run(UPGRADE, answer.tree, NEW, "c/p-2")
    check((again.told(), again.tree), ("0 emerge: ok 0\n", answer.tree))


def an_older_version_takes_it_back():
    answer = run("<c/p-2", upgraded(begun()), OLD)
    check(answer.told(), "0 done 1 -c/p-2 +c/p-1\nemerge: ok 1\n")
    check(answer.tree, begun())


def other_files_of_its_folder_go_with_a_package():
    tree = {**begun(), **record_file("c/p-1/environment.bz2 x")}
    answer = run(UPGRADE, tree, NEW, "c/p-2")
    check((answer.told(), answer.tree), (UPGRADED, upgraded(begun())))


def another_slot_stays():
    image = image_of("- usr/bin/p-3")
    answer = run("c/p:3", begun(), image, "c/p-3")
    check(answer.told(), "0 done 1 +c/p-3\nemerge: ok 1\n")
    check(answer.tree, merged(begun(), image, "c/p-3", "3"))
    both = run(UPGRADE, answer.tree, NEW, "c/p-2")
    check((both.told(), both.tree), (UPGRADED, upgraded(answer.tree)))


def what_needs_the_old_one_keeps_it():
    """What becomes of an upgrade beside `c/u-1`, by what that asks for."""
    rows = (
        ("RDEPEND c/p", UPGRADED),
        ("RDEPEND c/p:0", UPGRADED),
        ("RDEPEND || ( c/q >=c/p-1 )", UPGRADED),
        ("RDEPEND <c/p-2", REFUSED),
        ("RDEPEND =c/p-1", REFUSED),
        ("RDEPEND !>=c/p-2", REFUSED),
        ("PDEPEND !!>=c/p-2", REFUSED),
        ("DEPEND =c/p-1", UPGRADED),
    )
    given = ("c/u-1/CONTENTS", "c/u-1/EAPI 8", "c/u-1/SLOT 0")
    trees = [begun(*given, f"c/u-1/{row}") for row, _ in rows]
    came = answers([case(UPGRADE, tree, NEW, "c/p-2") for tree in trees])
    for (row, wanted), tree, answer in zip(rows, trees, came):
        check(answer.told(), wanted, row)
        check(answer.tree, upgraded(tree) if wanted == UPGRADED else tree, row)


def files_in_the_way_of_an_upgrade():
    """A path of the package that goes is free for the one that comes, and no other is."""
    other = ("c/u-1/CONTENTS sym /usr/bin/u -> q 0", "c/u-1/EAPI 8", "c/u-1/SLOT 0")
    tree = {**begun(*other), "usr/bin/v": (PLAIN, b"")}
    rows = (
        ("- usr/share/p/doc", UPGRADED),
        ("- usr/bin/u", "13 emerge: Collision: Owned usr/bin/u c/u-1\n"),
        ("- usr/bin/v", "13 emerge: Collision: Unowned usr/bin/v\n"),
    )
    came = told_each([case(UPGRADE, tree, image_of(text), "c/p-2") for text, _ in rows])
    for (text, wanted), it in zip(rows, came):
        check(it, wanted, text)


def stopped_upgrades():
    """What upgrades come to that are stopped at each call, with what they touched."""
    placed = [path for path, _ in [*NEW, *record_files("c/p-2", NEW)]]
    watch = [*begun(), *placed, *journal_paths(1, len(placed))]
    cases = [case(UPGRADE, begun(), NEW, "c/p-2", stop=call, watch=watch) for call in CALLS]
    return with_all_watched(answers(cases), watch)


def a_crash_leaves_the_old_package_or_the_new_one():
    left = left_by(stopped_upgrades(), three_images)
    before, after = begun(), upgraded(begun())
    trees = recovered(left)
    for (call, _), tree in zip(left, trees):
        check(tree in (before, after), True, f"at call {call}")
    check((trees[0], trees[-1]), (before, after))


TESTS = [
    an_upgrade_takes_the_place_of_what_is_in_its_slot,
    an_older_version_takes_it_back,
    other_files_of_its_folder_go_with_a_package,
    another_slot_stays,
    what_needs_the_old_one_keeps_it,
    files_in_the_way_of_an_upgrade,
    a_crash_leaves_the_old_package_or_the_new_one,
]
