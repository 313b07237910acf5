"""Packages of all editions that are read: what each comes to, and an upgrade of some of them."""
import os

from crashes import journal_paths, recovered, three_images, with_all_watched
from in_memory import answers, run_case
from trees import (
    case,
    check,
    image_of,
    installed,
    merged,
    offered,
    record_files,
    run,
    text_file,
    tree_of,
    without,
)

EDITIONS = "5678"
# those with the classes BDEPEND and IDEPEND (PMS 8.1)
BUILT_WITH, INSTALLED_WITH = "78", "8"
# those in which a group without members holds
EMPTY_HOLDS = "56"

EMPTY = "|| ( x? ( c/d ) )"
NO_SOLUTION = "8 emerge: NoSolution\n"
NO_EDITION = "7 emerge: NoCandidate: c/a (c/a-1 Eapi)\n"
ADDED = "0 done 1 +c/a-1\nemerge: ok 1\n"


def wants(edition, needs, **values):
    """A tree in which `c/a-1` of an edition is offered, with these needs at run time."""
    return tree_of(offered("c/a-1", EAPI=edition, IUSE="x", RDEPEND=needs, **values))


def empty_any_of():
    tree = wants("8", EMPTY)
    answer = run("c/a", tree)
    check((answer.told(), answer.tree), (NO_SOLUTION, tree))


def empty_any_of_by_eapi():
    table = (("6", ADDED), ("7", NO_SOLUTION), ("4", NO_EDITION), ("5", ADDED), ("9", NO_EDITION))
    trees = [wants(edition, EMPTY) for edition, _ in table]
    came = answers([case("c/a", tree, [], "c/a-1") for tree in trees])
    for (edition, wanted), tree, answer in zip(table, trees, came):
        check(answer.told(), wanted, edition)
        left = tree
        if wanted == ADDED:
            left = merged(tree, [], "c/a-1", EAPI=edition, IUSE="x", RDEPEND=EMPTY)
            check(left["var/db/pkg/c/a-1/EAPI"], text_file(f"{edition}\n"))
        check(answer.tree, left, edition)


def groups_without_members_in_required_use():
    """Such a candidate is refused as one whose flags don't go together."""
    refused = "7 emerge: NoCandidate: c/a (c/a-1 RequiredUse)\n"
    for text in ("|| ( )", "^^ ( )", "^^ ( x? ( x ) )"):
        trees = [wants(edition, "", REQUIRED_USE=text) for edition in EDITIONS]
        came = answers([case("c/a", tree, [], "c/a-1") for tree in trees])
        for edition, answer in zip(EDITIONS, came):
            wanted = ADDED if edition in EMPTY_HOLDS else refused
            check(answer.told(), wanted, f"{text} in {edition}")


def keys_of_classes_that_an_edition_lacks():
    """What they say is ignored, be it a need that nothing meets or no need at all."""
    table = {"BDEPEND": BUILT_WITH, "IDEPEND": INSTALLED_WITH, "DEPEND": EDITIONS}
    bad = "7 emerge: NoCandidate: c/a (c/a-1 BadEntry)\n"
    for key, editions in table.items():
        for value, refused in (("c/d", NO_SOLUTION), ("( c/d", bad)):
            trees = [tree_of(offered("c/a-1", EAPI=it, **{key: value})) for it in EDITIONS]
            came = answers([case("c/a", tree, [], "c/a-1") for tree in trees])
            for edition, tree, answer in zip(EDITIONS, trees, came):
                has = edition in editions
                check(answer.told(), refused if has else ADDED, f"{key} {value} in {edition}")
                left = tree if has else merged(tree, [], "c/a-1", EAPI=edition)
                check(answer.tree, left, f"{key} {value} in {edition}")


# A system of twenty packages, of each edition in turn, of which four are upgraded: one from each
# edition, and to each.
NAMES = [f"c/s{number:02}" for number in range(20)]
UPGRADED = NAMES[3::5]
WORDS = [f"={name}-2" for name in UPGRADED]

# Without a proof the program is slow, so that it is stopped at one call of so many.
STEP = 9 if os.environ.get("UNPROVED") else 1


def edition_of(name, version):
    """The second versions have the editions in the other order."""
    order = EDITIONS if version == 1 else EDITIONS[::-1]
    return order[NAMES.index(name) % len(order)]


def needs_of(name, version):
    """What the package has to say for itself: it needs the one before it, and where a group without
    members holds, such a group; where the edition has more classes, it needs the first in each."""
    edition = edition_of(name, version)
    needs, said = NAMES[: NAMES.index(name)][-1:], {}
    if edition in EMPTY_HOLDS:
        needs.append("|| ( )")
        said["REQUIRED_USE"] = "^^ ( )"
    if edition in BUILT_WITH:
        said["BDEPEND"] = NAMES[0]
    if edition in INSTALLED_WITH:
        said["IDEPEND"] = NAMES[0]
    if needs:
        said["RDEPEND"] = " ".join(needs)
    return {"EAPI": edition, **said}


def ignored_of(name, version):
    """Texts that are no dependencies, of the classes that the edition lacks."""
    said = needs_of(name, version)
    return {key: "( %" for key in ("BDEPEND", "IDEPEND") if key not in said}


def image_of_system(name, version):
    lines = [f"x usr/bin/{name[2:]} {version}", f"- usr/share/{name[2:]}/{version}"]
    return image_of("\n".join(lines))


def begun():
    """Each package is installed in its first version, with what is ignored in its record, and those
    that are to be upgraded are offered in their second."""
    parts = []
    for name in NAMES:
        ignored = ignored_of(name, 1)
        fields = {**needs_of(name, 1), **ignored}
        parts.append(installed(f"{name}-1", image_of_system(name, 1), **fields))
    for name in UPGRADED:
        parts.append(offered(f"{name}-2", **needs_of(name, 2), **ignored_of(name, 2)))
    return tree_of(*parts)


def ended(tree, groups=len(UPGRADED)):
    """The tree with the second version of each that is upgraded, in place of the first; or of the
    first so many of them."""
    for name in UPGRADED[:groups]:
        fields = {**needs_of(name, 1), **ignored_of(name, 1)}
        tree = without(tree, f"{name}-1", image_of_system(name, 1), **fields)
        tree = merged(tree, image_of_system(name, 2), f"{name}-2", **needs_of(name, 2))
    return tree


def upgrade(**faults):
    images = {f"{name}-2": image_of_system(name, 2) for name in UPGRADED}
    return run_case(WORDS, begun(), images, **faults)


def a_system_of_all_editions_is_upgraded():
    """None of the four needs another one, or what that replaces, so each has a group of its own."""
    answer = answers([upgrade()])[0]
    lines = "".join(f"done {at} -{name}-1 +{name}-2\n" for at, name in enumerate(UPGRADED, 1))
    check(answer.told(), f"0 {lines}emerge: ok 4\n")
    check(answer.tree, ended(begun()))
    again = answers([run_case(WORDS, answer.tree, {})])[0]
    check((again.told(), again.tree), ("0 emerge: ok 0\n", answer.tree))


def paths_to_watch():
    paths = [*begun()]
    for group, name in enumerate(UPGRADED, 1):
        image = image_of_system(name, 2)
        placed = [*image, *record_files(f"{name}-2", image, **needs_of(name, 2))]
        paths += [path for path, _ in placed] + journal_paths(group, len(placed))
    return paths


def a_crash_leaves_each_package_old_or_new():
    """Behind a stop at each of the run's calls, of three images: some first ones are new, each whose
    line was written among them."""
    count, watch = int(answers([upgrade()])[0].calls), paths_to_watch()
    calls = sorted({*range(1, count, STEP), count})
    came = answers([upgrade(stop=call, watch=watch) for call in calls])
    ends = zip(calls, with_all_watched(came, watch))
    told = {call: len(answer.acknowledged.split()) for call, answer in zip(calls, came)}
    left = [(call, tree) for call, answer in ends for tree in three_images(answer)]
    states = [ended(begun(), groups) for groups in range(len(UPGRADED) + 1)]
    trees = recovered(left)
    for (call, _), tree in zip(left, trees):
        check(tree in states, True, f"at call {call}")
        check(states.index(tree) >= told[call], True, f"at call {call}, told {told[call]}")
    check((trees[0], trees[-1]), (states[0], states[-1]))


TESTS = [
    empty_any_of,
    empty_any_of_by_eapi,
    groups_without_members_in_required_use,
    keys_of_classes_that_an_edition_lacks,
    a_system_of_all_editions_is_upgraded,
    a_crash_leaves_each_package_old_or_new,
]
