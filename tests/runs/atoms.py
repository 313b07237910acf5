"""Which candidate an atom chooses, and what stands beside it."""
from in_memory import PLAIN, answers, run_case
from trees import ONE, case, check, image_of, merged, offered, told_each, tree_of

# a repository with these packages
OFFERED = tree_of(
    offered("c/p-1"),
    offered("c/p-1.0"),
    offered("c/p-1.00", "0/2"),
    offered("c/p-2-r1", "2/2.1"),
    offered("c/p-3_alpha", "3"),
    offered("c/pp-9"),
    offered("d/p-7"),
)


def done(package):
    return f"0 done 1 +{package}\nemerge: ok 1\n"


def check_told(rows):
    """Holds what runs of a word over a tree come to, to what the rows want."""
    came = told_each([run_case([word], tree, {}) for word, tree, _ in rows])
    for (word, _, wanted), it in zip(rows, came):
        check(it, wanted, word)


def the_greatest_version_that_the_atom_matches_is_merged():
    rows = (
        ("c/p", "3_alpha"),
        ("<c/p-3_alpha", "2-r1"),
        ("~c/p-2", "2-r1"),
        ("=c/p-1*", "1.0"),
        ("=c/p-1.00", "1.0"),
        ("<=c/p-1", "1"),
        ("c/p:0/2", "1.00"),
        ("c/p:2=", "2-r1"),
        ("c/p:2/2.1", "2-r1"),
        (">c/p-1.0:*", "3_alpha"),
        ("c/p:3[x(+),-y(-)]", "3_alpha"),
    )
    check_told([(atom, OFFERED, done(f"c/p-{version}")) for atom, version in rows])


def atoms_that_match_no_candidate():
    versions = ("3_alpha", "2-r1", "1.0", "1.00", "1")
    each = "".join(f" (c/p-{version} NotMatched)" for version in versions)
    atoms = ("c/p[x]", ">=c/p-3", "=c/p-2", "c/p:1", "c/p:0/3", "=c/p-1.01*")
    rows = [*((atom, each) for atom in atoms), ("c/q", ""), (">c/pp-9", " (c/pp-9 NotMatched)")]
    check_told([(it, OFFERED, f"7 emerge: NoCandidate: {it}{listed}\n") for it, listed in rows])


def entries_of_another_form():
    """They hide their packages, and nothing else."""
    rows = []
    for slot in ("", "/", "0/", "-1", "0 1"):
        tree = tree_of(offered("c/p-1"), offered("c/p-2", slot))
        hidden = "7 emerge: NoCandidate: =c/p-2 (c/p-2 BadEntry) (c/p-1 NotMatched)\n"
        rows += [("c/p", tree, done("c/p-1")), ("=c/p-2", tree, hidden)]
    check_told(rows)


def slots_of_a_package_are_in_its_record():
    rows = (("c/p:2", "2-r1", "2/2.1"), ("c/p:3", "3_alpha", "3"), ("c/p:0/2", "1.00", "0/2"))
    came = answers([run_case([atom], OFFERED, {}) for atom, _, _ in rows])
    for (atom, version, slots), answer in zip(rows, came):
        record = answer.tree.get(f"var/db/pkg/c/p-{version}/SLOT")
        check(record, (PLAIN, f"{slots}\n".encode()), atom)


def a_package_that_is_installed():
    """Where `c/p-1.00` is installed in slot `0/2`, with the file `usr/bin/p`."""
    tree = merged(OFFERED, ONE, "c/p-1.00", "0/2")
    owned = "13 emerge: Collision: Owned usr/bin/p c/p-1.00\n"
    below = "13 emerge: Collision: Ancestor usr/bin/p/x usr/bin/p\n"
    above = "13 emerge: Collision: Ancestor usr/bin usr/bin/p\n"
    rows = (
        ("c/p", "c/p-1", "", "0 emerge: ok 0\n"),
        ("=c/p-1.0", "c/p-1", "", "0 emerge: ok 0\n"),
        ("c/p:0", "c/p-1", "", "0 emerge: ok 0\n"),
        # `c/p-1.0` takes its place, and any other package has a line of its own
        ("c/p:0/0", "c/p-1.0", "- usr/bin/q", "0 done 1 -c/p-1.00 +c/p-1.0\nemerge: ok 1\n"),
        ("c/p:3", "c/p-3_alpha", "- usr/bin/q", done("c/p-3_alpha")),
        ("c/p:3", "c/p-3_alpha", "- usr/bin/p", owned),
        ("c/pp", "c/pp-9", "- a\n- usr/bin/p/x", below),
        ("c/pp", "c/pp-9", "- usr/bin", above),
        ("c/q", "c/q-1", "- usr/bin/q", "7 emerge: NoCandidate: c/q\n"),
    )
    came = told_each([case(word, tree, image_of(text), it) for word, it, text, _ in rows])
    for (word, package, text, wanted), told in zip(rows, came):
        check(told, wanted, f"{word} {package} {text}")


def packages_one_after_another():
    """Each run begins with the tree that the one before it has to leave."""
    trees, cases = [OFFERED], []
    rows = (
        ("c/p:0/2", "- usr/bin/p", "c/p-1.00", "0/2"),
        ("d/p", "- usr/bin/d", "d/p-7", "0"),
        ("c/pp", "- usr/bin/pp\nl usr/bin/q pp", "c/pp-9", "0"),
        ("c/p:2", "- usr/bin/p-2", "c/p-2-r1", "2/2.1"),
    )
    for atom, text, package, slot in rows:
        cases.append(case(atom, trees[-1], image_of(text), package))
        trees.append(merged(trees[-1], image_of(text), package, slot))
    *came, again = answers([*cases, case("d/p", trees[-1], [])])
    for (_, _, package, _), answer, tree in zip(rows, came, trees[1:]):
        check(answer.told(), done(package), package)
        check(answer.tree, tree, package)
    check((again.told(), again.tree), ("0 emerge: ok 0\n", trees[-1]))


TESTS = [
    the_greatest_version_that_the_atom_matches_is_merged,
    atoms_that_match_no_candidate,
    entries_of_another_form,
    slots_of_a_package_are_in_its_record,
    a_package_that_is_installed,
    packages_one_after_another,
]
