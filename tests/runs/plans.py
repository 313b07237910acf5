"""What a run chooses of a whole configuration, and what becomes of packages that come together."""
from crashes import journal_paths, left_by, recovered, three_images, with_all_watched
from in_memory import LINK, PLAIN, answers, run_case
from journal import journal_path
from trees import (
    DONE,
    ONE,
    PROFILE,
    case,
    check,
    image_of,
    installed,
    merged,
    offered,
    run,
    told_each,
    texts,
    tree_of,
    without,
)

# of two packages, each needs the other one
NEEDING = tree_of(offered("c/a-1", RDEPEND="c/b"), offered("c/b-1", RDEPEND="c/a"))
DOC = "usr/share/a/doc"
IMAGES = {"c/a-1": image_of(f"- usr/bin/a\n- {DOC}"), "c/b-1": image_of("x usr/bin/b b")}
BOTH = {
    **NEEDING,
    **installed("c/a-1", IMAGES["c/a-1"], RDEPEND="c/b"),
    **installed("c/b-1", IMAGES["c/b-1"], RDEPEND="c/a"),
}


def check_rows(rows):
    """Holds what runs of words over trees come to, to what the rows want."""
    came = told_each([case(words, tree, []) for words, tree, _ in rows])
    for (words, _, wanted), it in zip(rows, came):
        check(it, wanted, words)


def run_of_both(tree, **faults):
    return run_case(["c/a"], tree, IMAGES, **faults)


def two_that_need_each_other():
    """They come together, or neither does, wherever the run is stopped."""
    shown = run("--pretend c/a", NEEDING)
    check(shown.told(), "0 plan 1\ngroup 1\nadd c/a-1:0/0\nadd c/b-1:0/0\nemerge: ok 0\n")
    check(shown.tree, NEEDING)
    whole = answers([run_of_both(NEEDING)])[0]
    check(whole.told(), "0 done 1 +c/a-1 +c/b-1\nemerge: ok 1\n")
    check((whole.history, whole.acknowledged, whole.tree), ("1", "1", BOTH))
    # the stages are three of the images, and four of each record
    watch = [*BOTH, *journal_paths(1, 11)]
    calls = range(1, int(whole.calls) + 1)
    came = answers([run_of_both(NEEDING, stop=call, watch=watch) for call in calls])
    left = left_by(with_all_watched(came, watch), three_images)
    trees = recovered(left)
    for (call, _), tree in zip(left, trees):
        check(tree in (NEEDING, BOTH), True, f"at call {call}")
    check((trees[0], trees[-1]), (NEEDING, BOTH))


def images_of_one_group_that_collide():
    """Where one of two packages can't come, neither does."""
    rows = (
        ("usr/bin/b", IMAGES["c/b-1"], "13 emerge: Collision: Unowned usr/bin/b\n"),
        ("etc/x", image_of("- usr/share/a"), f"13 emerge: Collision: Ancestor usr/share/a {DOC}\n"),
        ("etc/x", image_of(f"- {DOC}"), f"14 emerge: BadImage: Twice {DOC}\n"),
        (
            "etc/x",
            image_of("- usr/bin/b\n- var/db/pkg/x"),
            "14 emerge: BadImage: Reserved var/db/pkg/x\n",
        ),
    )
    trees = [{**NEEDING, path: (PLAIN, b"")} for path, _, _ in rows]
    cases = [
        run_case(["c/b"], tree, {**IMAGES, "c/b-1": image})
        for tree, (_, image, _) in zip(trees, rows)
    ]
    for (_, image, wanted), tree, answer in zip(rows, trees, answers(cases)):
        check(answer.told(), wanted, f"{image}")
        check((answer.history, answer.tree), ("", tree), f"{image}")


def several_atoms():
    tree = tree_of(offered("c/a-1"), offered("c/b-1"), offered("c/b-2"), installed("c/d-1"))
    check_rows([
        ("c/b c/a", tree, "0 done 1 +c/a-1\ndone 2 +c/b-2\nemerge: ok 2\n"),
        ("c/b <c/b-2 c/d", tree, "0 done 1 +c/b-1\nemerge: ok 1\n"),
        ("c/d c/d-1 c/a", tree, "2 emerge: Usage: bad atom c/d-1\n"),
        ("c/a c/zz c/yy", tree, "7 emerge: NoCandidate: c/zz\n"),
        ("c/d =c/d-1", tree, "0 emerge: ok 0\n"),
    ])


def update_takes_the_greater_version():
    tree = tree_of(offered("c/p-1"), offered("c/p-2"), installed("c/p-1"))
    check_rows([
        ("c/p", tree, "0 emerge: ok 0\n"),
        ("--update c/p", tree, "0 done 1 -c/p-1 +c/p-2\nemerge: ok 1\n"),
        ("--update <c/p-2", tree, "0 emerge: ok 0\n"),
    ])


def masked_by_keyword():
    tree = tree_of(offered("c/p-1", KEYWORDS="~amd64"))
    accepted = {**tree, **texts({"etc/portage/package.accept_keywords": "c/p ~amd64\n"})}
    check_rows([
        ("c/p", tree, "7 emerge: NoCandidate: c/p (c/p-1 Keyword)\n"),
        ("c/p", accepted, DONE),
    ])


def profile_loop():
    """The file and the line are told of a parent that is the profile itself."""
    tree = {
        PROFILE: (LINK, b"../../profiles/top"),
        **texts({"profiles/top/parent": "../base\n", "profiles/base/parent": "# up\n\n../top\n"}),
        **offered("c/p-1"),
    }
    answer = run("c/p", tree)
    check((answer.told(), answer.tree), ("3 emerge: BadText: profiles/base/parent 3\n", tree))


def backtrack_limits():
    needs = {"RDEPEND": "c/zz"}
    tree = tree_of(offered("c/a-3", **needs), offered("c/a-2", **needs), offered("c/a-1"))
    check_rows([
        ("--backtrack 1 c/a", tree, "9 emerge: BacktrackLimit: 1\n"),
        ("--backtrack 2 c/a", tree, "9 emerge: BacktrackLimit: 2\n"),
        ("--backtrack 3 c/a", tree, "0 done 1 +c/a-1\nemerge: ok 1\n"),
    ])


def flag_change_solves():
    tree = tree_of(offered("c/a-1", RDEPEND="c/b[x]"), offered("c/b-1", IUSE="x"))
    plan = "plan 1\ngroup 1\nadd c/b-1:0/0 x\ngroup 2\nafter 1\nadd c/a-1:0/0\n"
    check_rows([
        ("c/a", tree, "8 emerge: NoSolution\n"),
        ("--flag-changes 1 --pretend c/a", tree, f"0 {plan}emerge: ok 0\n"),
    ])
    answer = run("--flag-changes 1 c/a", tree)
    recorded = merged(tree, [], "c/a-1", RDEPEND="c/b[x]")
    check(answer.told(), "0 done 1 +c/b-1\ndone 2 +c/a-1\nemerge: ok 2\n")
    check(answer.tree, merged(recorded, [], "c/b-1", IUSE="x", USE="x"))


def what_is_blocked_goes():
    """In a group before that of what comes, by a weak block as by a strong one."""
    tree = tree_of(
        offered("c/weak-1", RDEPEND="!c/old"),
        offered("c/strong-1", RDEPEND="!!c/old"),
        installed("c/old-1", ONE),
    )
    alone = without(tree, "c/old-1", ONE)
    for name, block in (("c/strong", "!!c/old"), ("c/weak", "!c/old")):
        answer = run(name, tree, ONE, f"{name}-1")
        check(answer.told(), f"0 done 1 -c/old-1\ndone 2 +{name}-1\nemerge: ok 2\n")
        check((answer.history, answer.acknowledged), ("1 2", "1 2"))
        check(answer.tree, merged(alone, ONE, f"{name}-1", RDEPEND=block))


# flags that each layer of a configuration turns around
FLAGS = texts({
    f"{PROFILE}/parent": "../../base\n",
    "etc/base/make.defaults": 'USE="a b"\nUSE_EXPAND="CPU"\nCPU="x"\n',
    "etc/base/use.mask": "m\n",
    f"{PROFILE}/make.defaults": 'ARCH="amd64"\nACCEPT_KEYWORDS="amd64"\nUSE="-a m"\n',
    f"{PROFILE}/package.use": "c/p c d\n",
    f"{PROFILE}/use.force": "f\n",
    "etc/portage/make.conf": 'USE="-b -c"\nCPU="y"\n',
    "etc/portage/package.use": "c/p d e -f\n",
})


def flags_of_a_profile_reach_the_record():
    """The base turns `a` and `b` on, the profile `c` and `d`; `a` goes by the profile, `b` and `c`
    by `make.conf`; `e` comes by the user's rule, `f` is forced, `m` masked, and `g` on by itself."""
    known = "a b c cpu_x cpu_y cpu_z d e f g m"
    iuse = known.replace("g", "+g")
    tree = {**offered("c/p-1", IUSE=iuse, RDEPEND="c? ( c/zz ) d? ( c/q )"), **FLAGS}
    tree |= offered("c/q-1", IUSE="amd64")
    on = "cpu_x cpu_y d e f g"
    first, second = "group 1\nadd c/q-1:0/0 amd64\n", f"group 2\nafter 1\nadd c/p-1:0/0 {on}\n"
    check_rows([("--pretend c/p", tree, f"0 plan 1\n{first}{second}emerge: ok 0\n")])
    answer = run("c/p", tree)
    needs = {"RDEPEND": "c? ( c/zz ) d? ( c/q )", "IUSE": known, "USE": on}
    both = merged(merged(tree, [], "c/p-1", **needs), [], "c/q-1", IUSE="amd64", USE="amd64")
    check(answer.told(), "0 done 1 +c/q-1\ndone 2 +c/p-1\nemerge: ok 2\n")
    check(answer.tree, both)


def each_refusal_comes_where_it_is_the_first():
    """Of several faults of a tree the first is told: of the journal, the configuration, the
    database, the installed packages side by side, the candidates, and then the choice."""
    gate, record = journal_path(1, "gate"), journal_path(1, "record")
    conf, mask = "etc/portage/make.conf", "etc/portage/package.mask"
    faults = (
        ({gate: (PLAIN, b"\x01"), record: (PLAIN, b"")}, "5 emerge: BadJournal: 1 record\n"),
        (texts({conf: "A=x y\n"}), f"3 emerge: BadText: {conf} 1\n"),
        (
            texts({"var/db/pkg/c/w-1/SLOT": "0\n"}),
            "4 emerge: BadDatabase: var/db/pkg/c/w-1/CONTENTS\n",
        ),
        (installed("c/u-1", RDEPEND="c/v"), "6 emerge: Inconsistent: Runtime c/u-1 c/v\n"),
        (texts({mask: "c/p\n"}), "7 emerge: NoCandidate: c/p (c/p-1 Masked)\n"),
        (offered("c/p-1", RDEPEND="c/zz"), "8 emerge: NoSolution\n"),
    )
    rows = []
    for at, (_, wanted) in enumerate(faults):
        rows.append(("c/p", tree_of(*(files for files, _ in faults[at:])), wanted))
    rows.append(("c/p", tree_of(offered("c/p-1")), DONE))
    check_rows(rows)


TESTS = [
    two_that_need_each_other,
    images_of_one_group_that_collide,
    several_atoms,
    update_takes_the_greater_version,
    masked_by_keyword,
    profile_loop,
    backtrack_limits,
    flag_change_solves,
    what_is_blocked_goes,
    flags_of_a_profile_reach_the_record,
    each_refusal_comes_where_it_is_the_first,
]
