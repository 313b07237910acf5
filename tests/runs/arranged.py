"""The groups that a command makes of what it chooses: their plan, their merge, and what a stop at any
call leaves of them; and choices that come in no order."""
import os

import unproved
from crashes import journal_paths, left_by, recovered, three_images, with_all_watched
from in_memory import PLAIN, answers, run_case
from trees import (
    PROFILE,
    check,
    image_of,
    installed,
    merged,
    offered,
    placed_by,
    run,
    texts,
    told_each,
    tree_of,
    without,
)

MOST_GROUPS = unproved.LIMITS["MOST_GROUPS"] if os.environ.get("UNPROVED") else 4_096


def check_stops(words, states, images, stages):
    """Fails where a run that is stopped at one of its calls leaves something else than one of these
    trees, by any of three images; the first is that before it, and each next one that behind one group
    more. `stages` has how many each group has."""
    tell = lambda **faults: run_case(words.split(), states[0], images, **faults)
    whole = answers([tell()])[0]
    check((whole.code, whole.tree), ("0", states[-1]))
    watch = sorted({path for tree in states for path in tree})
    for group, count in enumerate(stages, 1):
        watch += journal_paths(group, count)
    calls = range(1, int(whole.calls) + 1)
    came = answers([tell(stop=call, watch=watch) for call in calls])
    left = left_by(with_all_watched(came, watch), three_images)
    trees = recovered(left)
    for (call, _), tree in zip(left, trees):
        check(tree in states, True, f"at call {call}")
        told = len(came[call - 1].acknowledged.split())
        check(states.index(tree) >= told, True, f"at call {call}, told {told}")
    check([state in trees for state in states], [True] * len(states))


# a library and what was built for it, and both as they come
LIBRARY = {"RDEPEND": "c/lib:0/1="}
REBUILT = {"RDEPEND": "c/lib:0/2=", "DEPEND": "c/lib"}
OLD_LIB, OLD_APP = image_of("- usr/lib/lib.so.1 1"), image_of("x usr/bin/app 1")
NEW_LIB, NEW_APP = image_of("- usr/lib/lib.so.2 2"), image_of("x usr/bin/app 2\n- usr/share/app 2")


def slot_operator_rebuild():
    """What was built for the older library is built anew with the newer one, and bound to it: both
    come together, or neither does, wherever the run is stopped."""
    repository = tree_of(
        offered("c/lib-2", "0/2"),
        offered("c/app-1", RDEPEND="c/lib:=", DEPEND="c/lib:="),
    )
    before = merged(repository, OLD_LIB, "c/lib-1", "0/1")
    before = merged(before, OLD_APP, "c/app-1", **LIBRARY)
    after = merged(repository, NEW_LIB, "c/lib-2", "0/2")
    after = merged(after, NEW_APP, "c/app-1", **REBUILT)
    plan = (
        "plan 1\ngroup 1\nremove c/app-1:0\nremove c/lib-1:0\n"
        "add c/app-1:0/0\nbind 0/2\nadd c/lib-2:0/2\n"
    )
    images = {"c/lib-2": NEW_LIB, "c/app-1": NEW_APP}
    words = "--update c/lib"
    shown, whole = answers([
        run_case(["--pretend", *words.split()], before, images),
        run_case(words.split(), before, images),
    ])
    check((shown.told(), shown.tree), (f"0 {plan}emerge: ok 0\n", before))
    check(whole.told(), "0 done 1 -c/app-1 -c/lib-1 +c/app-1 +c/lib-2\nemerge: ok 1\n")
    check((whole.history, whole.acknowledged), ("1", "1"))
    stages = placed_by("c/app-1", NEW_APP, **REBUILT) + placed_by("c/lib-2", NEW_LIB)
    check_stops(words, [before, after], images, [stages])


# of two packages, each needs the other one, and a third is built with the first
RING = tree_of(
    offered("c/a-1", RDEPEND="c/b"),
    offered("c/b-1", RDEPEND="c/a"),
    offered("c/d-1", DEPEND="c/a"),
)
BIN_A, BIN_B, BIN_D = (image_of(f"- usr/bin/{name}") for name in "abd")
BIN = {"c/a-1": BIN_A, "c/b-1": BIN_B, "c/d-1": BIN_D}
TOGETHER = merged(merged(RING, BIN_A, "c/a-1", RDEPEND="c/b"), BIN_B, "c/b-1", RDEPEND="c/a")
FIRST = "done 1 +c/a-1 +c/b-1\n"


def what_is_built_comes_behind_what_it_is_built_with():
    """Wherever the run is stopped some first groups are there, each whose line was written among
    them."""
    whole = merged(TOGETHER, BIN_D, "c/d-1", DEPEND="c/a")
    shown = run("--pretend c/d", RING)
    plan = "plan 1\ngroup 1\nadd c/a-1:0/0\nadd c/b-1:0/0\ngroup 2\nafter 1\nadd c/d-1:0/0\n"
    check(shown.told(), f"0 {plan}emerge: ok 0\n")
    answer = answers([run_case(["c/d"], RING, BIN)])[0]
    check(answer.told(), f"0 {FIRST}done 2 +c/d-1\nemerge: ok 2\n")
    check((answer.history, answer.acknowledged), ("1 2", "1 2"))
    stages = [placed_by("c/a-1", BIN_A, RDEPEND="") * 2, placed_by("c/d-1", BIN_D, DEPEND="")]
    check_stops("c/d", [RING, TOGETHER, whole], BIN, stages)


def a_group_that_is_refused_ends_the_command():
    """What came before it stays and is told."""
    tree = {**RING, "usr/bin/d": (PLAIN, b"mine")}
    answer = answers([run_case(["c/d"], tree, BIN)])[0]
    check(answer.told(), f"13 {FIRST}emerge: Collision: Unowned usr/bin/d\n")
    check(answer.tree, {**TOGETHER, "usr/bin/d": (PLAIN, b"mine")})


def check_refused(rows):
    """Each row is what is installed and offered, the words, and the answer; nothing is changed."""
    trees = [tree_of(*parts) for parts, _, _ in rows]
    cases = [run_case(words.split(), tree, {}) for tree, (_, words, _) in zip(trees, rows)]
    for tree, (_, words, wanted), answer in zip(trees, rows, answers(cases)):
        check((answer.told(), answer.history), (wanted, ""), words)
        check(answer.tree, tree, words)


def build_cycle():
    """All packages that wait for one another are told, in the order of their names and slots, which
    isn't that of their printed names; of two cycles the one with the first of them is told."""
    pair = (offered("c/a-1", DEPEND="c/b"), offered("c/b-1", DEPEND="c/a"))
    later = (offered("c/y-1", BDEPEND="c/z"), offered("c/z-1", BDEPEND="c/y"))
    told = "11 emerge: BuildCycle: c/a-1 c/b-1\n"
    check_refused([
        (pair, "c/a", told),
        (pair, "--pretend c/a", told),
        ([*pair, *later, offered("c/free-1")], "c/free c/y c/a", told),
        (
            [offered("c/a-1", RDEPEND="c/a-b"), offered("c/a-b-1", DEPEND="c/a")],
            "c/a",
            "11 emerge: BuildCycle: c/a-b-1 c/a-1\n",
        ),
        (
            [
                offered("c/a-1", RDEPEND="c/b"),
                offered("c/b-1", RDEPEND="c/d"),
                offered("c/d-1", IDEPEND="c/a"),
            ],
            "c/b",
            "11 emerge: BuildCycle: c/a-1 c/b-1 c/d-1\n",
        ),
        (
            [installed("c/a-1"), offered("c/a-2", DEPEND=">=c/a-2")],
            "--update c/a",
            "11 emerge: BuildCycle: c/a-2\n",
        ),
    ])


def builds_with_what_is_there():
    """What is installed serves the build of what replaces it, so that there is no cycle."""
    tree = tree_of(
        installed("c/a-1"),
        installed("c/b-1"),
        offered("c/a-2", DEPEND="c/b"),
        offered("c/b-2", DEPEND="c/a"),
    )
    told = told_each([run_case(["--update", "c/a", "c/b"], tree, {})])
    check(told, ["0 done 1 -c/a-1 +c/a-2\ndone 2 -c/b-1 +c/b-2\nemerge: ok 2\n"])


def choice_without_an_order():
    """A strong block on its own older version keeps a package out of any order; the answer has the
    groups of the level plan, and what else is asked for doesn't come, either."""
    strong = (installed("c/p-1"), offered("c/p-2", RDEPEND="!!<c/p-2"))
    barred = (installed("c/p-1"), offered("c/p-2", BDEPEND="!<c/p-2"))
    told = "12 emerge: NoOrder: StrongBlock c/p-2 c/p-1\n"
    check_refused([
        (strong, "--update c/p", told),
        (barred, "--update c/p", told),
        ([*strong, offered("c/free-1")], "--update c/free c/p", told),
        ([*strong, offered("c/free-1")], "--pretend --update c/free c/p", told),
    ])


def one_group_where_each_alone_is_safe():
    """Two that are replaced both serve a package that stays, and so does the third, which comes. Each
    change alone breaks nothing, so none waits for another; the check refuses them in groups of their
    own, and takes them in one."""
    tree = tree_of(
        installed("c/u-1", RDEPEND="|| ( =c/a-1 =c/b-1 c/d )"),
        installed("c/a-1"),
        installed("c/b-1"),
        offered("c/a-2"),
        offered("c/b-2"),
        offered("c/d-1"),
    )
    told = told_each([run_case(["--update", "c/a", "c/b", "c/d"], tree, {})])
    check(told, ["0 done 1 -c/a-1 -c/b-1 +c/a-2 +c/b-2 +c/d-1\nemerge: ok 1\n"])


def more_groups_than_may_be():
    """Packages that don't need one another, one more than a plan may have groups: nothing comes."""
    names = [f"c/p{at}" for at in range(MOST_GROUPS + 1)]
    tree = tree_of(*(offered(f"{name}-1") for name in names))
    answer = answers([run_case(names, tree, {})])[0]
    check((answer.told(), answer.history), ("18 emerge: Limit: Groups\n", ""))
    check(answer.tree == tree, True, "the tree")


# what docs/plans.md shows as an example
EXAMPLE = tree_of(
    installed("c/lib-1", slot="0/1"),
    installed("c/app-1", **LIBRARY),
    offered("c/lib-2", "0/2"),
    offered("c/app-1", RDEPEND="c/lib:="),
    offered("c/a-1", RDEPEND="c/b"),
    offered("c/b-1", RDEPEND="c/a"),
    offered("c/d-1", DEPEND="c/a"),
)
EXAMPLE_PLAN = (
    "plan 1\ngroup 1\nadd c/a-1:0/0\nadd c/b-1:0/0\n"
    "group 2\nremove c/app-1:0\nremove c/lib-1:0\nadd c/app-1:0/0\nbind 0/2\nadd c/lib-2:0/2\n"
    "group 3\nafter 1\nadd c/d-1:0/0\n"
)


def example_of_the_documents():
    words = "--update c/d c/lib"
    told = told_each([run_case([*it, *words.split()], EXAMPLE, {}) for it in ([], ["--pretend"])])
    first = "done 1 +c/a-1 +c/b-1\ndone 2 -c/app-1 -c/lib-1 +c/app-1 +c/lib-2\n"
    check(told[0], f"0 {first}done 3 +c/d-1\nemerge: ok 3\n")
    check(told[1], f"0 {EXAMPLE_PLAN}emerge: ok 0\n")


# a system of forty packages, of which four were built for an older library
TOOLS = [f"app-misc/tool{at:02}" for at in range(1, 36)]
USERS = ["app-office/writer-7.5", "dev-db/store-3.1", "dev-qt/qtcore-5.15", "net-libs/webkit-2.40"]
CONFIGURED = texts({
    f"{PROFILE}/parent": "../../second\n",
    f"{PROFILE}/package.use": "dev-libs/icu -doc\n",
    "etc/second/parent": "../first\n",
    "etc/second/make.defaults": 'USE="doc"\n',
    "etc/first/make.defaults": 'USE_EXPAND="PYTHON_TARGETS"\nPYTHON_TARGETS="python3_11"\n',
    "etc/portage/make.conf": 'PYTHON_TARGETS="-python3_11 python3_12"\n',
})
UPDATE = "--update --jobs 4 dev-libs/icu app-misc/tool01"
UPDATE_PLAN = """\
plan 1
group 1
remove app-misc/tool01-1.0:0
add app-misc/tool01-1.1:0/0
group 2
remove app-office/writer-7.5:0
remove dev-db/store-3.1:0
remove dev-libs/icu-73.1:0
remove dev-qt/qtcore-5.15:0
remove net-libs/webkit-2.40:0
add app-office/writer-7.5:0/0
bind 0/74
add dev-db/store-3.1:0/0
bind 0/74
add dev-libs/icu-74.2:0/74 python_targets_python3_12
add dev-qt/qtcore-5.15:0/0
bind 0/74
add net-libs/webkit-2.40:0/0
bind 0/74
"""
UPDATE_DONE = (
    "done 1 -app-misc/tool01-1.0 +app-misc/tool01-1.1",
    "done 2 -app-office/writer-7.5 -dev-db/store-3.1 -dev-libs/icu-73.1 -dev-qt/qtcore-5.15 "
    "-net-libs/webkit-2.40 +app-office/writer-7.5 +dev-db/store-3.1 +dev-libs/icu-74.2 "
    "+dev-qt/qtcore-5.15 +net-libs/webkit-2.40",
)


def image_named(package):
    """An image of one file, which is named as the package is."""
    return image_of(f"- usr/bin/{package.split('/')[1].rsplit('-', 1)[0]}")


def realistic_update():
    """A library is updated with the four that were built for it, and a tool beside them. The others
    stay."""
    parts = [CONFIGURED, offered("app-misc/tool01-1.1")]
    parts += [part(f"{name}-1.0") for name in TOOLS for part in (offered, installed)]
    parts.append(offered("dev-libs/icu-74.2", "0/74", IUSE="doc python_targets_python3_12"))
    parts += [offered(it, RDEPEND="dev-libs/icu:=", DEPEND="dev-libs/icu:=") for it in USERS]
    parts.append(installed("dev-libs/icu-73.1", slot="0/73"))
    parts += [installed(it, RDEPEND="dev-libs/icu:0/73=") for it in USERS]
    tree = tree_of(*parts)
    coming = ["app-misc/tool01-1.1", "dev-libs/icu-74.2", *USERS]
    images = {package: image_named(package) for package in coming}
    shown, whole = answers([
        run_case(["--pretend", *UPDATE.split()], tree, images),
        run_case(UPDATE.split(), tree, images),
    ])
    check((shown.told(), shown.tree), (f"0 {UPDATE_PLAN}emerge: ok 0\n", tree))
    *done, last = whole.said.splitlines()
    check((whole.code, sorted(done), last), ("0", [*UPDATE_DONE], "emerge: ok 2"))
    left = without(without(tree, "app-misc/tool01-1.0"), "dev-libs/icu-73.1", slot="0/73")
    left = merged(left, images[coming[0]], coming[0])
    flags = {"IUSE": "doc python_targets_python3_12", "USE": "python_targets_python3_12"}
    left = merged(left, images[coming[1]], coming[1], "0/74", **flags)
    for user in USERS:
        bound = {"RDEPEND": "dev-libs/icu:0/74=", "DEPEND": "dev-libs/icu"}
        left = merged(left, images[user], user, **bound)
    check(whole.tree, left)


TESTS = [
    slot_operator_rebuild,
    what_is_built_comes_behind_what_it_is_built_with,
    a_group_that_is_refused_ends_the_command,
    build_cycle,
    builds_with_what_is_there,
    choice_without_an_order,
    one_group_where_each_alone_is_safe,
    more_groups_than_may_be,
    example_of_the_documents,
    realistic_update,
]
