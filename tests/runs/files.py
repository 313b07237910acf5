"""Plans that stand in files: what is told of them, and what becomes of their groups."""
from crashes import journal_paths, left_by, recovered, three_images, with_all_watched
from in_memory import PLAIN, answers, run_case
from trees import (
    ONE,
    check,
    image_of,
    installed,
    merged,
    offered,
    texts,
    tree_of,
    without,
)

FILE = "var/plan"


def plan_text(groups):
    """The text of a plan of these groups, each of which is its lines, a comma between two."""
    lines = ["plan 1"]
    for number, group in enumerate(groups, 1):
        lines += [f"group {number}", *group.split(",")]
    return "".join(f"{line}\n" for line in lines)


def with_plan(tree, *groups):
    return {**tree, **texts({FILE: plan_text(groups)})}


def asked(tree, images=(), words=("--plan", FILE), **faults):
    """A run of the plan in the file of a tree."""
    return run_case(list(words), tree, dict(images), **faults)


def check_rows(rows):
    """Holds what the plans of these trees come to to what the rows want; a refused one leaves its
    tree as it was."""
    came = answers([asked(tree) for tree, _ in rows])
    for (tree, wanted), answer in zip(rows, came):
        check(answer.told(), wanted, tree[FILE])
        if not wanted.startswith("0 "):
            check(answer.tree, tree)


def check_refusals(rows):
    """Each row is what is installed and offered, the groups, and the words of the refusal."""
    check_rows([
        (with_plan(tree_of(*parts), *groups), f"10 emerge: PlanRefused: {words}\n")
        for parts, groups, words in rows
    ])


EITHER = [installed("c/u-1", RDEPEND="|| ( c/a c/b )"), installed("c/a-1"), offered("c/b-1")]
OLD = [installed("c/old-1"), offered("c/new-1", RDEPEND="!!c/old")]


def unsafe_swap():
    """What a package needs goes before the other one comes that would do; in one group it may."""
    apart = ["remove c/a-1:0", "add c/b-1:0/0"]
    check_refusals([(EITHER, apart, "Unsafe c/u-1 RDEPEND c/a groups 1 2")])
    tree = with_plan(tree_of(*EITHER), "remove c/a-1:0,add c/b-1:0/0")
    answer = answers([asked(tree)])[0]
    check(answer.told(), "0 done 1 -c/a-1 +c/b-1\nemerge: ok 1\n")
    check(answer.tree, merged(without(tree, "c/a-1"), [], "c/b-1"))


def strong_block_needs_two_groups():
    check_refusals([(OLD, ["remove c/old-1:0,add c/new-1:0/0"], "StrongBlock c/new-1 c/old-1")])
    tree = with_plan(tree_of(*OLD), "remove c/old-1:0", "after 1,add c/new-1:0/0")
    answer = answers([asked(tree)])[0]
    check(answer.told(), "0 done 1 -c/old-1\ndone 2 +c/new-1\nemerge: ok 2\n")
    check((answer.history, answer.acknowledged), ("1 2", "1 2"))
    check(answer.tree, merged(without(tree, "c/old-1"), [], "c/new-1", RDEPEND="!!c/old"))


def library_replaced_under_its_user():
    """A library alone can't be replaced under what was built for it."""
    parts = [
        installed("c/lib-1", slot="0/1"),
        installed("c/app-1", RDEPEND="c/lib:0/1="),
        offered("c/lib-2", "0/2"),
        offered("c/app-1", RDEPEND="c/lib:=", DEPEND="c/lib:="),
    ]
    alone = "remove c/lib-1:0,add c/lib-2:0/2"
    bound = "remove c/app-1:0,remove c/lib-1:0,add c/app-1:0/0,bind 0/1,add c/lib-2:0/2"
    check_refusals([
        (parts, [alone], "Unsatisfied 0 c/app-1 RDEPEND c/lib:0/1="),
        (parts, [bound], "Binding c/app-1 c/lib:= 0/1"),
    ])


def each_rule_of_the_check_has_its_line():
    a, b = installed("c/a-1"), offered("c/b-1")
    check_refusals([
        ([a, offered("c/a-2")], ["remove c/a-1:0", "add c/a-2:0/0"], "Line c/a:0 1 2"),
        ([a], ["remove c/a-2:0"], "Absent 1 c/a-2"),
        ([a, offered("c/a-2")], ["add c/a-2:0/0"], "Occupied 1 c/a-2 c/a-1"),
        ([a, offered("c/b-1", REQUIRED_USE="x", IUSE="+x")], ["add c/b-1:0/0"], "RequiredUse c/b-1"),
        ([a, b], ["add c/b-1:0/0,bind 0/0"], "Binding c/b-1 - 0/0"),
        ([a, offered("c/b-1", RDEPEND="c/z")], ["add c/b-1:0/0"], "Unsatisfied 1 c/b-1 RDEPEND c/z"),
        (
            [a, installed("c/u-1", RDEPEND="c/a")],
            ["remove c/a-1:0", "remove c/u-1:0"],
            "Unsafe c/u-1 RDEPEND c/a groups 1",
        ),
        ([a, offered("c/b-1", RDEPEND="!c/a")], ["add c/b-1:0/0"], "WeakBlock c/b-1 c/a-1"),
        ([a, offered("c/b-1", BDEPEND="!c/a")], ["add c/b-1:0/0"], "StrongBlock c/b-1 c/a-1"),
        ([a, offered("c/b-1", DEPEND="c/z")], ["add c/b-1:0/0"], "Build 1 c/b-1 DEPEND c/z"),
        ([a, offered("c/b-1", PDEPEND="c/z")], ["add c/b-1:0/0"], "Final c/b-1 c/z"),
    ])


def plan_file_without_groups():
    tree = tree_of(offered("c/p-1"))
    check_rows([
        ({**tree, **texts({FILE: "plan 1\n"})}, "0 emerge: ok 0\n"),
        ({**tree, **texts({FILE: ""})}, f"3 emerge: BadText: {FILE} 1\n"),
    ])
    check(answers([asked(tree)])[0].told(), f"3 emerge: BadText: {FILE} 0\n")


def a_plan_that_is_only_shown():
    tree = with_plan(tree_of(*EITHER), "remove c/a-1:0,add c/b-1:0/0")
    answer = answers([asked(tree, words=["--pretend", "--plan", f"/{FILE}"])])[0]
    check(answer.told(), f"0 {plan_text(['remove c/a-1:0,add c/b-1:0/0'])}emerge: ok 0\n")
    check(answer.tree, tree)


def the_faults_of_a_file_have_their_places():
    """The configuration goes first, then the file's text, the installed packages, and what the
    file's additions name."""
    plan = texts({FILE: plan_text(["add c/q-1:0/0"])})
    faults = (
        (texts({"etc/portage/make.conf": "A=x y\n"}), "3 emerge: BadText: etc/portage/make.conf 1\n"),
        (texts({FILE: "plan 2\n"}), f"3 emerge: BadText: {FILE} 1\n"),
        (installed("c/u-1", RDEPEND="c/v"), "6 emerge: Inconsistent: Runtime c/u-1 c/v\n"),
        (
            offered("c/q-1", KEYWORDS="~amd64"),
            "7 emerge: NoCandidate: =c/q-1 (c/q-1 Keyword)\n",
        ),
    )
    rows = []
    for at, (_, wanted) in enumerate(faults):
        parts = [files for files, _ in reversed(faults[at:])]
        rows.append((tree_of(plan, *parts), wanted))
    flag = {**tree_of(offered("c/q-1")), **texts({FILE: plan_text(["add c/q-1:0/0 x"])})}
    rows.append((flag, f"3 emerge: BadText: {FILE} 0\n"))
    many = plan_text([f"add c/p{n}-1:0/0" for n in range(4_097)])
    rows.append(({**tree_of(), **texts({FILE: many})}, "18 emerge: Limit: Groups\n"))
    check_rows(rows)


# two upgrades of one package, one after the other
UPGRADES = tree_of(installed("c/p-1", ONE), offered("c/p-2"), offered("c/p-3"))
UPGRADED = ("remove c/p-1:0,add c/p-2:0/0", "after 1,remove c/p-2:0,add c/p-3:0/0")
SECOND, THIRD = image_of("- usr/bin/p 2"), image_of("- usr/bin/p 3")


def upgraded():
    """What the disk holds before the plan's groups, and behind each of them."""
    first = with_plan(UPGRADES, *UPGRADED)
    second = merged(without(first, "c/p-1", ONE), SECOND, "c/p-2")
    return first, second, merged(without(second, "c/p-2", SECOND), THIRD, "c/p-3")


def gate_back_after_a_crash():
    """Wherever the run is stopped, and whatever comes back of a gate, a recovery leaves some first
    groups, every acknowledged one among them."""
    states = upgraded()
    images = {"c/p-2": SECOND, "c/p-3": THIRD}
    whole = answers([asked(states[0], images)])[0]
    check(whole.told(), "0 done 1 -c/p-1 +c/p-2\ndone 2 -c/p-2 +c/p-3\nemerge: ok 2\n")
    check(whole.tree, states[2])
    watch = sorted({*states[0], *states[1], *states[2], *journal_paths(1, 8), *journal_paths(2, 8)})
    calls = range(1, int(whole.calls) + 1)
    came = answers([asked(states[0], images, stop=call, watch=watch) for call in calls])
    left = left_by(with_all_watched(came, watch), three_images)
    trees = recovered(left)
    for (call, _), tree in zip(left, trees):
        check(tree in states, True, f"at call {call}")
        told = len(came[call - 1].acknowledged.split())
        check(states.index(tree) >= told, True, f"at call {call}, told {told}")
    check([state in trees for state in states], [True, True, True])


def a_group_that_is_stopped_ends_the_run():
    """What came before stays and is told; the rest doesn't come."""
    tree = tree_of(offered("c/a-1"), offered("c/b-1"), offered("c/d-1"))
    tree = with_plan(tree, "add c/a-1:0/0", "add c/b-1:0/0", "add c/d-1:0/0")
    bin_a, bin_b = image_of("- usr/bin/a"), image_of("- usr/bin/b")
    rows = (
        ({"c/b-1": bin_a}, {}, "13 done 1 +c/a-1\nemerge: Collision: Owned usr/bin/a c/a-1\n"),
        ({"c/b-1": image_of("- var/db/pkg/x")}, {}, "14 done 1 +c/a-1\nemerge: BadImage: Reserved var/db/pkg/x\n"),
        ({"c/b-1": bin_b}, {"usr/bin/b": (PLAIN, b"")}, "13 done 1 +c/a-1\nemerge: Collision: Unowned usr/bin/b\n"),
    )
    for images, there, wanted in rows:
        begun = {**tree, **there}
        answer = answers([asked(begun, {"c/a-1": bin_a, **images})])[0]
        check(answer.told(), wanted)
        check((answer.history, answer.acknowledged), ("1", "1"))
        check(answer.tree, merged(begun, bin_a, "c/a-1"))


def many_groups_come_one_after_another():
    """Each of 200 packages needs the one before it."""
    names = [f"c/p{n}-1" for n in range(200)]
    needs = [{}, *({"RDEPEND": f"c/p{n}"} for n in range(199))]
    tree = tree_of(*(offered(name, **need) for name, need in zip(names, needs)))
    groups = [f"add {name}:0/0" for name in names]
    groups[1:] = [f"after {n},{group}" for n, group in enumerate(groups[1:], 1)]
    tree = with_plan(tree, *groups)
    answer = answers([asked(tree)])[0]
    lines = "".join(f"done {n} +{name}\n" for n, name in enumerate(names, 1))
    check(answer.told(), f"0 {lines}emerge: ok 200\n")
    whole = tree
    for name, need in zip(names, needs):
        whole = merged(whole, [], name, **need)
    check(answer.tree, whole)


TESTS = [
    unsafe_swap,
    strong_block_needs_two_groups,
    library_replaced_under_its_user,
    each_rule_of_the_check_has_its_line,
    plan_file_without_groups,
    a_plan_that_is_only_shown,
    the_faults_of_a_file_have_their_places,
    gate_back_after_a_crash,
    a_group_that_is_stopped_ends_the_run,
    many_groups_come_one_after_another,
]
