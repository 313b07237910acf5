"""What the check tells first where a plan breaks several rules: a few plans by hand, and random ones
by a plain second computation."""
import os
import random

from cases import PROGRAM, case, expect
from checked import check_groups
from rules import BUILD, RUN, AnyOf, Atom, Group, Package, Plan, atom_text, first_refusal

NAMES = ["b", "lib", "lib-x", "m"]
# fewer where the program is made without a proof, and so is slow
PLANS_TRIED = 500 if os.environ.get("UNPROVED") else 3_000
# how many of them have to be accepted, and how many refused, for the test to say something
LEAST = 30

# the packages that are there, the groups, and what is told first; in bytes `lib-x:0` is before `lib:0`
LIBRARIES = "lib-1;RDEPEND c/zz", "lib-x-1;RDEPEND c/zz"
FIRST = [
    # packages that come are in the way of each other before an installed one is in theirs
    ("b-3,c-2", ["-b-3,+b-3", "+b-3:1"], "occupied 1 b-3 b-3"),
    # room is asked for before what is installed is judged
    ("u-1;RDEPEND c/x,b-1", ["+b-2"], "occupied 1 b-2 b-1"),
    # a strong block is told as one, whenever what it matches is there
    ("a-1;RDEPEND !!c/a", ["+a-2:1"], "barred 0 a-1 a-2"),
    # weak blocks are tried before strong ones
    ("b-1,d-1", ["+a-1;RDEPEND !!c/b !c/d"], "blocked a-1 d-1"),
    # the installed packages, and what comes with a group, go by their lines
    (",".join(LIBRARIES), ["+b-1"], "opening lacks lib-x-1 c/zz"),
    ("b-1", [",".join(f"+{it}" for it in LIBRARIES)], "unsatisfied 1 lib-x-1 RDEPEND c/zz"),
    ("b-1", ["-lib-1,-lib-x-1"], "absent 1 lib-x-1"),
    # those that are installed go first, and then group by group
    ("z-1;RDEPEND c/v,v-1", ["-v-1,+a-1;RDEPEND c/v"], "unsatisfied 0 z-1 RDEPEND c/v"),
    ("b-1", ["+z-1;RDEPEND c/v", "+a-1;RDEPEND c/v"], "unsatisfied 1 z-1 RDEPEND c/v"),
]


def random_atom(chance, block=""):
    version = chance.choice([None, None, None, "1", "2"])
    slot = chance.choice([None, None, None, "0", "1"])
    return Atom(block, chance.choice(NAMES), version, slot, None, False)


def random_tree(chance, which):
    nodes = []
    if chance.random() < 0.35:
        nodes.append(random_atom(chance))
    if chance.random() < 0.15:
        nodes.append(AnyOf([random_atom(chance) for _ in range(2)]))
    if chance.random() < 0.2:
        nodes.append(random_atom(chance, chance.choice(["!", "!!"])))
    return nodes if which == "RDEPEND" or chance.random() < 0.3 else []


def random_package(chance, name=None, slot=None):
    trees = {which: random_tree(chance, which) for which in [*RUN, *BUILD]}
    name, slot = name or chance.choice(NAMES), slot or chance.choice("0001")
    fits = chance.random() < 0.95
    return Package(name, chance.choice("12"), slot, "0", trees, fits, [])


def on_own_lines(packages):
    """Of these packages those whose line and whose version no earlier one has."""
    kept = []
    for one in packages:
        others = [{(it.name, it.slot), (it.name, it.version, "")} for it in kept]
        if not any({(one.name, one.slot), (one.name, one.version, "")} & it for it in others):
            kept.append(one)
    return kept


def random_group(chance, there, gone, number):
    after = [it for it in range(1, number) if chance.random() < 0.75]
    removals = [it for it in there if chance.random() < 0.4]
    if chance.random() < 0.04:
        removals.append(random_package(chance))
    lines = [(it.name, it.slot) for it in removals]
    additions = [random_package(chance, *line) for line in lines if chance.random() < 0.5]
    most = chance.choice([0, 1, 1, 2]) if removals else chance.choice([1, 1, 2])
    additions += [random_package(chance) for _ in range(most)]
    additions += [it for it in gone if chance.random() < 0.4]
    taken = {(it.name, it.slot) for it in there} - set(lines)
    additions = [it for it in additions if (it.name, it.slot) not in taken or chance.random() < 0.2]
    chance.shuffle(additions)
    return Group(after, removals, additions or [random_package(chance)])


def random_plan(chance, most):
    start = on_own_lines([random_package(chance) for _ in range(chance.randrange(4))])
    if chance.random() < 0.7:
        start = [it for it in start if it.fits]
        start = [it._replace(trees={}) if chance.random() < 0.6 else it for it in start]
    groups, there, gone = [], list(start), []
    for number in range(1, chance.randrange(1, most + 1) + 1):
        group = random_group(chance, there, gone, number)
        lines = {(it.name, it.slot) for it in group.removals}
        gone = [it._replace(trees={}) for it in there if (it.name, it.slot) in lines]
        there = [it for it in there if (it.name, it.slot) not in lines] + group.additions
        groups.append(group)
    return Plan(start, groups)


def node_text(node):
    if isinstance(node, AnyOf):
        return f"|| ( {' '.join(map(atom_text, node.members))} )"
    return atom_text(node)


def package_text(package):
    parts = [f"{package.name}-{package.version}:{package.slot}/{package.subslot}"]
    trees = {which: " ".join(map(node_text, it)) for which, it in package.trees.items()}
    parts += [f"{which} {text}" for which, text in trees.items() if text]
    return ";".join(parts if package.fits else [*parts, "REQUIRED_USE x"])


def group_text(group):
    words = [f"after {number}" for number in group.after]
    words += [f"-{it.name}-{it.version}:{it.slot}" for it in group.removals]
    words += [f"+{package_text(it)}" for it in group.additions]
    return ",".join(words)


def plan_case(plan):
    start = ",".join(map(package_text, plan.start))
    return case("check", start, *map(group_text, plan.groups))


def the_first_rule_that_is_broken():
    return check_groups(FIRST)


def refused_as_the_rules_say():
    chance = random.Random(7)
    plans = [random_plan(chance, 3) for _ in range(PLANS_TRIED)]
    answers = yield PROGRAM, [plan_case(plan) for plan in plans]
    for plan, told in zip(plans, answers):
        wanted = first_refusal(plan.check)
        expect(told == wanted, f"{plan_case(plan)}: wanted {wanted}, came {told}")
    accepted = [told == "ok" for told in answers]
    counts = [accepted.count(True), accepted.count(False)]
    expect(min(counts) >= LEAST, f"accepted and refused were {counts}")


TESTS = [the_first_rule_that_is_broken, refused_as_the_rules_say]
