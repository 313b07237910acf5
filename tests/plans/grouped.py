"""Random systems whose changes are cut into groups, and the plan that the program shows of them.

Each system has just one solution, so that what comes and goes is known without the program. Which
groups that makes, a plain second computation says (`grouping`), and whether a plan of them is
accepted, another one (`rules`).
"""
import itertools
import os
import random

import in_memory
from cases import expect
from first import node_text
from grouping import BuildCycle, Changes, conflicts, holds, plan_text
from rules import BUILD, RUN, AnyOf, Atom, Package, first_refusal, id_of, line_of, tree, wanted
from trees import installed, offered, tree_of

# fewer where the program is made without a proof, and so is slow
TRIED = 120 if os.environ.get("UNPROVED") else 500
# how many of them have to be there of each kind of answer, for the test to say something
LEAST = 2 if os.environ.get("UNPROVED") else 10
NAMES = ["a", "a-b", "b", "lib", "m"]
CLASSES = RUN + BUILD
# how a rule that is broken is told, by its word in `rules`, with the places of packages behind it
TOLD = {
    "line": ("Line", ()),
    "absent": ("Absent", (1,)),
    "occupied": ("Occupied", (1, 2)),
    "binding": ("Binding", (0,)),
    "unsatisfied": ("Unsatisfied", (1,)),
    "unsafe": ("Unsafe", (0,)),
    "blocked": ("WeakBlock", (0, 1)),
    "barred": ("StrongBlock", (1, 2)),
    "build": ("Build", (1,)),
    "final": ("Final", (0,)),
}


class System:
    """What is installed, what may come, and the atoms that are wanted."""

    def __init__(self, held, offers, wants):
        self.held, self.offers, self.wants = held, offers, wants
        self.lines = sorted({line_of(it) for it in [*held, *offers]})

    def values(self, line):
        """What may stand on a line: what is installed there, nothing, or what comes there; each with
        whether it comes."""
        there = [(it, False) for it in self.held if line_of(it) == line]
        there += [(it, True) for it in self.offers if line_of(it) == line]
        return [*there, (None, False)]

    def is_solution(self, chosen):
        """Whether these values, one for each line, make a solution."""
        there = [(it, new) for it, new in chosen if it]
        state = [it for it, _ in there]
        if not all(any(wanted(atom, it) for it in state) for atom in self.wants):
            return False
        for x, new in there:
            classes = CLASSES if new else ["RDEPEND"]
            if not all(holds(tree(x, which), state) for which in classes):
                return False
            if any(conflicts(new, x, y) for y in state if y is not x):
                return False
        gone = [it for it in self.held if line_of(it) not in map(line_of, state)]
        return all(any(conflicts(new, x, it) for x, new in there) for it in gone)

    def solutions(self):
        """All of them. Where a value alone has what is wanted, its line has no other."""
        values = {line: self.values(line) for line in self.lines}
        for atom in self.wants:
            fits = [(line, it) for line in self.lines for it in values[line]]
            fits = [(line, it) for line, it in fits if it[0] and wanted(atom, it[0])]
            if len(fits) == 1:
                values[fits[0][0]] = [fits[0][1]]
        ways = itertools.product(*values.values())
        return [chosen for chosen in ways if self.is_solution(chosen)]

    def changes(self, chosen):
        """The changes that these values make."""
        at = list(zip(self.lines, chosen))
        stays = {line_of(it) for it in self.held}
        changed = [line for line, (it, new) in at if new or not it and line in stays]
        return Changes(self.held, [it for _, (it, _) in at if it], changed)

    def answer(self, chosen):
        """What the program has to say where these are the values of the one solution, and how that is
        to be called here."""
        changes = self.changes(chosen)
        try:
            plans = [changes.plan(changes.fine()), changes.plan(changes.level())]
        except BuildCycle as cycle:
            return "cycle", f"11 emerge: BuildCycle: {cycle}\n"
        refusals = [first_refusal(plan.check) for plan in plans]
        for kind, plan, refusal in zip(("fine", "level"), plans, refusals):
            if refusal == "ok":
                return kind, f"0 {plan_text(plan)}emerge: ok 0\n"
        return "none", f"12 emerge: NoOrder: {told_as(refusals[1])}\n"

    def case(self):
        parts = [installed(f"c/{id_of(it)}", (), slots(it), **fields(it)) for it in self.held]
        parts += [offered(f"c/{id_of(it)}", slots(it), **fields(it)) for it in self.offers]
        words = [f"=c/{it.name}-{it.version}" for it in self.wants]
        return in_memory.run_case(["--pretend", *words], tree_of(*parts), {})


def told_as(refusal):
    """A rule that is broken, as the last line has it: a strong block without its group."""
    word, *rest = refusal.split(" ")
    name, packages = TOLD[word]
    told = [f"c/{it}" if at in packages else it for at, it in enumerate(rest)]
    return " ".join([name, *(told[1:] if word == "barred" else told)])


def slots(package):
    return f"{package.slot}/{package.subslot}"


def fields(package):
    texts = {which: " ".join(map(node_text, nodes)) for which, nodes in package.trees.items()}
    return {which: text for which, text in texts.items() if text}


def random_atom(chance, names, block=""):
    version = chance.choice([None, None, None, "1", "2", "3"])
    slot = chance.choice([None, None, None, None, "0", "1"])
    return Atom(block, chance.choice(names), version, slot, None, False)


def random_trees(chance, names, likely):
    """Needs and blocks over these names; the higher `likely` is, the more."""
    trees = {}
    for which in CLASSES:
        nodes, share = [], likely if which == "RDEPEND" else likely / 3
        if chance.random() < share:
            nodes.append(random_atom(chance, names)._replace(slot=None))
        if chance.random() < share / 3:
            size = chance.choice([2, 3])
            nodes.append(AnyOf([random_atom(chance, names) for _ in range(size)]))
        if chance.random() < share / 4:
            nodes.append(random_atom(chance, names, chance.choice(["!", "!!"])))
        trees[which] = nodes
    return trees


def random_system(chance):
    """Packages of which some are installed. What may come is wanted in its very version, or is what is
    installed once more, as what is built anew is."""
    names = chance.sample(NAMES, chance.choice([2, 3, 3, 4]))
    held, offers, wants = [], [], []
    for name in names:
        for slot in ["0", "1"] if chance.random() < 0.2 else ["0"]:
            version = chance.choice(["1", "1", "2"])
            old = Package(name, version, slot, "0", random_trees(chance, names, 0.25), True, [])
            if chance.random() < 0.55 and id_of(old) not in map(id_of, held):
                held.append(old)
            if chance.random() < 0.2:
                continue
            trees = random_trees(chance, names, 0.6)
            new = Package(name, "3", slot, chance.choice("01"), trees, True, [])
            if old in held and chance.random() < 0.05:
                trees["RDEPEND"].append(Atom("!!", name, version, None, None, False))
            if old in held and chance.random() < 0.2:
                new = new._replace(version=old.version, subslot=old.subslot)
            elif id_of(new) not in map(id_of, offers):
                wants.append(Atom("", name, new.version, None, None, False))
            else:
                continue
            offers.append(new)
    return System(*with_binds(chance, held, offers), wants)


def random_swap(chance):
    """Two packages that are replaced, one that comes, and one that stays, which any of the two would
    serve as it was, and the third as it comes."""
    names = chance.sample(NAMES, 3)
    held = [Package(name, "1", "0", "0", {}, True, []) for name in names[:2]]
    trees = [random_trees(chance, names, 0.3) for _ in names]
    offers = [Package(name, "3", "0", "0", it, True, []) for name, it in zip(names, trees)]
    wants = [Atom("", name, "3", None, None, False) for name in names]
    members = [Atom("", it.name, it.version, None, None, False) for it in [*held, offers[2]]]
    chance.shuffle(members)
    user = Package("u", "1", "0", "0", {"RDEPEND": [AnyOf(members)]}, True, [])
    return System([*held, user], offers, wants)


def with_binds(chance, held, offers):
    """The same packages, of which some are built against a slot of another one."""
    for at, old in enumerate(held):
        others = [it for it in held if it.name != old.name]
        if others and chance.random() < 0.3:
            lib = chance.choice(others)
            leaf = Atom("", lib.name, None, lib.slot, lib.subslot, True)
            held[at] = old._replace(trees={**old.trees, "RDEPEND": [*tree(old, "RDEPEND"), leaf]})
    for at, new in enumerate(offers):
        others = [it for it in [*held, *offers] if it.name != new.name]
        if others and chance.random() < 0.3:
            name = chance.choice(others).name
            leaf = Atom("", name, None, chance.choice([None, "0"]), None, True)
            which = chance.choice(["RDEPEND", "RDEPEND", "DEPEND"])
            offers[at] = new._replace(trees={**new.trees, which: [*tree(new, which), leaf]})
    return held, offers


def is_consistent(held):
    """Whether what is installed goes together."""
    pairs = [(x, y) for x in held for y in held if x is not y]
    apart = not any(conflicts(False, x, y) for x, y in pairs)
    return apart and all(holds(tree(x, "RDEPEND"), held) for x in held)


def systems(seed, most):
    """So many systems with one solution, which changes something, each with that."""
    chance = random.Random(seed)
    while most:
        system = random_swap(chance) if chance.random() < 0.05 else random_system(chance)
        found = system.solutions() if is_consistent(system.held) else []
        if len(found) == 1 and any(new for _, new in found[0]):
            yield system, found[0]
            most -= 1


def groups_as_the_second_computation_says():
    """The fine plan where it is accepted, else the level plan, else why neither is."""
    made = list(systems(5, TRIED))
    answers = yield in_memory.NAME, [system.case() for system, _ in made]
    kinds = []
    for (system, chosen), answer in zip(made, answers):
        kind, wanted_answer = system.answer(chosen)
        kinds.append(kind)
        came = in_memory.Answer(answer).told()
        expect(came == wanted_answer, f"{system.case()!r}: wanted {wanted_answer!r}, came {came!r}")
    counts = {kind: kinds.count(kind) for kind in ("fine", "level", "cycle", "none")}
    expect(min(counts.values()) >= LEAST, f"too few of a kind: {counts}")


TESTS = [groups_as_the_second_computation_says]
