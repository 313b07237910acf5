"""Random plans over four names, and whether they are sound, by each order of their groups.

A plan that is accepted has to be sound: wherever a run of its groups stops, what each package needs
at run time is there and none is blocked; and what a strong block of an addition matches isn't there
when its group comes.
"""
import random
from collections import namedtuple

from cases import PROGRAM, case, expect

# `needs` are sets of names of which one has to be there, `weak` and `strong` are blocked names
Package = namedtuple("Package", "name version needs weak strong")
Group = namedtuple("Group", "after removals additions")
NAMES = "abcd"
PLANS_TRIED = 1_000
# how many of them have to be accepted, and how many refused, for the test to say something
LEAST = 100


def need_text(names):
    atoms = [f"c/{name}" for name in names]
    return atoms[0] if len(atoms) == 1 else f"|| ( {' '.join(atoms)} )"


def package_text(package):
    words = [need_text(names) for names in package.needs]
    words += [f"!c/{name}" for name in package.weak]
    words += [f"!!c/{name}" for name in package.strong]
    needs = f";RDEPEND {' '.join(words)}" if words else ""
    return f"{package.name}-{package.version}{needs}"


def group_text(group):
    parts = [f"after {number + 1}" for number in group.after]
    parts += [f"-{package.name}-{package.version}" for package in group.removals]
    parts += [f"+{package_text(package)}" for package in group.additions]
    return ",".join(parts)


def is_consistent(packages):
    names = [package.name for package in packages]
    if len(set(names)) < len(names):
        return False
    for package in packages:
        if any(not set(wanted) & set(names) for wanted in package.needs):
            return False
        if (set(package.weak + package.strong) - {package.name}) & set(names):
            return False
    return True


def may_come(group, packages):
    names = {package.name for package in packages}
    return not any(set(package.strong) & names for package in group.additions)


def changed(group, packages):
    gone = {package.name for package in group.removals}
    return group.additions + tuple(it for it in packages if it.name not in gone)


def is_sound(start, groups):
    """Whether each run of groups, whole or cut off, leaves packages that go together."""
    seen = set()
    pending = [(frozenset(), start)]
    while pending:
        done, packages = pending.pop()
        if (done, packages) in seen:
            continue
        seen.add((done, packages))
        if not is_consistent(packages):
            return False
        for number, group in enumerate(groups):
            if number in done or not done.issuperset(group.after):
                continue
            if not may_come(group, packages):
                return False
            pending.append((done | {number}, changed(group, packages)))
    return True


def random_package(rng, name, version):
    others = [it for it in NAMES if it != name]
    needs = tuple(
        tuple(rng.sample(others, rng.choice([1, 1, 2]))) for _ in range(rng.choice([0, 0, 1, 1, 2]))
    )
    blocked = rng.sample(others, rng.choice([0, 0, 0, 1]))
    strong = rng.random() < 0.5
    return Package(
        name, version, needs, () if strong else tuple(blocked), tuple(blocked) if strong else ()
    )


def random_start(rng):
    """Packages that go together."""
    while True:
        names = [name for name in NAMES if rng.random() < 0.6]
        packages = tuple(random_package(rng, name, 1) for name in names)
        if is_consistent(packages):
            return packages


def random_change(rng, name, held, version):
    """What goes from a line and what comes to it."""
    removals = (held[name],) if name in held else ()
    additions = ()
    if not removals or rng.random() < 0.6:
        additions = (random_package(rng, name, version),)
    return removals, additions


def random_group(rng, held, changers, number):
    """A group that changes one or two lines of those that are held, behind those that did so."""
    after, removals, additions = set(), (), ()
    for name in rng.sample(NAMES, rng.choice([1, 1, 2])):
        gone, came = random_change(rng, name, held, number + 2)
        removals, additions = removals + gone, additions + came
        after.update(changers.get(name, ()))
        changers.setdefault(name, set()).add(number)
        held.pop(name, None)
        held.update({package.name: package for package in came})
    after.update(earlier for earlier in range(number) if rng.random() < 0.4)
    return Group(sorted(after), removals, additions)


def random_plan(rng):
    start = random_start(rng)
    held, changers = {package.name: package for package in start}, {}
    groups = [random_group(rng, held, changers, number) for number in range(rng.randint(1, 4))]
    return start, groups


def plan_case(start, groups):
    return case("check", ",".join(map(package_text, start)), *map(group_text, groups))


def accepted_plans_are_sound():
    rng = random.Random(8)
    plans = [random_plan(rng) for _ in range(PLANS_TRIED)]
    answers = yield PROGRAM, [plan_case(*plan) for plan in plans]
    expect("not in form" not in answers, "a case is not in form")
    for plan, answer in zip(plans, answers):
        if answer == "ok":
            expect(is_sound(*plan), f"accepted, and not sound: {plan_case(*plan)!r}")
    accepted = answers.count("ok")
    expect(LEAST <= accepted <= PLANS_TRIED - LEAST, f"{accepted} plans are accepted")


def plans_that_are_not_sound():
    """The plans that the named examples call sound and not sound, by each order of their groups."""
    either = Package("u", 1, (("a", "b"),), (), ())
    first, second = Package("a", 1, (), (), ()), Package("b", 1, (), (), ())
    swap = [Group([], (first,), ()), Group([], (), (second,))]
    one = [Group([], (first,), (second,))]
    _ = yield PROGRAM, []
    expect(not is_sound((either, first), swap), "a swap in two groups counts as sound")
    expect(is_sound((either, first), one), "a swap in one group doesn't count as sound")


TESTS = [accepted_plans_are_sound, plans_that_are_not_sound]
