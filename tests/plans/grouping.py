"""The groups of what changes, as a plain second computation: from what is installed and what stands
there afterwards, by the definitions alone.

What changes is a line, `c/name:slot`. Edges go from a change to those that it waits for; the changes
that wait for one another are a component. All is done the plain way, by going through everything.
"""
from collections import namedtuple

from rules import BUILD, RUN, AnyOf, Atom, Group, Plan, blocked, blocks, id_of, line_of, tree, wanted

MOST_GROUPS = 4_096

# what goes from a line and what comes to it, of which one may be None
Change = namedtuple("Change", "line old new")


class BuildCycle(Exception):
    """The packages of a component one of which builds on it."""


class TooMany(Exception):
    """There are more groups than a plan may have."""


def number(version):
    """What a version counts as: here each is a digit, perhaps with the revision 0."""
    return int(version.partition("-")[0])


def holds(nodes, state):
    """Whether these trees hold among packages; blocks are judged apart."""
    there = lambda atom: any(wanted(atom, it) for it in state)
    return all(
        any(map(there, node.members)) if isinstance(node, AnyOf) else node.block or there(node)
        for node in nodes
    )


def greatest(atom, state):
    """The line of the greatest version that the atom matches, of equal ones the smallest line."""
    fits = [it for it in state if wanted(atom, it)]
    fits.sort(key=lambda it: (-number(it.version), line_of(it)))
    return [line_of(it) for it in fits[:1]]


def needs(nodes, state):
    """The lines that these trees need among packages: of a choice what its first member needs that
    is there."""
    lines = []
    for node in nodes:
        if isinstance(node, AnyOf):
            there = [it for it in node.members if any(wanted(it, other) for other in state)]
            lines += greatest(there[0], state) if there else []
        elif not node.block:
            lines += greatest(node, state)
    return lines


def conflicts(new, x, y):
    """Whether x can't stand beside y; where it is new, the blocks of its build count, too."""
    return blocked(blocks(x, RUN + BUILD if new else RUN), y) or id_of(x) == id_of(y)


class Changes:
    """The changes between what is installed and what stands there afterwards, by line, with the
    edges between them. `changed` has the lines that change, also where the same package comes."""

    def __init__(self, opening, result, changed):
        self.opening, self.result = opening, result
        old = {line_of(it): it for it in opening}
        new = {line_of(it): it for it in result}
        self.list = [Change(it, old.get(it), new.get(it)) for it in sorted(changed)]
        self.at = {change.line: place for place, change in enumerate(self.list)}
        self.waits, self.builds = set(), set()
        for one in range(len(self.list)):
            self.find_needs(one)
            self.find_conflicts(one)
        for y in opening:
            self.find_broken(y)

    def add(self, one, other, builds=False):
        """An edge; one from a change to itself only builds."""
        if builds:
            self.builds.add((one, other))
        if builds or one != other:
            self.waits.add((one, other))

    def changed(self, lines):
        return [self.at[line] for line in lines if line in self.at]

    def find_needs(self, one):
        """What comes waits for what it needs at run time, and builds on what its build needs, in a
        class that what is installed doesn't satisfy as a whole."""
        x = self.list[one].new
        if not x:
            return
        for other in self.changed(needs(tree(x, "RDEPEND"), self.result)):
            self.add(one, other)
        for which in BUILD:
            if not holds(tree(x, which), self.opening):
                for other in self.changed(needs(tree(x, which), self.result)):
                    self.add(one, other, True)

    def find_conflicts(self, one):
        """What comes waits for what is installed on another line where one of both keeps the other
        out, and builds on it for a strong block, and for any block of its build."""
        x = self.list[one].new
        for other, change in enumerate(self.list):
            y = change.old
            if not x or not y or one == other:
                continue
            bars = blocked(blocks(x, RUN, ["!!"]) + blocks(x, BUILD), y)
            if conflicts(True, x, y) or conflicts(False, y, x):
                self.add(one, other, bars)

    def alone(self, one):
        """What is installed, with this change made."""
        stays = [it for it in self.opening if line_of(it) != self.list[one].line]
        return stays + ([self.list[one].new] if self.list[one].new else [])

    def find_broken(self, y):
        """A change that alone breaks what is installed waits for what replaces that, and where that
        stays for what it needs afterwards."""
        run, line = tree(y, "RDEPEND"), line_of(y)
        for one in self.changed(needs(run, self.opening)):
            if holds(run, self.alone(one)):
                continue
            saves = [line] if line in self.at else needs(run, self.result)
            for other in self.changed(saves):
                self.add(one, other)

    def components(self):
        """Of each change those with which it waits in a ring."""
        size = range(len(self.list))
        reach = [[one == other or (one, other) in self.waits for other in size] for one in size]
        for via in size:
            for one in size:
                for other in size:
                    reach[one][other] |= reach[one][via] and reach[via][other]
        return [[it for it in size if reach[one][it] and reach[it][one]] for one in size]

    def find_cycle(self):
        together = self.components()
        for one in range(len(self.list)):
            ring = together[one]
            if any((x, y) in self.builds for x in ring for y in ring):
                named = [self.list[it].new or self.list[it].old for it in ring]
                raise BuildCycle(" ".join(f"c/{id_of(it)}" for it in named))

    def numbered(self):
        """The components in the order of their numbers: the next one is that with the smallest line
        of those that wait for none without a number."""
        left, order = sorted(map(tuple, {tuple(it) for it in self.components()})), []
        while left:
            open_ones = {it for ring in left for it in ring}
            free = lambda ring: not any(
                x in ring and y in open_ones and y not in ring for x, y in self.waits
            )
            order.append(next(ring for ring in left if free(ring)))
            left.remove(order[-1])
        return order

    def fine(self):
        """The fine plan: each group's changes, and the groups for which it waits."""
        self.find_cycle()
        order = self.numbered()
        if len(order) > MOST_GROUPS:
            raise TooMany
        group = {it: at for at, ring in enumerate(order, 1) for it in ring}
        after = [{group[y] for x, y in self.waits if x in ring} for ring in order]
        return [(ring, sorted(it - {at})) for at, (ring, it) in enumerate(zip(order, after), 1)]

    def level(self):
        """The level plan."""
        level = {}
        for ring, _ in self.fine():
            outward = [(x, y) for x, y in self.waits if x in ring and y not in ring]
            above = [level[y] + ((x, y) in self.builds) for x, y in outward]
            level.update(dict.fromkeys(ring, max([1, *above])))
        last = max(level.values(), default=0)
        rows = [[it for it in sorted(level) if level[it] == row] for row in range(1, last + 1)]
        return [(row, [at] if at else []) for at, row in enumerate(rows)]

    def plan(self, groups):
        """The groups as a plan, with its binds."""
        made = []
        for changes, after in groups:
            old = [self.list[it].old for it in changes if self.list[it].old]
            new = [self.list[it].new for it in changes if self.list[it].new]
            removals = sorted(old, key=lambda it: removal_text(it).encode())
            additions = sorted(new, key=lambda it: addition_text(it).encode())
            made.append(Group(after, removals, additions))
        bare = Plan(self.opening, made)
        bound = {(life.birth, line_of(life.package)): entered(bare, life) for life in bare.lives}
        for at, group in enumerate(made, 1):
            added = [bound[at, line_of(it)] for it in group.additions]
            made[at - 1] = group._replace(additions=added)
        return Plan(self.opening, made)


def removal_text(package):
    return f"remove c/{id_of(package)}:{package.slot}"


def addition_text(package):
    return f"add c/{id_of(package)}:{package.slot}/{package.subslot}"


def bind_of(plan, life, atom):
    """The slot and the subslot of the greatest package that the atom matches and that stands beside
    what comes."""
    beside = [it.package for it in plan.lives if plan.beside(life, it)]
    fits = sorted(
        (it for it in beside if wanted(atom, it)),
        key=lambda it: (-number(it.version), line_of(it)),
    )
    slot = atom.slot or "0"
    return (fits[0].slot, fits[0].subslot) if fits else (slot, slot)


def without_operator(node):
    if isinstance(node, AnyOf):
        return AnyOf(list(map(without_operator, node.members)))
    return node._replace(asks=False)


def entered(plan, life):
    """The package as it comes: each dependency at run time that asks is bound, and elsewhere the slot
    operator is dropped."""
    package = life.package
    if not life.birth:
        return package
    trees = {which: list(map(without_operator, nodes)) for which, nodes in package.trees.items()}
    binds = []
    for at, node in enumerate(tree(package, "RDEPEND")):
        if isinstance(node, Atom) and node.asks and not node.block:
            slot, subslot = bind_of(plan, life, node)
            binds.append((slot, subslot))
            trees["RDEPEND"][at] = node._replace(slot=node.slot or slot, subslot=subslot)
    return package._replace(trees=trees, binds=binds)


def plan_text(plan):
    """The text of a plan."""
    lines = ["plan 1"]
    for at, group in enumerate(plan.groups, 1):
        lines.append(f"group {at}")
        lines += [f"after {' '.join(map(str, group.after))}"] if group.after else []
        lines += map(removal_text, group.removals)
        for package in group.additions:
            lines.append(addition_text(package))
            lines += [f"bind {slot}/{subslot}" for slot, subslot in package.binds]
    return "".join(f"{line}\n" for line in lines)
