"""The rules of the check of plans as a plain second computation: which one a plan breaks first.

A life is a package with the group that brings it, 0 for what is there to begin with, and the group
that takes it away, None for never.
"""
from collections import namedtuple

# `block` is "", "!" or "!!"; a version, a slot and a subslot that aren't asked for are None; `asks`
# says whether the slot is to be bound
Atom = namedtuple("Atom", "block name version slot subslot asks")
# a choice among atoms
AnyOf = namedtuple("AnyOf", "members")
# `trees` are atoms and choices by class; `fits` says whether the flags fit
Package = namedtuple("Package", "name version slot subslot trees fits binds")
Group = namedtuple("Group", "after removals additions")
Life = namedtuple("Life", "package birth death")
BUILD = ["DEPEND", "BDEPEND", "IDEPEND"]


class Refused(Exception):
    """The first rule that is broken, in the words of ask_plans."""


def atom_text(atom):
    text = f"c/{atom.name}"
    if atom.version:
        text = f"={text}-{atom.version}"
    slot = (f":{atom.slot}" if atom.slot else "") + (f"/{atom.subslot}" if atom.subslot else "")
    return atom.block + text + ((slot or ":") + "=" if atom.asks else slot)


def id_of(package):
    return f"{package.name}-{package.version}"


def line_of(package):
    return f"c/{package.name}:{package.slot}".encode()


def wanted(atom, package):
    asked = [(atom.version, package.version), (atom.slot, package.slot)]
    asked.append((atom.subslot, package.subslot))
    return atom.name == package.name and all(want in (None, has) for want, has in asked)


def tree(package, which):
    return package.trees.get(which, [])


def leaves(package, which):
    for node in tree(package, which):
        yield from node.members if isinstance(node, AnyOf) else [node]


def blocks(package, classes, kinds=("!", "!!")):
    return [leaf for which in classes for leaf in leaves(package, which) if leaf.block in kinds]


def blocked(atoms, other):
    return any(wanted(atom, other) for atom in atoms)


def failing(nodes, holds):
    """The leaf to name of the first of these that fails, as a list; an empty one where all hold."""
    for node in nodes:
        if isinstance(node, AnyOf):
            if not holds(node.members) and not any(holds([it]) for it in node.members):
                return [atom_text(node.members[0])]
        elif not node.block and not holds([node]):
            return [atom_text(node)]
    return []


def lacking(package, which, state):
    there = lambda atoms: any(wanted(atom, it) for atom in atoms for it in state)
    return failing(tree(package, which), there)


def first_broken(state):
    """What is first wrong with packages side by side."""
    state = sorted(state, key=line_of)
    for one in state:
        by = [it for it in state if it is not one and blocked(blocks(it, RUN), one)]
        missing = lacking(one, "RDEPEND", state)
        if not one.fits:
            return "flags", one, None
        if by:
            return "blocks", one, by[0]
        if missing:
            return "lacks", one, missing[0]
    return None


RUN = ["RDEPEND", "PDEPEND"]


class Plan:
    """A plan over packages. Groups are counted from 1."""

    def __init__(self, start, groups):
        self.start, self.groups = start, groups
        self.waits = {}
        for number, group in self.numbered():
            self.waits[number] = {number}.union(*(self.waits[it] for it in group.after))
        born = [(it, 0) for it in start]
        born += [(it, number) for number, group in self.numbered() for it in group.additions]
        self.plain = [Life(it, birth, self.death(it, birth)) for it, birth in born]
        self.lives = sorted(self.plain, key=lambda x: (x.birth, line_of(x.package)))

    def numbered(self):
        return enumerate(self.groups, 1)

    def death(self, package, birth):
        line = line_of(package)
        gone = [number for number, group in self.numbered() if line in map(line_of, group.removals)]
        return next((number for number in gone if number > birth), None)

    def reaches(self, one, other):
        """Whether what happens at one moment has happened at the other one, in each run."""
        if one == 0 or other is None:
            return True
        return one is not None and other != 0 and one in self.waits[other]

    def meets(self, x, y):
        return not self.reaches(y.death, x.birth) and not self.reaches(x.death, y.birth)

    def meets_build(self, group, y):
        gone = y.death != group and self.reaches(y.death, group)
        return not gone and not self.reaches(group, y.birth)

    def firm(self, begins, ends):
        """Whether lives that atoms match lead all through a stretch."""

        def chained(atoms):
            fits = [x for x in self.lives if blocked(atoms, x.package)]
            chain = [x for x in fits if begins(x.birth)]
            for x in chain:
                chain += [y for y in fits if self.reaches(y.birth, x.death) and y not in chain]
            return any(ends(x.death) for x in chain)

        return chained

    def through(self, x):
        begins = lambda moment: self.reaches(moment, x.birth)
        return self.firm(begins, lambda moment: self.reaches(x.death, moment))

    def until(self, group):
        begins = lambda moment: moment != group and self.reaches(moment, group)
        return self.firm(begins, lambda moment: self.reaches(group, moment))

    def at(self, moment):
        """The packages that are there then, if just what comes before has happened."""
        there = lambda x: self.reaches(x.birth, moment) and not self.reaches(x.death, moment)
        return [x.package for x in self.lives if there(x)]

    def left(self):
        return [x.package for x in self.lives if x.death is None]

    def check_lines(self):
        changed = {}
        for number, group in self.numbered():
            for line in map(line_of, [*group.removals, *group.additions]):
                changed.setdefault(line, set()).add(number)
        for line, numbers in sorted(changed.items()):
            for one in sorted(numbers):
                for other in sorted(it for it in numbers if it > one):
                    if not self.reaches(one, other):
                        raise Refused(f"line {line.decode()} {one} {other}")

    def stands_before(self, number, x):
        return x.birth < number and (x.death is None or x.death >= number)

    def check_present(self):
        for number, group in self.numbered():
            for gone in sorted(group.removals, key=line_of):
                there = [x.package for x in self.lives if self.stands_before(number, x)]
                if (line_of(gone), id_of(gone)) not in [(line_of(it), id_of(it)) for it in there]:
                    raise Refused(f"absent {number} {id_of(gone)}")

    def in_the_way(self, x, y):
        if x is y or x.birth == 0:
            return False
        if line_of(x.package) == line_of(y.package):
            stays = self.stands_before(x.birth, y) and y.death != x.birth
            return stays or y.birth == x.birth
        return id_of(x.package) == id_of(y.package) and self.meets(x, y)

    def check_occupied(self):
        for x in self.lives:
            for y in self.lives:
                if self.in_the_way(x, y):
                    ids = f"{id_of(x.package)} {id_of(y.package)}"
                    raise Refused(f"occupied {x.birth} {ids}")

    def check_opening(self):
        broken = first_broken(self.start)
        if broken:
            how, one, other = broken
            more = "" if how == "flags" else f" {other if how == 'lacks' else id_of(other)}"
            raise Refused(f"opening {how} {id_of(one)}{more}")

    def check_required(self, x):
        if x.birth and not x.package.fits:
            raise Refused(f"flags {id_of(x.package)}")

    def beside(self, x, y):
        gone = self.reaches(y.death, x.birth)
        return not gone and not (y.birth != x.birth and self.reaches(x.birth, y.birth))

    def check_binds(self, x):
        if not x.birth:
            return
        asking = [it for it in tree(x.package, "RDEPEND") if isinstance(it, Atom) and it.asks]
        for place in range(max(len(asking), len(x.package.binds))):
            leaf = asking[place] if place < len(asking) else None
            bind = x.package.binds[place] if place < len(x.package.binds) else None
            beside = [y.package for y in self.lives if self.beside(x, y)]
            fits = [it for it in beside if leaf and wanted(leaf, it)]
            # versions are single digits; the first of the greatest, by the line
            best = sorted(fits, key=lambda it: (-int(it.version), line_of(it)))[:1]
            if leaf and bind and all(bind == (it.slot, it.subslot) for it in best):
                continue
            found = "/".join(bind) if bind else "-"
            raise Refused(f"binding {id_of(x.package)} {atom_text(leaf) if leaf else '-'} {found}")

    def check_lasting(self, x):
        through = self.through(x)
        unsafe = failing(tree(x.package, "RDEPEND"), through)
        if not unsafe:
            return
        home = lacking(x.package, "RDEPEND", self.at(x.birth))
        end = lacking(x.package, "RDEPEND", self.left()) if x.death is None else []
        for leaf in [*home, *end]:
            raise Refused(f"unsatisfied {x.birth} {id_of(x.package)} RDEPEND {leaf}")
        matched = [y for y in self.lives if blocked(leaves(x.package, "RDEPEND"), y.package)]
        changed = {number for y in matched for number in (y.birth, y.death) if number}
        inside = lambda n: not self.reaches(n, x.birth) and not self.reaches(x.death, n)
        numbers = "".join(f" {n}" for n in sorted(changed) if inside(n))
        raise Refused(f"unsafe {id_of(x.package)} RDEPEND {unsafe[0]} groups{numbers}")

    def check_weak(self, x):
        weak = blocks(x.package, RUN, ["!"])
        for y in self.lives:
            if y is not x and self.meets(x, y) and blocked(weak, y.package):
                raise Refused(f"blocked {id_of(x.package)} {id_of(y.package)}")

    def check_strong(self, x):
        strong = blocks(x.package, RUN, ["!!"])
        for y in self.lives:
            if y is x:
                continue
            with_it = self.meets(x, y) and blocked(strong, y.package)
            bars = blocked(strong + blocks(x.package, BUILD), y.package)
            if with_it or x.birth and self.meets_build(x.birth, y) and bars:
                raise Refused(f"barred {x.birth} {id_of(x.package)} {id_of(y.package)}")

    def check_build(self, x):
        for which in BUILD if x.birth else []:
            for leaf in failing(tree(x.package, which), self.until(x.birth)):
                raise Refused(f"build {x.birth} {id_of(x.package)} {which} {leaf}")

    def check_final(self, x):
        if x.birth and x.death is None:
            for leaf in lacking(x.package, "PDEPEND", self.left()):
                raise Refused(f"final {id_of(x.package)} {leaf}")

    def check_package(self, x):
        self.check_required(x)
        self.check_binds(x)
        self.check_lasting(x)
        self.check_weak(x)
        self.check_strong(x)
        self.check_build(x)
        self.check_final(x)

    def check(self):
        self.check_lines()
        self.check_present()
        self.check_occupied()
        self.check_opening()
        for x in self.lives:
            self.check_package(x)


def first_refusal(check):
    """What the check tells: the first rule that is broken, or ok."""
    try:
        check()
    except Refused as refused:
        return str(refused)
    return "ok"
