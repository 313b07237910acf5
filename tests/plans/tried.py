"""Which choices a search tries in vain: a second count, by hopeless choices and dead leaves.

A universe is a dict of lines. A line is what is installed there, or None, and its variants. A
package is its name, its version and what it needs: groups of atoms, of each of which one is to be
there. An atom is a name, with a version or with None for any.
"""
import random

from cases import PROGRAM, case, check, expect

TRIED = 300
LEAST = 30
MANY = 1000


def atom_text(atom):
    name, version = atom
    return f"c/{name}" if version is None else f"=c/{name}-{version}"


def group_text(atoms):
    words = " ".join(map(atom_text, atoms))
    return words if len(atoms) == 1 else f"|| ( {words} )"


def package_text(package):
    name, version, needs = package
    words = f";RDEPEND {' '.join(map(group_text, needs))}" if needs else ""
    return f"{name}-{version}{words}"


def line_text(line):
    installed, variants = line
    held = [f"+{package_text(installed)}"] if installed else []
    return ",".join(held + [package_text(it) for it in variants])


def matches(atom, package):
    return package and package[0] == atom[0] and atom[1] in (None, package[1])


class Search:
    """The search that jumps back, by its definition. A choice is a tuple of decisions, the oldest
    first, each a line and the text of its value."""

    def __init__(self, update, wanted, lines):
        self.update = update
        self.wanted = wanted
        self.lines = [lines[name] for name in sorted(lines)]

    def package(self, line, value):
        installed, variants = self.lines[line]
        return {"+": installed, "-": None}.get(value) if value in "+-" else variants[int(value[1:])]

    def values(self, line):
        installed, variants = self.lines[line]
        return (["+"] if installed else []) + [f"v{at}" for at in range(len(variants))]

    def offered(self, line):
        return [self.package(line, value) for value in self.values(line)]

    def now(self, choice):
        """What stands on each line."""
        decided = dict(choice)
        held = ["+" if installed else "-" for installed, _ in self.lines]
        return [self.package(at, decided.get(at, held[at])) for at in range(len(self.lines))]

    def possible(self, choice):
        """What may yet stand on some line."""
        decided = dict(choice)
        found = []
        for at in range(len(self.lines)):
            known = at in decided
            found += [self.package(at, decided[at])] if known else self.offered(at)
        return found

    def first_open(self, choice):
        decided, now = dict(choice), self.now(choice)
        for atom in self.wanted:
            if not any(matches(atom, self.package(*it)) for it in decided.items()):
                return "wanted", atom
        for at, package in enumerate(now):
            if package and self.failing(package, now):
                return "tree", at
        for at, (installed, _) in enumerate(self.lines):
            if installed and decided.get(at) == "-":
                return "absence", at
        return None

    @staticmethod
    def failing(package, there):
        """The groups that don't hold among these."""
        fails = [g for g in package[2] if not any(matches(a, p) for a in g for p in there)]
        return fails

    def ranked(self, line, values):
        kept = (lambda it: it != "+") if not self.update else (lambda it: False)
        key = lambda it: (kept(it), -self.package(line, it)[1], it != "+")
        return [(line, value) for value in sorted(values, key=key)]

    def served(self, atom, decided):
        found = []
        for at in range(len(self.lines)):
            if at not in decided:
                found += [(at, it) for it in self.values(at) if matches(atom, self.package(at, it))]
        return self.ranked(found[0][0], [value for _, value in found]) if found else []

    def options(self, choice, what):
        decided, (kind, of) = dict(choice), what
        if kind == "wanted":
            found = self.served(of, decided)
        elif kind == "absence":
            found = []
        else:
            leaves = [atom for group in self.now(choice)[of][2] for atom in group]
            found = [it for atom in leaves for it in self.served(atom, decided)]
            if of not in decided:
                installed = self.lines[of][0]
                found += self.ranked(of, [it for it in self.values(of) if it != "+"])
                found += [(of, "-")] if installed else []
        return [choice + (it,) for it in dict.fromkeys(found)]

    def is_lost(self, choice, line):
        return bool(self.failing(self.now(choice)[line], self.possible(choice)))

    def reason(self, choice, what):
        kind, of = what
        if kind == "absence":
            return {of}
        if kind == "wanted":
            blamed, own = [of], set()
        else:
            package = self.now(choice)[of]
            judged = self.possible(choice) if self.is_lost(choice, of) else self.now(choice)
            blamed, own = self.failing(package, judged)[0], {of}
        can = {at for at in range(len(self.lines)) for a in blamed
               for p in self.offered(at) if matches(a, p)}
        return (own | can) & set(dict(choice))

    def visit(self, choice=()):
        """The choices that are tried in vain below the choice, in their order, and the good one, or
        the lines of the cause."""
        what = self.first_open(choice)
        if what is None:
            return [], choice
        known, cause, vain = set(dict(choice)), self.reason(choice, what), []
        lost = what[0] == "tree" and what[1] in known and self.is_lost(choice, what[1])
        options = [] if lost else self.options(choice, what)
        if not options:
            return [choice], cause
        for option in options:
            tried, end = self.visit(option)
            vain += tried
            if isinstance(end, tuple) or end <= known:
                return vain, end
            cause = cause | (end & known)
        return vain, cause

    def first_good(self, choice=()):
        """The first good leaf of the whole tree, or None."""
        what = self.first_open(choice)
        if what is None:
            return choice
        found = (self.first_good(option) for option in self.options(choice, what))
        return next((it for it in found if it is not None), None)

    def row(self, limit):
        how = "update" if self.update else "keep"
        wanted = " ".join(map(atom_text, self.wanted))
        return case("resolve", how, str(limit), wanted, *map(line_text, self.lines))


def choice_text(choice):
    return "".join(f" {line}={value}" for line, value in choice)


def rows_of(search):
    """At one try more than are made the search ends by itself, and at as many it tells them all."""
    vain, end = search.visit()
    told = choice_text(end) if isinstance(end, tuple) else "none"
    limit = "|".join(["limit", *map(choice_text, vain)])
    return [(search.row(len(vain) + 1), told), (search.row(len(vain)), limit)]


def needs_of_one_missing(names, versions, held):
    """`w-2` needs each of the names, of which each may be there in so many versions, and one that
    isn't there; `w-1` needs nothing."""
    offered = [(version, ()) for version in range(versions, 0, -1)]
    lines = {
        name: ((name, 1, ()) if held else None, [(name, *it) for it in offered if it[0] > held])
        for name in names
    }
    needs = tuple(((name, None),) for name in [*names, "zz"])
    return {**lines, "w": (None, [("w", 2, needs), ("w", 1, ())])}


def one_try_where_a_need_is_missing():
    """However many needs there are, and in whatever versions they come, one try is enough."""
    rows = []
    for count in (1, 2, 6, 12, 20):
        for versions, held in [(1, False), (2, False), (3, False), (3, True)]:
            names = [f"p{at:02}" for at in range(count)]
            lines = needs_of_one_missing(names, versions, held)
            search = Search(True, [("w", None)], lines)
            at = len(names)
            rows += [(search.row(2), f" {at}=v1"), (search.row(1), f"limit| {at}=v0")]
    return check(rows)


def a_broken_package_takes_one_try():
    """What is wanted breaks the installed package, whose update needs as many names, and one that
    isn't there. The version that was there serves anew, with no need."""
    rows = []
    for count in range(1, 7):
        names = [f"p{at}" for at in range(count)]
        lines = needs_of_one_missing(names, 2, False)
        needs = lines["w"][1][0][2]
        lines["w"] = (("w", 1, ((("b", 1),),)), [("w", 2, needs), ("w", 1, ())])
        lines["b"] = (("b", 1, ()), [("b", 2, ())])
        search = Search(True, [("b", 2)], lines)
        expect(len(search.visit()[0]) == 1, "more than one try is made")
        rows += rows_of(search)
    return check(rows)


def one_of_many_that_fail():
    """`w-2` needs one of the names, all of which fail, and one that isn't there: none of them is
    tried."""
    rows = []
    for count in range(1, 9):
        names = [f"p{at}" for at in range(count)]
        broken = [(2, ((("zz", None),),)), (1, ((("zz", None),),))]
        lines = {name: (None, [(name, *it) for it in broken]) for name in names}
        needs = (tuple((name, None) for name in names), (("yy", None),))
        lines["w"] = (None, [("w", 2, needs), ("w", 1, ())])
        search = Search(True, [("w", None)], lines)
        rows += [(search.row(2), f" {count}=v1"), (search.row(1), f"limit| {count}=v0")]
    return check(rows)


def what_may_yet_come_is_no_reason_to_give_up():
    """The one member of what `x` needs can't hold by `b` as it was chosen, but another member can,
    by `c`, of which nothing is decided."""
    lines = ["b-2,b-1", "c-1", "x-1;RDEPEND || ( ( =c/b-1 c/zz ) ( =c/b-2 c/c ) )"]
    row = case("resolve", "keep", "1", "c/b c/x", *lines)
    return check([(row, " 0=v0 2=v0 1=v0")])


def each_member_is_judged_by_itself():
    """Of each member of the choice one part can come, but no member can hold."""
    needs = "|| ( ( c/b c/zz ) ( c/yy c/c ) )"
    lines = ["b-1", "c-1", f"x-2;RDEPEND {needs},x-1"]
    rows = [
        (case("resolve", "keep", "2", "c/x", *lines), " 2=v1"),
        (case("resolve", "keep", "1", "c/x", *lines), "limit| 2=v0"),
    ]
    return check(rows)


def random_group(rng, names):
    def atom():
        name = rng.choice([*names, "zz"])
        return name, rng.choice([None, None, 1, 2, 3])

    return tuple(dict.fromkeys(atom() for _ in range(rng.choice([1, 1, 1, 2, 3]))))


def random_line(rng, name, names):
    others = [it for it in names if it != name]

    def package(version):
        needs = tuple(random_group(rng, others) for _ in range(rng.choice([0, 0, 1, 1, 2])))
        return name, version, needs

    installed = package(1) if rng.random() < 0.4 else None
    return installed, [package(version) for version in range(rng.randint(1, 3), 0, -1)]


def random_search(rng):
    names = "abcde"[: rng.randint(3, 5)]
    lines = {name: random_line(rng, name, names) for name in names}
    wanted = [(name, None) for name in rng.sample(names, rng.randint(1, 2))]
    return Search(rng.random() < 0.5, wanted, lines)


def the_tries_are_those_of_the_definition():
    """Over random universes, with the good leaf of the whole tree, through which nothing jumps."""
    rng = random.Random(21)
    searches = [random_search(rng) for _ in range(TRIED)]
    rows = []
    none = hard = 0
    for search in searches:
        vain, end = search.visit()
        expect(len(vain) < MANY, f"{len(vain)} tries are too many for a test")
        good = search.first_good()
        expect(good == (end if isinstance(end, tuple) else None), f"another end: {good}, {end}")
        none += good is None
        hard += bool(vain)
        rows += rows_of(search)
    expect(min(none, TRIED - none, hard) >= LEAST, f"{none} of no solution, {hard} with a try")
    answers = yield PROGRAM, [row for row, _ in rows]
    for (row, told), answer in zip(rows, answers):
        expect(answer == told, f"{row}: {answer} in place of {told}")


TESTS = [
    one_try_where_a_need_is_missing,
    a_broken_package_takes_one_try,
    one_of_many_that_fail,
    what_may_yet_come_is_no_reason_to_give_up,
    each_member_is_judged_by_itself,
    the_tries_are_those_of_the_definition,
]
