"""The claims of an ownership book, and the steps of the machine of groups."""
import itertools

from asked import rows_at_once
from told import line

PROGRAM = "ask_disk"

# Package 2 goes with both groups. Group 9 claims two paths, and then group 10 what a row says.
OWNED = {path: 1 for path in ["a-b", "a/c", "a.d", "d/e/f", "x/a/z", "x/b", "q"]} | {"old": 2}
CLAIMED = ["g/one", "g/two"]
GOING = [2]
RESERVED = ["var/db/pkg", "var/lib/portage"]


def book(second, *later):
    fields = [f"own {package} {path}" for path, package in OWNED.items()]
    fields += [f"goes {package}" for package in GOING]
    fields += [f"claim {path}" for path in CLAIMED] + [f"again {path}" for path in second]
    return line("book", *fields, *later)


def is_near(one, other):
    """Whether one path is above or below the other."""
    return one.startswith(f"{other}/") or other.startswith(f"{one}/")


def verdict(second):
    """The first rule that refuses the first path of a claim, by docs/rules.md."""
    stays = {path for path, package in OWNED.items() if package not in GOING}
    for at, path in enumerate(second):
        if any(path == it or is_near(path, it) for it in RESERVED):
            return f"reserved {path}"
        if path in second[:at]:
            return f"twice {path}"
        if path in CLAIMED:
            return f"claimed {path} 9"
        if path in stays:
            return f"owned {path} {OWNED[path]}"
        near = [it for it in {*OWNED, *CLAIMED, *second[:at]} if is_near(path, it)]
        if near:
            return f"ancestor {path} {min(near)}"
    return "ok"


def rules():
    table = [
        (["n1", "a"], "ancestor a a/c"),
        (["a/c/d/e"], "ancestor a/c/d/e a/c"),
        (["d"], "ancestor d d/e/f"),
        (["x"], "ancestor x x/a/z"),
        (["a-b"], "owned a-b 1"),
        (["old", "old"], "twice old"),
        (["g/two"], "claimed g/two 9"),
        (["g"], "ancestor g g/one"),
        (["n/m/o", "n/m", "q"], "ancestor n/m n/m/o"),
        (["n/m", "n/m/o", "q"], "ancestor n/m/o n/m"),
        (["var/db"], "reserved var/db"),
        (["var/db/pkg-x", "q"], "owned q 1"),
        (["a-", "a0", "a/b", "a/d"], "ok"),
    ]
    some = ["a", "a-b", "a/c", "a/c/d", "g", "g/one", "old", "old/n", "n", "n/m", "var", "x/a"]
    claims = [[], *[[path] for path in some], *map(list, itertools.product(some, repeat=2))]
    table += [(claim, verdict(claim)) for claim in claims]
    return rows_at_once(PROGRAM, [(book(claim), f"ok\t{want}") for claim, want in table])


def settled_and_released():
    asked = [f"look {path}" for path in ("g/one", "g/two", "q", "old", "n")]
    rows = [
        (book([], "end settle", *asked), "ok\tok\t9\t9\t1\t2\tnobody"),
        (book([], "end release", *asked), "ok\tok\tnobody\tnobody\t1\t2\tnobody"),
        (book(["g"], "end release", *asked[:1]), "ok\tancestor g g/one\tnobody"),
    ]
    return rows_at_once(PROGRAM, rows)


def what_each_package_owns():
    """Package 9 is to own what group 9 claims, and `old`, which package 2 gives up."""
    asked = [f"list {package}" for package in (1, 2, 9, 7)]
    first = ";".join(sorted(path for path, package in OWNED.items() if package == 1)) + ";"
    over = book([], "claim old", "end settle", *asked)
    rows = [
        (book([], *asked), f"ok\tok\t{first}\told;\t\t"),
        (book([], "end release", *asked), f"ok\tok\t{first}\told;\t\t"),
        (book([], "end settle", *asked), f"ok\tok\t{first}\told;\tg/one;g/two;\t"),
        (over, f"ok\tok\t{first}\t\tg/one;g/two;old;\t"),
    ]
    return rows_at_once(PROGRAM, rows)


def gate_of_an_idle_group():
    return rows_at_once(PROGRAM, [(line("core", "OpenGate 0"), "Idle, not Claimed")])


def refusals_in_order():
    none = "there is no such group, or the machine is stopped"
    table = [
        ("Begin 2", none),
        ("Begin 0", "ok"),
        ("Begin 0", "Building, not Idle"),
        ("PlacePath 0", "Building, not Open"),
        ("-Begin 1", "ok"),
        ("Begin 1", none),
        ("Abandon 0", "ok"),
        ("Abandon 0", "Abandoned, not Building"),
    ]
    steps, answers = zip(*table)
    return rows_at_once(PROGRAM, [(line("core", *steps), line(*answers))])


def one_sync_seals_two_groups():
    """Two groups with one file each, of which the first is sealed; whether the other needs a sync
    before and after it."""
    marked = ["Begin", "Stage", "Record", "PutToken"]
    table = [(f"{step} {group}", "ok") for group in (0, 1) for step in marked]
    table += [("needs 1", "yes"), ("SyncSealed 0", "ok"), ("needs 1", "no")]
    table += [("SyncSealed 1", "ok"), ("phase 1", "Sealed")]
    steps, answers = zip(*table)
    return rows_at_once(PROGRAM, [(line("core", *steps), line(*answers))])


TESTS = [
    rules,
    settled_and_released,
    what_each_package_owns,
    gate_of_an_idle_group,
    refusals_in_order,
    one_sync_seals_two_groups,
]
