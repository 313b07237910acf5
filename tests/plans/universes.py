"""Universes that are made of what is installed and of candidates, and a choice in one."""
import random

from cases import PROGRAM, case, check, expect

# what is installed, the candidates, and the lines of the universe
TWO_SLOTS = ("a-1,a-5:2", ["a-6:2", "a-2"], "[+a-1:0/0,a-2:0/0][+a-5:2/0,a-6:2/0]")
MIXED = ("", ["a-3:1,a-3:0,a-2:1"], "[,a-3:0/0][,a-3:1/0,a-2:1/0]")
ONE_SIDED = [
    ("", ["a-2", "a-1"], "[,a-2:0/0,a-1:0/0]"),
    ("a-1", [], "[+a-1:0/0]"),
    ("b-1", ["", "c-2", ""], "[+b-1:0/0][,c-2:0/0]"),
    ("", [], ""),
]

# lines stand in the byte order of category/package:slot, in which a colon comes behind a plus, a
# hyphen and the digits, and before the letters
BYTES = [
    ("gtk-2.24:2,gtk+-2.24:2", [], "[+gtk+-2.24:2/0][+gtk-2.24:2/0]"),
    ("gtk-2:2", ["gtk+-2:2"], "[,gtk+-2:2/0][+gtk-2:2/0]"),
    ("ab-1,a-1,a-b-1,a2-1", [], "[+a-b-1:0/0][+a2-1:0/0][+a-1:0/0][+ab-1:0/0]"),
    ("a-9:9,a-10:10", [], "[+a-10:10/0][+a-9:9/0]"),
]

# variants stay in the order in which they came, and each is kept, even if there is an equal one
ORDERED = [
    ("", ["a-1", "a-3", "a-2"], "[,a-1:0/0,a-3:0/0,a-2:0/0]"),
    ("a-2", ["a-2,a-2"], "[+a-2:0/0,a-2:0/0,a-2:0/0]"),
    (
        "",
        ["a-1;IUSE x y;USE y,a-1;IUSE x y,a-1;IUSE x y;USE x y", "a-1:0/7;RDEPEND c/b"],
        "[,a-1:0/0 y,a-1:0/0,a-1:0/0 x y,a-1:0/7;RDEPEND c/b]",
    ),
]
TWICE = [("a-1,a-2", ["a-3"], "not in form"), ("a-1:0/1,b-1,a-1:0/2", [], "not in form")]


def check_made(rows):
    rows = [(case("universe", held, *candidates), told) for held, candidates, told in rows]
    return check(rows)


def a_line_for_each_slot():
    return check_made([TWO_SLOTS, MIXED])


def lines_without_a_variant_or_an_installed_package():
    return check_made(ONE_SIDED)


def lines_in_byte_order():
    return check_made(BYTES)


def variants_in_the_order_in_which_they_came():
    return check_made(ORDERED)


def one_package_is_installed_on_a_line():
    return check_made(TWICE)


def a_choice_in_a_universe_that_is_made():
    """`app` comes with the one variant of `lib` that has its flag on, on the second line."""
    held, lib = "lib-1", "lib-2;IUSE x,lib-2;IUSE x;USE x"
    lib_line = "[+lib-1:0/0,lib-2:0/0,lib-2:0/0 x]"
    parts = ["c/app", held, lib, "app-1;RDEPEND c/lib[x]"]
    rows = [
        (case("universe", *parts[1:]), f"[,app-1:0/0;RDEPEND c/lib[x]]{lib_line}"),
        (case("choose", "keep", "10", *parts), " 0=v0 1=v1"),
        (case("choose", "keep", "10", *parts[:2], *parts[3:]), "none"),
        (case("choose", "keep", "10", "c/lib", *parts[1:]), " 1=+"),
        (case("choose", "update", "10", "c/lib", *parts[1:]), " 1=v0"),
    ]
    return check(rows)


# Random cases: a package is its name, version, slot and subslot.
NAMES = ["gtk", "gtk+", "gtk2", "gtk-x", "gtkx"]
SLOTS = ["0", "2", "10", "2.1"]
TRIED = 100


def random_package(rng):
    return rng.choice(NAMES), rng.randint(1, 4), rng.choice(SLOTS), rng.randint(0, 2)


def line(package):
    name, _, slot, _ = package
    return f"c/{name}:{slot}".encode()


def random_case(rng):
    """Packages of which no two are on one line, and candidates."""
    packages = [random_package(rng) for _ in range(rng.randint(0, 8))]
    held = list({line(it): it for it in packages}.values())
    candidates = [
        [random_package(rng) for _ in range(rng.randint(0, 4))] for _ in range(rng.randint(0, 8))
    ]
    return held, candidates


def package_text(package):
    name, version, slot, subslot = package
    return f"{name}-{version}:{slot}/{subslot}"


def texts(packages):
    return ",".join(map(package_text, packages))


def lines_of(held, candidates):
    """The lines of the universe, looked for one by one."""
    variants = [it for candidate in candidates for it in candidate]
    told = []
    for name in sorted({line(it) for it in held + variants}):
        there = [f"+{package_text(it)}" for it in held if line(it) == name]
        there += [f",{package_text(it)}" for it in variants if line(it) == name]
        told.append("".join(there))
    return "".join(f"[{it}]" for it in told)


def random_universes():
    rng = random.Random(21)
    tried = [random_case(rng) for _ in range(TRIED)]
    rows = [case("universe", texts(held), *map(texts, all_of)) for held, all_of in tried]
    answers = yield PROGRAM, rows
    for row, it, answer in zip(rows, tried, answers):
        wanted = lines_of(*it)
        expect(answer == wanted, f"{row!r}: wanted {wanted!r}, came {answer!r}")


TESTS = [
    a_line_for_each_slot,
    lines_without_a_variant_or_an_installed_package,
    lines_in_byte_order,
    variants_in_the_order_in_which_they_came,
    one_package_is_installed_on_a_line,
    a_choice_in_a_universe_that_is_made,
    random_universes,
]
