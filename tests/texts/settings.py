"""The flags of a candidate that are on, and the settings that may be chosen instead."""
import random
from itertools import combinations

from lines import rows

NAMES = "abcde"
TRIED = 400
# texts of REQUIRED_USE, and whether they hold with a set of flags
REQUIRED = [
    ("", lambda on: True),
    ("a", lambda on: "a" in on),
    ("!b", lambda on: "b" not in on),
    ("|| ( a b )", lambda on: bool(on & {"a", "b"})),
    ("^^ ( a b c )", lambda on: len(on & {"a", "b", "c"}) == 1),
    ("?? ( c d )", lambda on: len(on & {"c", "d"}) <= 1),
    ("a? ( b !c )", lambda on: "a" not in on or ("b" in on and "c" not in on)),
]


def flags_of_a_candidate():
    table = [
        ("+a b -c d", 1, "", "b", "-a", "c", "d", "x", "b c x; b c x; a b c x; c x"),
        ("a", 1, "", "a", "", "a", "a", "", ";"),
        ("+a +b", 0, "", "-* b", "", "", "", "", "b; b"),
        ("+a +b", 0, "", "-*", "a", "", "", "", "a; a"),
        ("a", 1, "", "x", "", "y", "", "", ";; a"),
        ("a b", 2, "^^ ( a b )", "", "", "", "", "", "; a; b"),
        ("a", 1, "", "", "", "", "", "a", "a; a"),
        ("+a b", 1, "a? ( b )", "", "", "", "", "", "a;; a b"),
    ]
    return rows("settings", [(iuse, str(flips), *rest) for iuse, flips, *rest in table])


def changed(on, layer):
    for word in layer:
        if word == "-*":
            on = set()
        elif word.startswith("-"):
            on = on - {word[1:]}
        else:
            on = on | {word}
    return on


def settings(known, flips, holds, layers, forced, masked, implicit):
    """The flags that are on, and the settings with so many flips at most: fewer first, and those of
    as many flips in the order of the lists of their flags."""
    on = {name for name, is_on in known if is_on}
    for layer in layers:
        on = changed(on, layer)
    names = {name for name, _ in known}
    base = (((on | forced) & names) - masked) | implicit
    free = sorted(names - forced - masked - implicit)
    lists = [it for count in range(flips + 1) for it in combinations(free, count)]
    found = [base ^ set(flipped) for flipped in lists]
    return base, [setting for setting in found if holds(setting)]


def shown(base, found):
    text = " ".join(sorted(base))
    for setting in found:
        text += ";" + "".join(f" {name}" for name in sorted(setting))
    return text


def some_of(rng, chance):
    return {name for name in NAMES if rng.random() < chance}


def random_row(rng):
    known = [(name, rng.random() < 0.5) for name in NAMES if rng.random() < 0.8]
    flips, (required, holds) = rng.randrange(4), rng.choice(REQUIRED)
    words = [*NAMES, *(f"-{name}" for name in NAMES), "-*"]
    layers = [rng.sample(words, rng.randrange(4)) for _ in range(2)]
    sets = [some_of(rng, chance) for chance in (0.15, 0.15, 0.1)]
    iuse = " ".join(f"+{name}" if is_on else name for name, is_on in known)
    fields = [iuse, str(flips), required, *map(" ".join, layers), *(" ".join(it) for it in sets)]
    return (*fields, shown(*settings(known, flips, holds, layers, *sets)))


def random_settings():
    rng = random.Random(15)
    return rows("settings", [random_row(rng) for _ in range(TRIED)])


TESTS = [flags_of_a_candidate, random_settings]
