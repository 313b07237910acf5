"""Random profiles, configurations and packages, held to the second computation of their offers."""
import random

import offered
import offers
from repositories import package
from trees import PROFILE, link, under, user

TRIED = 240
# the lowest first; each names the one before it as its parent
FOLDERS = ["p/low", "p/mid", "p/top"]
# in the order in which they are told
NAMES = ["c/p-2", "c/p-1", "c/q-1", "d/p-1"]
ATOMS = ["c/p", "c/q", "d/p", *offered.MEANT]
FLAGS = ["a", "b", "c", "cards_x", "cards_y", "cpu_x"]
VARIABLES = {
    "USE": FLAGS,
    "USE_EXPAND": ["CARDS", "CPU"],
    "USE_EXPAND_IMPLICIT": ["CARDS", "CPU"],
    "CARDS": ["x", "y"],
    "CPU": ["x", "z"],
}
LINE_FILES = {
    "package.use": ATOMS,
    "use.force": [None],
    "use.mask": [None],
    "package.use.force": ATOMS,
    "package.use.mask": ATOMS,
}


def changes(rng, names):
    """Words that put some of the names in, or take them or all away."""
    words = rng.sample(names, rng.randrange(1, min(4, len(names) + 1)))
    return [rng.choice(["-*", f"-{it}", f"-{it}", it, it, it, it]) for it in words]


def assigned(rng):
    """What a file says of variables, of which one may stand twice."""
    keys = rng.choices(list(VARIABLES), k=rng.randrange(5))
    return [(key, changes(rng, VARIABLES[key])) for key in keys]


def lines(rng, atoms):
    return [(rng.choice(atoms), changes(rng, FLAGS)) for _ in range(rng.choice([0, 0, 1, 2]))]


def levels(rng):
    """What the folders of the profile say; the first begins with what each tree here has."""
    found = [
        {name: lines(rng, atoms) for name, atoms in LINE_FILES.items()}
        | {"make.defaults": assigned(rng)}
        for _ in FOLDERS
    ]
    begun = [("ARCH", ["x86"]), ("ACCEPT_KEYWORDS", ["amd64"]), ("USE_EXPAND", ["CARDS", "CPU"])]
    found[0]["make.defaults"][:0] = begun
    found[1]["make.defaults"].append(("ARCH", ["amd64"]))
    return found


def part(rng, depth):
    """A part of REQUIRED_USE, of at most so many groups within one another."""
    kind = rng.choice(["flag", "if", "||", "^^", "??"] if depth else ["flag"])
    flag = rng.choice(FLAGS), rng.random() < 0.6
    inner = depth - 1 if kind == "if" else 0
    members = [part(rng, inner) for _ in range(rng.randrange(1, 4))] if depth else []
    return {"flag": (kind, *flag), "if": (kind, *flag, members)}.get(kind, (kind, members))


def packages(rng):
    return [
        {"name": name, "iuse": iuse(rng), "required": required(rng)}
        for name in NAMES
        if rng.random() < 0.7
    ]


def iuse(rng):
    known = rng.sample([*FLAGS, "amd64"], rng.randrange(7))
    return {flag: rng.choice(["", "+", "-"]) for flag in known}


def required(rng):
    return [part(rng, 2) for _ in range(rng.choice([0, 1, 1, 2]))]


def spelled_part(one):
    """The text of a part of REQUIRED_USE."""
    kind, *rest = one
    if kind == "flag":
        return f"{'' if rest[1] else '!'}{rest[0]}"
    begin = f"{'' if rest[1] else '!'}{rest[0]}?" if kind == "if" else kind
    return f"{begin} ( {' '.join(map(spelled_part, rest[-1]))} )"


def spelled_assignment(rng, key, words):
    """An assignment of the words, in either kind of quotes, or with its last word in a variable."""
    text = " ".join(words)
    named = f"LAST='{words[-1]}'\n{key}=\"{' '.join([*words[:-1], '${LAST}'])}\"\n"
    broken = f'{key}="{text}\\\n"\n'
    return rng.choice([f"{key}='{text}'\n", f'{key}="{text}"\n', broken, named])


def spelled(rng, name, said):
    """The text of a file."""
    if name in ("make.defaults", "make.conf"):
        return "".join(spelled_assignment(rng, *it) for it in said)
    return "".join(" ".join([*([atom] if atom else []), *words]) + "\n" for atom, words in said)


def tree_of(rng, found, own, those):
    """The tree that says all this."""
    tree = {PROFILE: link(f"../../{FOLDERS[-1]}")}
    for below, folder in zip(FOLDERS, FOLDERS[1:]):
        tree[f"{folder}/parent"] = f"../{below.split('/')[1]}\n"
    for folder, level in zip(FOLDERS, found):
        tree |= under(folder, {name: spelled(rng, name, said) for name, said in level.items()})
    tree |= user({name: spelled(rng, name, said) for name, said in own.items()})
    for one in those:
        known = " ".join(sign + flag for flag, sign in one["iuse"].items())
        asked = " ".join(map(spelled_part, one["required"]))
        tree |= package(one["name"], IUSE=known, REQUIRED_USE=asked)
    return tree


def random_row(rng):
    found, those, flips = levels(rng), packages(rng), rng.choice([0, 1, 2, 7])
    own = {"make.conf": assigned(rng), "package.use": lines(rng, ATOMS)}
    wanted = offered.fields(offered.Rules(found, own), those, flips)
    return offers.row(tree_of(rng, found, own, those), *wanted, flips=flips)


def random_configurations():
    rng = random.Random(733)
    return offers.check([random_row(rng) for _ in range(TRIED)])


TESTS = [random_configurations]
