"""Random repositories of a few packages, by a second computation of what is visible."""
import random

from repositories import TOP, package, row
from trees import check, user

TRIED = 400
NAMES = ["c/p", "c/q", "d/p"]
# the smallest first
VERSIONS = ["1", "1-r1", "2"]
KEYWORDS = ["amd64", "~amd64", "x86", "~x86", "-*", "-amd64"]
WORDS = ["amd64", "~amd64", "x86", "~x86", "**", "-*", "-amd64", "-~amd64", "-**"]


def is_matched(atom, package):
    """Whether an atom, told by its parts, matches a package."""
    name, operator, version, slot = atom
    if name != package["name"] or slot not in ("", package["slot"]):
        return False
    here, there = VERSIONS.index(package["version"]), VERSIONS.index(version)
    if operator == "~":
        return package["version"].split("-")[0] == version.split("-")[0]
    signs = {"": True, "=": here == there, ">=": here >= there, "<": here < there}
    return signs[operator]


def text_of(atom):
    name, operator, version, slot = atom
    behind = f"-{version}" if operator else ""
    return f"{operator}{name}{behind}{':' if slot else ''}{slot}"


def is_accepted(keyword, standing, words):
    """Whether the words, one after the other, accept the keyword in the end."""
    accepted = keyword in standing
    for word in words:
        if word == keyword:
            accepted = True
        if word in ("-*", f"-{keyword}"):
            accepted = False
    return accepted


def judged(package, rules):
    """What is told of the package."""
    words = []
    for atom, said in rules["lines"]:
        if is_matched(atom, package):
            words += said or ["~amd64"]
    keywords = [word for word in package["keywords"] if not word.startswith("-")]
    if not any(is_accepted(it, rules["standing"], words) for it in ["**", *keywords]):
        return "keyword"
    masked = any(is_matched(atom, package) for atom in rules["masks"])
    unmasked = any(is_matched(atom, package) for atom in rules["unmasks"])
    return "masked" if masked and not unmasked else "visible"


def random_atom(rng):
    operator = rng.choice(["", "", "=", ">=", "<", "~"])
    version = rng.choice(["1", "2"]) if operator == "~" else rng.choice(VERSIONS)
    return rng.choice(NAMES), operator, version, rng.choice(["", "", "0", "1"])


def random_packages(rng):
    """Some packages, in the order in which they are told."""
    all_ids = [(name, version) for name in NAMES for version in VERSIONS[::-1]]
    ids = [it for it in all_ids if rng.random() < 0.4]
    keywords = [rng.sample(KEYWORDS, rng.randrange(4)) for _ in ids]
    return [
        {"name": name, "version": version, "slot": rng.choice("01"), "keywords": words}
        for (name, version), words in zip(ids, keywords)
    ]


def random_rules(rng):
    lines = [
        (random_atom(rng), rng.sample(WORDS, rng.choice([0, 1, 1, 2, 3])))
        for _ in range(rng.randrange(5))
    ]
    return {
        "standing": rng.choice([["amd64"], ["amd64", "~amd64"], ["x86"], ["**"], []]),
        "lines": lines,
        "masks": [random_atom(rng) for _ in range(rng.randrange(4))],
        "unmasks": [random_atom(rng) for _ in range(rng.randrange(2))],
    }


def files_of(rng, rules):
    """The rules as files: the masks in three places, of which the user takes back one or more."""
    places = {f"{TOP}/profiles/package.mask": [], "p/top/package.mask": []}
    own = []
    for mask in rules["masks"]:
        rng.choice([*places.values(), own]).append(text_of(mask))
    taken = random_atom(rng)
    rules["masks"] = [mask for mask in rules["masks"] if text_of(mask) != text_of(taken)]
    own.append(f"-{text_of(taken)}")
    files = {
        "make.conf": f"ACCEPT_KEYWORDS='{' '.join(rules['standing'])}'\n",
        "package.mask": "\n".join(own),
        "package.unmask": "\n".join(text_of(atom) for atom in rules["unmasks"]),
        "package.accept_keywords": "\n".join(
            " ".join([text_of(atom), *words]) for atom, words in rules["lines"]
        ),
    }
    return {**{path: "\n".join(texts) for path, texts in places.items()}, **user(files)}


def random_row(rng):
    found, rules = random_packages(rng), random_rules(rng)
    tree = files_of(rng, rules)
    for it in found:
        name = f"{it['name']}-{it['version']}"
        tree.update(package(name, SLOT=it["slot"], KEYWORDS=" ".join(it["keywords"])))
    told = [f"{judged(it, rules)} {it['name']}-{it['version']}" for it in found]
    visible = [text for text in told if text.startswith("visible ")]
    return row(tree, *visible, *[text for text in told if text not in visible])


def random_repositories():
    rng = random.Random(733)
    return check([random_row(rng) for _ in range(TRIED)])


TESTS = [random_repositories]
