"""The order of versions, computed plainly: the algorithms of PMS 3.3 one by one (EAPI 8)."""
import re
from collections import namedtuple

Version = namedtuple("Version", "numbers letter suffixes revision")
FORM = re.compile(r"(\d+(?:\.\d+)*)([a-z]?)((?:_(?:alpha|beta|pre|rc|p)\d*)*)(?:-r(\d+))?")
SUFFIX = re.compile(r"_(alpha|beta|pre|rc|p)(\d*)")
KINDS = ["alpha", "beta", "pre", "rc", "p"]


def read(text):
    numbers, letter, suffixes, revision = FORM.fullmatch(text).groups()
    return Version(numbers.split("."), letter, SUFFIX.findall(suffixes), revision)


def sign(one, other):
    """-1, 0 or 1, as the first is less than the other, equal to it, or greater."""
    return (one > other) - (one < other)


def by_numbers(one, other):
    """Algorithms 3.2 and 3.3."""
    order = sign(int(one[0]), int(other[0]))
    for a, b in zip(one[1:], other[1:]):
        order = order or by_later_number(a, b)
    return order or sign(len(one), len(other))


def by_later_number(one, other):
    """Algorithm 3.3: with a zero in front of either, as texts without the zeros at their ends."""
    if one.startswith("0") or other.startswith("0"):
        return sign(one.rstrip("0"), other.rstrip("0"))
    return sign(int(one), int(other))


def by_suffixes(one, other):
    """Algorithms 3.5 and 3.6: a suffix more is greater where it is `_p`, and else less."""
    for (a, m), (b, n) in zip(one, other):
        order = sign(KINDS.index(a), KINDS.index(b)) or sign(int(m or 0), int(n or 0))
        if order:
            return order
    if len(one) > len(other):
        return 1 if one[len(other)][0] == "p" else -1
    if len(other) > len(one):
        return -1 if other[len(one)][0] == "p" else 1
    return 0


def order_of(a, b):
    """Algorithm 3.1."""
    base = by_numbers(a.numbers, b.numbers) or sign(a.letter, b.letter)
    last = sign(int(a.revision or 0), int(b.revision or 0))
    return base or by_suffixes(a.suffixes, b.suffixes) or last


def compare(one, other):
    return "<=>"[order_of(read(one), read(other)) + 1]


def begins(written, candidate):
    """Whether `=written*` accepts the candidate, by the rule of docs/rules.md."""
    return "yes" if is_begun(read(written), read(candidate)) else "no"


def is_begun(a, b):
    if a.revision is not None:
        return order_of(a, b) == 0
    if len(a.numbers) > len(b.numbers) or by_numbers(a.numbers, b.numbers[: len(a.numbers)]):
        return False
    if not a.letter and not a.suffixes:
        return True
    same = len(a.numbers) == len(b.numbers) and a.letter == b.letter
    return same and suffixes_are_begun(a.suffixes, b.suffixes)


def suffixes_are_begun(written, suffixes):
    """A last one without a number asks for its kind alone."""
    if len(written) > len(suffixes):
        return False
    for at, ((a, m), (b, n)) in enumerate(zip(written, suffixes)):
        is_free = at + 1 == len(written) and not m
        if a != b or not (is_free or int(m or 0) == int(n or 0)):
            return False
    return True
