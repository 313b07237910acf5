"""The items of IUSE, and changes of a set of flags."""
from itertools import product
from string import ascii_lowercase

from lines import rows

# The flags of three letters, from the first in byte order to the last: 70,304 bytes.
RISING = ["".join(letters) for letters in product(ascii_lowercase, repeat=3)]


def items_of_iuse():
    table = [
        (" +a b\n-c +d -d\te +e", "+a b c d +e"),
        ("--a", bad_word(0)),
        ("a  +@", bad_word(3)),
    ]
    return rows("iuse", table)


def bad_word(at):
    return f"the word at {at} is none of a flag"


def changes_of_a_set():
    table = [
        ("--a", bad_word(0)),
        ("a +b", bad_word(2)),
        ("x -* a b -a", "x -* a b -a"),
        (" x\n-*\ta", "x -* a"),
    ]
    return rows("changes", table) + rows("applied", [("x -* a b -a", "b"), ("a -b", "a")])


def long_texts_in_falling_order():
    falling = " ".join(reversed(RISING))
    listed = " ".join(RISING)
    read = rows("iuse", [(falling, listed)]) + rows("applied", [(falling, listed)])
    return read + rows("changes", [(falling, falling)])


TESTS = [items_of_iuse, changes_of_a_set, long_texts_in_falling_order]
