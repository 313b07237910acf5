"""Bytes, texts and paths."""
import itertools

from asked import rows_at_once
from told import hexed, line


def kind_of(byte):
    if ord("0") <= byte <= ord("9"):
        return "d"
    return "l" if ord("a") <= byte <= ord("z") else "."


def a_text_is_its_bytes():
    table = [
        ("ab", "ab", "equal"),
        ("ab", "abc", "less"),
        ("abc", "ab", "greater"),
        ("b", "abc", "greater"),
        ("Z", "a", "less"),
        ("z", "\u00e4", "less"),
        ("", "", "equal"),
    ]
    return rows_at_once("ask_disk", [(line("text", one, other), want) for one, other, want in table])


def digits_and_letters_of_ascii():
    table = [("/09:`az{A", ".dd..ll..")]
    every = (bytes(range(256)), "".join(kind_of(byte) for byte in range(256)))
    rows = [(line("bytes", hexed(given)), want) for given, want in [*table, every]]
    return rows_at_once("ask_disk", rows)


def path_rows(table):
    return [(line("path", hexed(text)), want) for text, want in table]


def fault_at(text, at):
    """The fault of this place of a text, if it has one."""
    rest = text[at:]
    begins = at == 0 or text[at - 1 : at] == b"/"
    if begins and rest.split(b"/")[0] in (b"", b".", b".."):
        return f"part {at}"
    if rest.startswith((b"\n", b"\0", b" ->")):
        return f"char {at}"
    return None


def verdict(text):
    """What is answered of a text, found place by place."""
    if not text:
        return "empty"
    if len(text) > 4095:
        return "too long"
    for at in range(len(text) + 1):
        if found := fault_at(text, at):
            return found
    return f"path {text.decode()}"


def paths_and_their_first_faults():
    table = [
        ("usr/bin/p", "path usr/bin/p"),
        ("a", "path a"),
        ("...", "path ..."),
        ("a b/c-d>e", "path a b/c-d>e"),
        ("", "empty"),
        ("a//b", "part 2"),
        ("/a", "part 0"),
        ("a/", "part 2"),
        ("a/../b", "part 2"),
        (".", "part 0"),
        ("a\nb", "char 1"),
        ("a\0", "char 1"),
        ("a -> b", "char 1"),
        ("a -/->", "path a -/->"),
        ("a\n/..", "char 1"),
        ("../a\n", "part 0"),
        (b"a\xff", "no text"),
        ("\u00e4/\u00f6", "path \u00e4/\u00f6"),
    ]
    alphabet = [b"a", b"/", b".", b" ->", b" ", b"\n", b"\0"]
    parts = [it for size in range(5) for it in itertools.product(alphabet, repeat=size)]
    texts = [b"".join(it) for it in parts]
    table += [(text, verdict(text)) for text in texts]
    return rows_at_once("ask_disk", path_rows(table))


def a_path_has_at_most_4095_bytes():
    most = "a" * 4095
    deep = "a/" * 2047 + "a"
    table = [
        (most, f"path {most}"),
        (most + "a", "too long"),
        (deep, f"path {deep}"),
        (deep + "/", "too long"),
        (deep[:-1] + "\n", "char 4094"),
        ("/" * 4096, "too long"),
    ]
    return rows_at_once("ask_disk", path_rows(table))


def copies_and_nesting():
    """A path is told by its copy."""
    table = [
        ("usr/bin", "usr/bin/p", "yes"),
        ("usr/bin", "usr/bin2", "no"),
        ("usr/bin", "usr/bin", "no"),
        ("usr/bin/p", "usr/bin", "no"),
        ("a", "a/b/c", "yes"),
        ("a/b", "a", "no"),
        ("a", "b/a", "no"),
    ]
    rows = [(line("above", one, other), want) for one, other, want in table]
    rows.append(("path\t" + hexed("usr/bin/p"), "path usr/bin/p"))
    rows.append((line("tree", "hold x 78 usr/bin/p", "read usr/bin/p"), "x 78 usr/bin/p"))
    return rows_at_once("ask_disk", rows)


TESTS = [
    a_text_is_its_bytes,
    digits_and_letters_of_ascii,
    paths_and_their_first_faults,
    a_path_has_at_most_4095_bytes,
    copies_and_nesting,
]
