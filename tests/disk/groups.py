"""Whole runs of one group and of two, and the claims of two groups of a site."""
import asked
from crashes import Group, images, left_of, looks, recover_case
from told import held, line, same

PROGRAM = "ask_disk"
LINES = ["line 0 done 0 +c/o-1", "line 1 done 1 +c/p-1"]
RECORD = "var/db/pkg/c/p-1/SLOT"


def ask(lines):
    """What the program answers. What runs many tests may put another function here."""
    return asked.ask(PROGRAM, lines)


def told(answer):
    """How a run ended, what it left, what it wrote, its history and the acknowledged groups."""
    left = left_of(answer)
    written, history, acknowledged = left.rest
    objects = {path: (kind, text.decode()) for path, (kind, text) in left.objects.items()}
    return left.end, history, acknowledged, bytes.fromhex(written).decode(), objects


def plain(**texts):
    return {path: ("-", text) for path, text in texts.items()}


def check_run(what, fields, end, groups, written, objects):
    (answer,) = ask([line(what, *fields)])
    same(what, (end, groups, groups, written, objects), told(answer))


def check_one(holds, owned, goes, image, end, objects):
    """What becomes of a tree when package 10 with this image is merged, where package 7 owns these
    paths, and one goes."""
    fields = [f"hold {held(path, text)}" for path, text in holds.items()]
    fields += [f"own 7 {path}" for path in owned]
    fields += [f"bring 1 {held(path, text, kind)}" for path, kind, text in image]
    fields += [f"goes 1 {goes}", f"folder 1 {held(RECORD, '0')}", *LINES]
    done = end == "ok"
    written = "done 1 +c/p-1\n" if done else ""
    check_run("one", fields, end, "1" if done else "", written, objects)


def into_an_empty_tree():
    image = [("usr/bin/p", "x", "run"), ("usr/bin/q", "l", "p"), ("etc/p", "-", "")]
    objects = {path: (kind, text) for path, kind, text in image}
    check_one({}, [], 8, image, "ok", {**objects, RECORD: ("-", "0")})


def over_a_package_that_stays():
    image = [("a", "-", "new"), ("b", "-", "new")]
    check_one({"b": "old"}, ["b"], 8, image, "owned b 7", plain(b="old"))


def over_a_package_that_goes():
    image = [("a", "-", "new"), ("b", "-", "new")]
    objects = {**plain(a="new", b="new"), RECORD: ("-", "0")}
    check_one({"b": "old"}, ["b"], 7, image, "ok", objects)


def over_what_nobody_owns():
    image = [("a", "-", "new"), ("b", "-", "new")]
    check_one({"b": "old"}, ["c"], 8, image, "unowned b", plain(b="old"))


def with_a_link_to_nothing():
    image = [("a", "-", "new"), ("b", "l", "")]
    check_one({"b": "old"}, ["b"], 7, image, "link b", plain(b="old"))


# Package 7 owns `a`, `b` and `c`, and goes with group 0: that replaces one, and removes two.
# Group 1 then places one of these.
TWO = [
    *[f"hold {held(path, 'old')}" for path in "abc"],
    f"hold {held('d', 'kept')}",
    *[f"own 7 {path}" for path in "abc"],
    "goes 0 7",
    "goes 1 8",
    "drop 0 b",
    "drop 0 c",
    f"bring 0 {held('a', 'new')}",
    f"folder 0 {held('var/db/pkg/c/p-1/SLOT', '0')}",
    f"bring 1 {held('b', 'again')}",
    f"folder 1 {held('var/db/pkg/c/q-1/SLOT', '0')}",
    "line 0 done 0 +c/p-1",
    "line 1 done 1 +c/q-1",
]
SLOTS = {f"var/db/pkg/c/{name}-1/SLOT": ("-", "0") for name in "pq"}


def a_package_goes_and_another_takes_its_path():
    objects = {**plain(a="new", b="again", d="kept"), **SLOTS}
    check_run("two", TWO, "ok", "01", "done 0 +c/p-1\ndone 1 +c/q-1\n", objects)


def two_packages_come_in_one_group():
    """Group 0 brings packages 9 and 19, each with its record. What the second one placed is its
    own then, and group 1 may not place it."""
    records = {name: f"var/db/pkg/c/{name}-1/SLOT" for name in "pqr"}
    fields = [
        "goes 0 8",
        "goes 1 8",
        f"bring 0 {held('usr/bin/p', 'run', 'x')}",
        f"folder 0 {held(records['p'], '0')}",
        f"also 0 {held('usr/bin/q', 'p', 'l')}",
        f"also 0 {held('etc/q', 'set')}",
        f"beside 0 {held(records['q'], '0')}",
        f"bring 1 {held('etc/q', 'other')}",
        f"folder 1 {held(records['r'], '0')}",
        "line 0 done 0 +c/p-1 +c/q-1",
        "line 1 done 1 +c/r-1",
    ]
    objects = {
        "usr/bin/p": ("x", "run"),
        "usr/bin/q": ("l", "p"),
        **plain(**{"etc/q": "set", records["p"]: "0", records["q"]: "0"}),
    }
    check_run("two", fields, "owned etc/q 19", "0", "done 0 +c/p-1 +c/q-1\n", objects)


def texts_of(tree):
    return {path: text.decode() for path, (_, text) in tree.items()}


def a_run_of_two_is_stopped_at_each_call():
    """Whatever a crash leaves of a run that is stopped recovers to the tree from before, with the
    first group, or with both; what the run told is in it."""
    before = {"a": "old", "b": "old", "c": "old", "d": "kept"}
    first = {"a": "new", "d": "kept", "var/db/pkg/c/p-1/SLOT": "0"}
    both = {**first, "b": "again", "var/db/pkg/c/q-1/SLOT": "0"}
    stages = [before, first, both]
    p, q = SLOTS
    looked = looks([Group(dict.fromkeys(["a", p]), ("b", "c")), Group(dict.fromkeys(["b", q]))])
    (whole,) = ask([line("two", *TWO)])
    stops = range(1, left_of(whole).calls + 1)
    cases = {}
    for answer in ask([line("two", f"stop {stop}", *TWO, *looked) for stop in stops]):
        left = left_of(answer)
        same("the end of a run that is stopped", "device", left.end)
        acknowledged = len(left.rest[2])
        for case in map(recover_case, images(left)):
            cases[case] = max(acknowledged, cases.get(case, 0))
    for (case, least), answer in zip(cases.items(), ask(list(cases))):
        left = left_of(answer)
        same(f"the recovery of {case[:200]}", True, texts_of(left.objects) in stages[least:])


def sealed_and_claimed(first, second):
    """Two groups that place one empty file each: the first one claims its path, then the second."""
    fields = [f"bring {at} {held(path, '')}" for at, path in enumerate((first, second))]
    return line("events", "order " + "0" * 6 + "1" * 6, "goes 0 0", "goes 1 0", *fields)


def paths_of_another_group():
    table = [
        ("a/b", "a/b", "11", "claimed a/b 0"),
        ("a/b", "a", "11", "ancestor a a/b"),
        ("a/b", "a/b/c", "11", "ancestor a/b/c a/b"),
        ("a/b", "a/c", "12", ""),
        ("a", "a-b", "12", ""),
    ]
    answers = ask([sealed_and_claimed(*row[:2]) for row in table])
    for (_, _, came, refusal), answer in zip(table, answers):
        left = left_of(answer)
        same("claims", (came, refusal), (left.end, left.rest[1]))


TESTS = [
    into_an_empty_tree,
    over_a_package_that_stays,
    over_a_package_that_goes,
    over_what_nobody_owns,
    with_a_link_to_nothing,
    a_package_goes_and_another_takes_its_path,
    two_packages_come_in_one_group,
    a_run_of_two_is_stopped_at_each_call,
    paths_of_another_group,
]
