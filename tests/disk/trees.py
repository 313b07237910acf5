"""The tree and the sink in memory: what they hold, which calls fail, and the images of crashes."""
from asked import rows_at_once
from told import THEN, held, line


def steps(texts, *later):
    """A tree in which each of these paths holds itself, and what is then asked of it."""
    return line("tree", *[f"hold {held(text, text)}" for text in texts], *later)


def a_list_is_in_byte_order():
    rows = [
        (steps(["b/a", "b-c", "b/B", "b", "b/!"], "list b"), THEN.join(["b/!", "b/B", "b/a"])),
        (steps(["b-c", "b"], "list b"), ""),
        (steps(["b/c/d"], "list b"), "b/c/d"),
    ]
    return rows_at_once("ask_disk", rows)


def the_first_repeated_path_is_named():
    rows = [(steps(["a", "c", "b", "c", "a"], "calls"), "twice c")]
    return rows_at_once("ask_disk", rows)


def what_was_put_is_read_and_placed():
    first = ["put - 37 n", "read n", "place n -> d/y", "look d/y", "read d/y"]
    answers = ["ok", "- 37 n", "ok", "-", "- 37 d/y"]
    objects = THEN.join([held("d/x", "d/x"), "- 37 d/y", "- 37 n"])
    rows = [
        (steps(["d/x"], *first, "objects"), line(*answers, objects)),
        (steps(["d/x"], "look d", "look e", "look d/x"), line("folder", "nothing", "-")),
        (steps([], "put l 61 k", "look k", "put x 62 k", "look k", "read k"),
         line("ok", "l", "ok", "x", "x 62 k")),
    ]
    return rows_at_once("ask_disk", rows)


def calls_are_counted():
    each = ["look a", "read a", "list a", "put - 61 a", "remove a", "sync"]
    rows = [
        (steps(["a"], "remove a", "sync", "calls", "refused"), line("ok", "ok", 2, 0)),
        (steps(["a"], *each, "calls", "syncs", "refused"),
         line("-", held("a", "a"), "", "ok", "ok", "ok", 6, 1, 0)),
        (steps(["a"], "fail 1", "sync", "sync", "syncs", "calls"), line("failed", "ok", 1, 2)),
    ]
    return rows_at_once("ask_disk", rows)


def the_calls_that_were_listed_fail_and_no_other():
    answers = ["ok", "failed", "ok", "failed", "failed"]
    rows = [(steps([], "fail 2", "stop 4", *["remove a"] * 5), line(*answers))]
    for call in ("look a", "read a", "list a", "put - 61 a", "remove a", "sync"):
        good = {"look a": "-", "read a": held("a", "a"), "list a": ""}.get(call, "ok")
        rows.append((steps(["a"], "fail 2", "look a", call, "objects"),
                     line("-", "failed", held("a", "a"))))
        rows.append((steps(["a"], "fail 3", "look a", call), line("-", good)))
    return rows_at_once("ask_disk", rows)


def an_image_follows_its_choice():
    after_remove = ["stop 1", "remove a", "image gone a", "objects"]
    rows = [
        (steps(["a", "b"], *after_remove), line("failed", "ok", held("b", "b"))),
        (steps(["a", "b"], "remove a", "image - 02 a", "objects"),
         line("ok", "ok", "- 02 a" + THEN + held("b", "b"))),
        (steps(["a"], "put - 02 a", "image ", "objects", "calls"), line("ok", "ok", "- 02 a", 0)),
        (steps(["a"], "remove a", "put - 03 c", f"image {held('a', 'a')}{THEN}gone c", "objects"),
         line("ok", "ok", "ok", held("a", "a"))),
    ]
    return rows_at_once("ask_disk", rows)


def an_image_touches_no_other_path():
    rows = [
        (steps(["a"], "image gone a", "objects"), line("not touched a", held("a", "a"))),
        (steps(["a"], "remove a", "sync", "image - 02 a"), line("ok", "ok", "not touched a")),
        (steps(["a", "b"], "remove b", f"image gone b{THEN}gone a"), line("ok", "not touched a")),
        (steps(["a"], "remove a", "image gone a", "image gone a"),
         line("ok", "ok", "not touched a")),
    ]
    return rows_at_once("ask_disk", rows)


def a_sink_keeps_what_was_written_but_for_the_listed_write():
    writes = [f"write {text.hex()}" for text in (b"one ", b"two ", b"three")]
    rows = [
        (line("sink", "fail 2", *writes, "written", "refused"),
         line("ok", "failed", "ok", b"one three".hex(), 0)),
        (line("sink", *writes, "written"), line("ok", "ok", "ok", b"one two three".hex())),
    ]
    return rows_at_once("ask_disk", rows)


TESTS = [
    a_list_is_in_byte_order,
    the_first_repeated_path_is_named,
    what_was_put_is_read_and_placed,
    calls_are_counted,
    the_calls_that_were_listed_fail_and_no_other,
    an_image_follows_its_choice,
    an_image_touches_no_other_path,
    a_sink_keeps_what_was_written_but_for_the_listed_write,
]
