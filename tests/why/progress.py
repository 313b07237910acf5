"""How far a run has come: one line on a terminal from the first second on, and nothing elsewhere."""
import os
import re
import time

import roots
from roots import Root, expect, offered
from tables import watched

# how long a program takes to build an image, in seconds
BUILD = 1.2
WORDS = ["--plan", "var/plan"]
PLAN = "".join(
    f"{line}\n"
    for line in ("plan 1", "group 1", "add c/a-1:0/0", "group 2", "add c/b-1:0/0")
)
FILES = {**offered("c/a-1", "c/b-1"), "var/plan": PLAN}
IMAGES = {
    "c/a-1/usr/share/a/one": "1\n",
    "c/a-1/usr/share/a/two": "2\n",
    "c/b-1/usr/share/b": "b\n",
}
DONE = "done 1 +c/a-1\ndone 2 +c/b-1\nemerge: ok 2\n"
# each line that is drawn; a group has its files, and those of the database for its package
DRAWN = (
    r"image of c/[ab]-1: \d of [12] files",
    r"group [12] of 2: \d+ of the files in the journal",
    r"group [12] of 2: \d+ of \d+ files",
    r"[\d,]+ files read, now those of (the [a-z]+|the installed packages)",
)
CLEAR = "\r\x1b[K"


def slow(root, seconds, ends="exit 0"):
    """The words for a program that takes so long to build each image, and ends so."""
    program = f"{root.root}/../build"
    with open(program, "w", encoding="utf-8") as file:
        file.write(f"#!/bin/sh\nsleep {seconds}\n{ends}\n")
    os.chmod(program, 0o755)
    return ["--build-with", program, *WORDS]


def screen(text):
    """What is on a terminal at the end that has shown this text, and each line that it has shown."""
    lines, shown = [""], []
    for part in re.findall(r"\r|\x1b\[K|\n|[^\r\x1b\n]+", text):
        if part == CLEAR[1:]:
            lines[-1] = ""
        elif part == "\n":
            lines.append("")
        elif part != "\r":
            lines[-1] += part
            shown.append(lines[-1])
    return "\n".join(lines), shown


def check_drawn(shown):
    """Fails where a line is none that tells how far a run is, or is too wide for a terminal."""
    form = "|".join(f"emerge: {it}" for it in DRAWN)
    wrong = [it for it in shown if not re.fullmatch(form, it) or len(it) > 79]
    expect(wrong, [], "lines that tell no progress")


def line_that_is_cleared():
    root = Root(FILES, IMAGES)
    said, told = watched(root, slow(root, BUILD))
    expect(said, DONE, "standard output")
    expect(told.startswith(CLEAR), True, f"the first line of {told!r} is drawn on a clear one")
    expect(screen(told)[0], "", "what is left on the terminal")
    shown = screen(told)[1]
    check_drawn(shown)
    for form in (DRAWN[0], DRAWN[1]):
        found = [it for it in shown if re.fullmatch(f"emerge: {form}", it)]
        expect(found != [], True, f"a line {form} in {shown}")


def line_of_what_is_read():
    many = offered(*(f"c/a-{at}" for at in range(1, 250)))
    root = Root({**FILES, **many}, IMAGES)
    began = time.monotonic()
    said, told = watched(root, WORDS)
    expect(said, DONE, "standard output")
    expect(screen(told)[0], "", "what is left on the terminal")
    check_drawn(screen(told)[1])
    if time.monotonic() - began > 5:
        found = [it for it in screen(told)[1] if re.fullmatch(f"emerge: {DRAWN[3]}", it)]
        expect(found != [], True, "a line that tells of what is read")


def line_before_a_refusal():
    root = Root(FILES, IMAGES)
    words = slow(root, BUILD, 'test "$1" = c/a-1')
    said, told = watched(root, words)
    expect(said, "done 1 +c/a-1\nemerge: BuildFailed: c/b-1\n", "standard output")
    left = screen(told)[0].splitlines()
    expect(left[0], "emerge: build c/b-1: the program failed", "the first line that is left")
    others = [it for it in left if re.fullmatch("|".join(f"emerge: {it}" for it in DRAWN), it)]
    expect(others, [], "lines of progress that are left")


def no_line_in_a_short_run():
    root = Root(FILES, IMAGES)
    began = time.monotonic()
    said = watched(root, WORDS)
    if time.monotonic() - began < 1:
        expect(said, (DONE, ""), "a short run on a terminal")


def no_line_elsewhere():
    root = Root(FILES, IMAGES)
    expect(root.run(slow(root, BUILD)), (0, DONE, ""), "a run whose standard error is a pipe")
    root = Root(FILES, IMAGES)
    quiet = watched(root, slow(root, BUILD), {"EMERGE_QUIET": "1"})
    expect(quiet, (DONE, ""), "a run on a terminal that is to be quiet")


TESTS = (
    line_that_is_cleared,
    line_of_what_is_read,
    line_before_a_refusal,
    no_line_in_a_short_run,
    no_line_elsewhere,
)
