"""Runs that are short of memory, what they say, and what the next run makes of what they left."""
import os
import resource
import subprocess

import refusals
import roots
from roots import Root, expect

MIB = 1 << 20
WORDS = refusals.HELLO_WORD
FILE = "usr/bin/hello"
LARGE = {f"app-misc/hello-2.12/{FILE}": b"x" * (2 * MIB)}
DONE = "done 1 +app-misc/hello-2.12\nemerge: ok 1\n"
# how a run may end that has as little: well, by a call of the host that had too little, by want of
# memory, or by that before it began
ENDS = (0, 16, 19)
SHORT = (
    19,
    "emerge: Memory\n",
    "emerge: there was not enough memory; free some, and\n"
    "emerge: run the command again, which first completes or drops what was begun; clean nothing by hand\n",
)
# a program without a proof reserves more than it uses, and bounds what it may ask for at once
AT_ONCE = {"ASAN_OPTIONS": "allocator_may_return_null=1:max_allocation_size_mb=1"}


def limited(size):
    """What bounds the memory of a process that is started with it."""
    return lambda: resource.setrlimit(resource.RLIMIT_AS, (size, size))


def sizes():
    """From more than a run uses down to less than the system needs to start one, in steps of a
    tenth."""
    size = 256 * MIB
    while size > MIB // 4:
        yield size
        size -= size // 10


def short_runs(env=()):
    """What runs come to, each with the folder that it was on, of which each has less memory, until
    none can be started."""
    if os.environ.get("UNPROVED"):
        root = Root(refusals.HELLO, LARGE)
        status, out, err = root.run(WORDS, {**AT_ONCE, **dict(env)})
        lines = [it for it in err.splitlines(True) if it.startswith("emerge: ")]
        yield root, (status, out, "".join(lines))
        return
    for size in sizes():
        root = Root(refusals.HELLO, LARGE)
        try:
            said = root.run(WORDS, env, begin=limited(size))
        except (OSError, subprocess.SubprocessError):
            return
        if said[0] not in ENDS:
            return
        yield root, said


def check_next_run(root):
    """Fails where the next run, which has memory and a small image, doesn't end as a first one does
    or find all done, or leaves something in the journal."""
    there = os.path.lexists(f"{root.root}/var/db/pkg/app-misc/hello-2.12/CONTENTS")
    for path in LARGE:
        roots.write(f"{root.images}/{path}", "small\n")
    status, out, err = root.run(WORDS)
    expect((status, err), (0, ""), "the next run")
    expect(out in (DONE, "emerge: ok 0\n"), True, f"{out!r} is said")
    with open(f"{root.root}/{FILE}", "rb") as file:
        data = file.read()
    small = b"small\n" if out == DONE else LARGE[f"app-misc/hello-2.12/{FILE}"]
    expect(data == small, True, f"a whole file of {len(data)} bytes; it was there: {there}")
    expect(os.path.lexists(f"{root.root}/var/lib/portage"), False, "what is left of the journal")


def want_of_memory():
    met = 0
    for root, said in short_runs():
        met += said == SHORT
        check_next_run(root)
    expect(met > 0, True, "a run that found too little memory")


def want_of_memory_and_words():
    """What is told is the same line on standard output where no words are wanted."""
    met = [said for _, said in short_runs({"EMERGE_QUIET": "1"}) if said[1] == SHORT[1]]
    expect({said for said in met}, {(*SHORT[:2], "")}, "a run that is to be quiet")


TESTS = (want_of_memory, want_of_memory_and_words)
