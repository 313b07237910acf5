"""What `--pretend` shows on a terminal, and that it shows nothing elsewhere."""
import os
import pty
import subprocess

import roots
from roots import Root, expect, installed, offered

# an upgrade with other flags, one that is new, a downgrade in another slot, and one that is built anew
OFFERED = {
    **offered("c/up-2", IUSE="a b", DEPEND=""),
    **offered("c/new-1", IUSE="+a", RDEPEND="c/up"),
    **offered("c/down-1", SLOT="2"),
    **offered("c/same-1", IUSE="a"),
}
INSTALLED = {
    **installed("c/up-1", IUSE="a b\n", USE="b\n"),
    **installed("c/down-3", SLOT="2\n"),
    **installed("c/same-1", IUSE="a\n"),
    **installed("c/gone-1"),
}
LINES = (
    "group 1",
    "remove c/down-3:2",
    "remove c/gone-1:0",
    "remove c/same-1:0",
    "remove c/up-1:0",
    "add c/down-1:2/2",
    "add c/new-1:0/0 a",
    "add c/same-1:0/0 a",
    "add c/up-2:0/0 a",
)
FLAGS = {"etc/portage/package.use": "c/up a\nc/same a\n"}
PLAN = "".join(f"{line}\n" for line in ("plan 1", *LINES))
WORDS = ["--pretend", "--plan", "var/plan"]
TABLE = """\
emerge: this would be done:
emerge:   downgrade  c/down:2  3 -> 1
emerge:   new        c/new     1 +a
emerge:   rebuild    c/same    1 +a
emerge:   upgrade    c/up      1 -> 2 +a -b
emerge:   removal    c/gone    1
emerge: changes: 5; nothing was changed, since --pretend is given
"""


def watched(root, words, env=()):
    """What a run writes on a terminal that is its standard error, and on standard output."""
    ours, theirs = pty.openpty()
    words = [roots.PROGRAM, "--tree", root.root, "--images", root.images, *words]
    how = {"stdin": subprocess.DEVNULL, "stdout": subprocess.PIPE, "stderr": theirs}
    kept = {key: held for key, held in os.environ.items() if key != "EMERGE_QUIET"}
    ran = subprocess.run(words, env={**kept, **dict(env)}, timeout=120, **how)
    os.close(theirs)
    seen = b""
    try:
        while part := os.read(ours, 4096):
            seen += part
    except OSError:
        # (the other end is closed, and all was read)
        pass
    os.close(ours)
    return ran.stdout.decode(), seen.decode().replace("\r\n", "\n")


def root_with_plan():
    return Root({**OFFERED, **INSTALLED, **FLAGS, "var/plan": PLAN})


def table_on_a_terminal():
    said = watched(root_with_plan(), WORDS)
    expect(said, (f"{PLAN}emerge: ok 0\n", TABLE), "a plan on a terminal")


def no_table_elsewhere():
    root = root_with_plan()
    want = (0, f"{PLAN}emerge: ok 0\n", "")
    expect(root.run(WORDS), want, "a plan whose standard error is a pipe")
    quiet = watched(root, WORDS, {"EMERGE_QUIET": "1"})
    expect(quiet, (want[1], ""), "a plan on a terminal that is to be quiet")


def no_table_of_nothing():
    root = Root({**OFFERED, **INSTALLED, **FLAGS})
    said = watched(root, ["--pretend", "c/up"])
    expect(said[1], "", "a plan that changes nothing")


TESTS = (table_on_a_terminal, no_table_elsewhere, no_table_of_nothing)
