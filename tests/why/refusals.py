"""Each refusal: the words, the folder, and what the program says on both outputs."""
import os

import unproved
from roots import Link, Zeros, installed, offered
from journal import OPEN, journal_path, record, stage_path

# the lines of the calls of the host that failed, by their first word, which are told in any case
CALLS = ("image", "build", "list")
# the folders that have another profile
PROFILES = {"no profile": {}}


def stopped(placed, staged):
    """The journal of a stopped run whose group 1 is to place a file of these bytes, and has staged
    those."""
    text = record(1, [], [(0, "usr/bin/tool", placed)])
    files = {journal_path(1, name): OPEN for name in ("token", "gate")}
    return {**files, journal_path(1, "record"): text, stage_path(1, 0): staged}


def plan(*lines):
    return {"var/plan": "".join(f"{line}\n" for line in ("plan 1", *lines))}


def chain(*ids):
    """Candidates each of which needs the package of the next one, and the last one what is none."""
    files = {}
    for one, other in zip(ids, ids[1:]):
        files.update(offered(one, RDEPEND=other.rsplit("-", 1)[0]))
    return files


A1, A2, B1 = "add c/a-1:0/0", "add c/a-2:0/0", "add c/b-1:0/0"
HELLO = offered("app-misc/hello-2.12")
IMAGE = {"app-misc/hello-2.12/usr/bin/hello": "hello\n"}
PLANNED = ["--plan", "var/plan"]
HELLO_WORD = ["app-misc/hello"]
TOOL = "app-misc/hello-2.12/usr/share/tool"
CONF = "etc/portage"
# two packages that need each other, so that they come in one group
RING = {**offered("c/a-1", RDEPEND="c/b"), **offered("c/b-1", RDEPEND="c/a")}
BOTH = {f"c/{name}-1/usr/share/both": f"{name}\n" for name in "ab"}
# the limits of an image, which are smaller in a program without a proof
LIMITS = unproved.LIMITS if os.environ.get("UNPROVED") else {}
MOST_BYTES = LIMITS.get("MOST_FILE_BYTES", 268_435_456)
MOST_FILES = LIMITS.get("MOST_ENTRIES", 100_000)

# of each a name, the words, the files of the tree, and those of the images
CASES = (
    ("help", ["--help"], {}, {}),
    ("no words", [], {}, {}),
    ("an option that there isn't", ["--colour", "c/p"], {}, {}),
    ("a short option", ["-p", "c/p"], {}, {}),
    ("a flag with a value", ["--pretend=1", "c/p"], {}, {}),
    ("an option without its value", ["--plan"], {}, {}),
    ("an option before another one", ["--plan", "--pretend"], {}, {}),
    ("an option twice", ["--pretend", "--pretend", "c/p"], {}, {}),
    ("a plan and a package", ["--plan", "var/plan", "c/p"], {}, {}),
    ("a plan and an option of packages", ["--plan", "var/plan", "--update"], {}, {}),
    ("a plan and another command", ["--plan", "var/plan", "--load", "1"], {}, {}),
    ("a plan that is no path", ["--plan", "var/../plan"], {}, {}),
    ("options that don't go together", ["--unmerge", "--load", "1", "c/p"], {}, {}),
    ("a word without a category", ["hello"], {}, {}),
    ("a version without an operator", ["app-misc/hello-2"], {}, {}),
    ("an operator without a version", [">=app-misc/hello"], {}, {}),
    ("a block", ["!c/p"], {}, {}),
    ("no slot", ["c/p:"], {}, {}),
    ("no flags", ["c/p[A"], {}, {}),
    ("an asterisk", ["~c/p-1*"], {}, {}),
    ("a number of jobs", ["--jobs", "17", "c/p"], {}, {}),
    ("a number of choices", ["--backtrack=none", "c/p"], {}, {}),
    ("a word that drives a terminal", ["c/p\n\x1b[2Jemerge: ok 1\x7f\x9b"], {}, {}),
    ("a command that isn't there yet", ["--repair", "c/p"], {}, {}),
    ("nothing that could be taken away", ["--unmerge", "c/p"], {}, {}),
    ("no world file", ["@world"], {}, {}),
    ("a line of the world file", ["@world"], {"var/lib/portage/world": "c/q\n!c/p\n"}, {}),
    ("no profile", HELLO_WORD, {}, {}),
    ("no folder of the profile", HELLO_WORD, {f"{CONF}/make.profile/parent": "../gone\n"}, {}),
    ("make.conf", HELLO_WORD, {f"{CONF}/make.conf": "A=1\nUSE='x\n"}, {}),
    ("package.use", HELLO_WORD, {f"{CONF}/package.use": "c/p a\nc/p +\x1b[31mb\n"}, {}),
    ("package.mask", HELLO_WORD, {f"{CONF}/package.mask": "!c/p\n"}, {}),
    ("package.unmask", HELLO_WORD, {f"{CONF}/package.unmask/mine": "# mine\nc/p x\n"}, {}),
    ("keywords", HELLO_WORD, {f"{CONF}/package.accept_keywords": "~amd64 c/p\n"}, {}),
    ("use.mask", HELLO_WORD, {f"{CONF}/make.profile/use.mask": "+a\n"}, {}),
    ("a loop of parents", HELLO_WORD, {f"{CONF}/make.profile/parent": "../make.profile\n"}, {}),
    ("make.defaults", HELLO_WORD, {f"{CONF}/make.profile/make.defaults": "A=1\nB\n"}, {}),
    ("no UTF-8", HELLO_WORD, {f"{CONF}/make.conf": b"A=1\n\xff\n"}, {}),
    ("a plan's line", PLANNED, plan("group 1", "add c/a"), {}),
    ("no plan", ["--plan", "/var/plan"], {}, {}),
    ("a flag that isn't there", PLANNED, {**plan("group 1", f"{A1} x"), **offered("c/a-1")}, {}),
    ("a folder that names no package", HELLO_WORD, {"var/db/pkg/c/i/SLOT": "0\n"}, {}),
    ("no CONTENTS", HELLO_WORD, installed("c/i-1", None), {}),
    ("another EAPI", HELLO_WORD, installed("c/i-1", EAPI="9\n"), {}),
    ("a line of CONTENTS", HELLO_WORD, installed("c/i-1", "obj usr/bin/x 0\n"), {}),
    ("no dependencies", HELLO_WORD, installed("c/i-1", RDEPEND="c/p )\n"), {}),
    (
        "a file of two packages",
        HELLO_WORD,
        {**installed("c/i-1", "sym /x -> y 0\n"), **installed("c/j-1", "sym /x -> y 0\n")},
        {},
    ),
    (
        "a file above another",
        HELLO_WORD,
        {**installed("c/i-1", "sym /x -> y 0\n"), **installed("c/j-1", "sym /x/z -> y 0\n")},
        {},
    ),
    ("a stage of the journal", HELLO_WORD, stopped(b"whole", b"broken"), {}),
    (
        "a record of the journal",
        HELLO_WORD,
        {**stopped(b"whole", b"whole"), journal_path(1, "record"): b"EMJ"},
        {},
    ),
    ("what is needed isn't there", HELLO_WORD, installed("c/i-1", RDEPEND="c/j\n"), {}),
    ("none of several is there", HELLO_WORD, installed("c/i-1", RDEPEND="|| ( )\n"), {}),
    (
        "installed and blocked",
        HELLO_WORD,
        {**installed("c/i-1", RDEPEND="!c/j\n"), **installed("c/j-1")},
        {},
    ),
    ("flags that don't go together", HELLO_WORD, installed("c/i-1", REQUIRED_USE="x\n"), {}),
    ("two in a slot", HELLO_WORD, {**installed("c/i-1"), **installed("c/i-2")}, {}),
    ("an unknown package", ["app-misc/hallo"], HELLO, {}),
    (
        "each reason",
        [">=c/a-5"],
        {
            **{path: held for path, held in offered("c/a-8").items() if "ebuild" not in path},
            **offered("c/a-7", EAPI="4"),
            **offered("c/a-6", _md5_="0" * 32),
            **offered("c/a-5", SLOT="-"),
            **offered("c/a-4", KEYWORDS="~amd64"),
            **offered("c/a-3", "c/a-1"),
            f"{CONF}/package.mask": "=c/a-3\n",
            **offered("c/a-2", IUSE="x", REQUIRED_USE="x !x"),
        },
        {},
    ),
    ("many versions", [">c/a-30"], offered(*(f"c/a-{at}" for at in range(1, 24))), {}),
    (
        "no solution",
        ["c/a"],
        {**offered("c/a-1", RDEPEND="c/b"), **offered("c/b-1", RDEPEND="!c/a")},
        {},
    ),
    (
        "the search is given up",
        ["--backtrack", "1", "c/a"],
        {**offered("c/a-1", "c/a-2", "c/a-3", RDEPEND="c/b"), **offered("c/b-1", RDEPEND="!c/a")},
        {},
    ),
    ("a need that nothing meets", ["c/a"], chain("c/a-3", "c/b-2", "c/zz"), {}),
    (
        "a need of several packages",
        ["c/a"],
        offered("c/a-1", RDEPEND="|| ( c/x c/y )"),
        {},
    ),
    (
        "a need that is taken",
        ["c/a", ">=c/b-2"],
        {**offered("c/a-1", PDEPEND="<c/b-2"), **offered("c/b-1", "c/b-2")},
        {},
    ),
    (
        "many decisions",
        ["c/a"],
        chain("c/a-1", "c/b-1", *(f"c/d{at}-1" for at in range(10)), "c/zz"),
        {},
    ),
    ("two versions in a slot", [">=c/b-2", "<c/b-2"], offered("c/b-1", "c/b-2"), {}),
    (
        "a version in two slots",
        ["c/p:0", "c/p:1"],
        {**installed("c/p-1"), **offered("c/p-1", SLOT="1")},
        {},
    ),
    (
        "nothing makes it go",
        [">=c/b-2"],
        {**installed("c/b-1"), **installed("c/y-1", RDEPEND="=c/b-1\n"), **offered("c/b-2")},
        {},
    ),
    (
        "a build cycle",
        ["c/a"],
        {**offered("c/a-1", BDEPEND="c/b"), **offered("c/b-1", DEPEND="c/a")},
        {},
    ),
    (
        "a build of itself",
        [">=c/a-2"],
        {**installed("c/a-1"), **offered("c/a-2", DEPEND=">=c/a-2")},
        {},
    ),
    (
        "no order",
        [">=c/a-2"],
        {**installed("c/a-1"), **offered("c/a-2", RDEPEND="!!<c/a-2")},
        {},
    ),
    (
        "Line",
        PLANNED,
        {
            **plan("group 1", A1, "group 2", "remove c/a-1:0", A2),
            **offered("c/a-1", "c/a-2"),
        },
        {},
    ),
    ("Absent", PLANNED, {**plan("group 1", "remove c/a-1:0"), **installed("c/a-2")}, {}),
    ("Occupied", PLANNED, {**plan("group 1", A2), **offered("c/a-2"), **installed("c/a-1")}, {}),
    (
        "RequiredUse",
        PLANNED,
        {
            **plan("group 1", A1),
            **offered("c/a-1", IUSE="x", REQUIRED_USE="x"),
            f"{CONF}/package.use": "c/a x\n",
        },
        {},
    ),
    (
        "Binding",
        PLANNED,
        {
            **plan("group 1", B1, "bind 0/4"),
            **offered("c/b-1", RDEPEND="c/a:="),
            **installed("c/a-1", SLOT="0/5\n"),
        },
        {},
    ),
    (
        "no bind",
        PLANNED,
        {**plan("group 1", B1), **offered("c/b-1", RDEPEND="c/a:="), **installed("c/a-1")},
        {},
    ),
    (
        "Unsatisfied",
        PLANNED,
        {
            **plan("group 1", "remove c/b-1:0"),
            **installed("c/a-1", RDEPEND="c/b\n"),
            **installed("c/b-1"),
        },
        {},
    ),
    (
        "Unsafe",
        PLANNED,
        {
            **plan("group 1", "remove c/b-1:0", "add c/b-2:0/0", "group 2", "remove c/a-1:0"),
            **offered("c/b-2"),
            **installed("c/a-1", RDEPEND="=c/b-1\n"),
            **installed("c/b-1"),
        },
        {},
    ),
    (
        "WeakBlock",
        PLANNED,
        {
            **plan("group 1", "remove c/b-1:0", "group 2", A1),
            **offered("c/a-1", RDEPEND="!c/b"),
            **installed("c/b-1"),
        },
        {},
    ),
    (
        "StrongBlock",
        PLANNED,
        {
            **plan("group 1", "remove c/b-1:0", A1),
            **offered("c/a-1", RDEPEND="!!c/b"),
            **installed("c/b-1"),
        },
        {},
    ),
    (
        "Build",
        PLANNED,
        {**plan("group 1", A1, B1), **offered("c/a-1", DEPEND="c/b"), **offered("c/b-1")},
        {},
    ),
    ("Final", PLANNED, {**plan("group 1", A1), **offered("c/a-1", PDEPEND="c/b")}, {}),
    (
        "Owned",
        HELLO_WORD,
        {**HELLO, **installed("c/i-1", "sym /usr/bin/hello -> y 0\n")},
        IMAGE,
    ),
    ("Ancestor", HELLO_WORD, {**HELLO, **installed("c/i-1", "sym /usr -> y 0\n")}, IMAGE),
    ("Unowned", HELLO_WORD, {**HELLO, "usr/bin/hello": "mine\n"}, IMAGE),
    (
        "a path that drives a terminal",
        HELLO_WORD,
        {**HELLO, "usr/\x1b[2Jx\r": "mine\n"},
        {"app-misc/hello-2.12/usr/\x1b[2Jx\r": "hello\n"},
    ),
    ("Reserved", HELLO_WORD, HELLO, {"app-misc/hello-2.12/var/db/pkg/c/p-1/SLOT": "0\n"}),
    ("Link", HELLO_WORD, HELLO, {"app-misc/hello-2.12/usr/bin/two": Link("a\nb")}),
    ("a file of two packages that come together", ["c/a"], RING, BOTH),
    ("a large file", HELLO_WORD, HELLO, {f"{TOOL}/large": Zeros(MOST_BYTES + 1)}),
    ("no image", HELLO_WORD, HELLO, {}),
    ("no program", ["--build-with", "/bin/false", *HELLO_WORD], HELLO, {}),
    ("a pipe in the way", HELLO_WORD, {**HELLO, "var/db/pkg": Link("elsewhere")}, IMAGE),
    (
        "too many groups",
        PLANNED,
        plan(*(f"group {at}\nremove c/a-{at}:0" for at in range(1, 4098))),
        {},
    ),
    (
        "too many stopped groups",
        HELLO_WORD,
        {journal_path(group, "gate"): b"" for group in range(4097)},
        {},
    ),
    (
        "too many files",
        HELLO_WORD,
        HELLO,
        {f"{TOOL}/{at % 256}/{at}": "" for at in range(MOST_FILES + 1)},
    ),
)
