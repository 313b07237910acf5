"""The tree of choices of what to install, and the search for its first good choice."""
import itertools
import random
import re

from cases import PROGRAM, case, check, expect

# three versions, of which the greater two need what isn't there
THREE = "a-3;RDEPEND c/zz,a-2;RDEPEND c/zz,a-1"
LIMITS = [(0, "limit"), (1, "limit| 0=v0"), (2, "limit| 0=v0| 0=v1"), (3, " 0=v2")]
SLOTS = ["+a-2,a-3,a-2", "a-3:1,a-1:1"]

# what is kept first or updated, what is wanted, the lines, and the tree
BLOCKED = (
    ("keep", "c/a", "a-2;RDEPEND !c/b,a-1", "+b-1,b-2"),
    ": wanted; 0=v0: conflict 0 1; 0=v0 1=-: good; 0=v1: good;",
)
UPDATED = (
    ("update", "c/a", *SLOTS),
    ": wanted; 0=v0: good; 1=v0: good; 0=+: good; 0=v1: good; 1=v1: good;",
)
KEPT = (
    ("keep", "c/a", *SLOTS),
    ": wanted; 0=+: good; 0=v0: good; 1=v0: good; 0=v1: good; 1=v1: good;",
)
BROKEN = (
    ("keep", "c/a", "a-1", "+b-1;RDEPEND c/zz,b-2;RDEPEND c/zz,b-1"),
    ": wanted; 0=v0: RDEPEND 1; 0=v0 1=v0: RDEPEND 1; 0=v0 1=v1: good; 0=v0 1=-: absence 1;",
)


# the variant with its flag on, which comes behind the one without a flip
WITH_FLAG = "b-1;IUSE x,b-1;IUSE x;USE x"
# its flags don't go together
BAD_FLAGS = "+a-1;IUSE x;REQUIRED_USE x"

# how, what is wanted, the lines, and the whole tree in preorder
WHOLE_TREES = [
    (("keep", "c/a", "+a-1;DEPEND c/zz"), ": wanted; 0=+: good;"),
    (("keep", "c/b c/a", "a-1", "b-1"), ": wanted; 1=v0: wanted; 1=v0 0=v0: good;"),
    (
        ("keep", "c/a", "a-1;RDEPEND c/c c/b", "b-1", "c-1"),
        ": wanted; 0=v0: RDEPEND 0; 0=v0 2=v0: RDEPEND 0; 0=v0 2=v0 1=v0: good;"
        " 0=v0 1=v0: RDEPEND 0; 0=v0 1=v0 2=v0: good;",
    ),
    (
        ("keep", "c/a", "a-1;RDEPEND || ( c/b c/c )", "b-1", "c-1"),
        ": wanted; 0=v0: RDEPEND 0; 0=v0 1=v0: good; 0=v0 2=v0: good;",
    ),
    (
        ("keep", "c/a", "a-1;DEPEND c/b;RDEPEND c/c", "b-1", "c-1"),
        ": wanted; 0=v0: RDEPEND 0; 0=v0 2=v0: DEPEND 0; 0=v0 2=v0 1=v0: good;",
    ),
    (
        ("keep", "c/a", "a-1;IUSE x;RDEPEND c/b[x]", WITH_FLAG),
        ": wanted; 0=v0: RDEPEND 0; 0=v0 1=v1: good;",
    ),
    (
        ("keep", "c/a", "a-2;IUSE x;REQUIRED_USE x,a-1"),
        ": wanted; 0=v0: required 0; 0=v1: good;",
    ),
    (
        ("keep", "c/b", f"{BAD_FLAGS},a-2,a-1", "b-1"),
        ": wanted; 1=v0: required 0; 1=v0 0=v0: good; 1=v0 0=v1: good; 1=v0 0=-: absence 0;",
    ),
    (
        ("keep", "c/b", BAD_FLAGS, "b-1", "c-1;RDEPEND !c/a"),
        ": wanted; 1=v0: required 0; 1=v0 0=-: absence 0; 1=v0 0=- 2=v0: good;",
    ),
    (
        ("keep", "c/a", "a-1", "+b-1;RDEPEND !c/a,b-2"),
        ": wanted; 0=v0: conflict 1 0; 0=v0 1=v0: good; 0=v0 1=-: absence 1;",
    ),
    (
        ("keep", "c/a", "a-1;RDEPEND !<c/b-2", "+b-1,b-2"),
        ": wanted; 0=v0: conflict 0 1; 0=v0 1=v0: good; 0=v0 1=-: good;",
    ),
    (
        ("keep", "c/a:0 c/a:1", "a-1", "a-1:1,a-2:1"),
        ": wanted; 0=v0: wanted; 0=v0 1=v1: good; 0=v0 1=v0: conflict 0 1;",
    ),
    (
        ("keep", "=c/a-2", "+a-1,a-2", "+c-1;RDEPEND =c/a-1,c-2"),
        ": wanted; 0=v0: RDEPEND 1; 0=v0 1=v0: good; 0=v0 1=-: absence 1;",
    ),
]


def check_walk(universe, tree):
    return check([(case("walk", *universe), tree)])


def a_block_lets_a_package_go():
    return check_walk(*BLOCKED)


def the_greater_version_comes_first():
    return check_walk(*UPDATED)


def what_is_kept_comes_first_without_an_update():
    return check_walk(*KEPT)


def what_is_broken_is_replaced():
    """A package that is installed and needs what isn't there is replaced, or it would have to go
    without a conflict."""
    return check_walk(*BROKEN)


def whole_trees():
    """Each obligation and each option, in their order."""
    return check([(case("walk", *universe), tree) for universe, tree in WHOLE_TREES])


def backtrack_limits():
    rows = [(case("resolve", "keep", str(most), "c/a", THREE), told) for most, told in LIMITS]
    return check(rows)


def jump_over_an_unrelated_choice():
    """What `a` needs isn't there, whichever `x` is chosen, so no other `x` is tried."""
    lines = ["a-1;RDEPEND c/zz", "x-2,x-1"]
    rows = [
        (case("resolve", "keep", "2", "c/x c/a", *lines), "none"),
        (case("resolve", "keep", "1", "c/x c/a", *lines), "limit| 1=v0 0=v0"),
    ]
    return check(rows)


def one_need_that_nothing_meets():
    """The greater version needs six packages, each of which may stay or be replaced, and one that
    isn't there. None of the six is to blame, so it is given up at the first dead choice."""
    names = [f"p{at}" for at in range(6)]
    needs = " ".join(f"c/{it}" for it in [*names, "zz"])
    lines = [*(f"+{it}-1,{it}-2" for it in names), f"w-2;RDEPEND {needs},w-1"]
    return check([(case("resolve", "keep", "2", "c/w", *lines), " 6=v1")])


def each_member_of_a_choice_is_to_blame():
    """What the first member asks for isn't there, and the second one asks for the version of `b`
    that isn't chosen first. The other version is tried, and serves."""
    lines = ["b-2,b-1", "x-1;RDEPEND || ( c/zz =c/b-1 )"]
    return check([(case("resolve", "keep", "10", "c/b c/x", *lines), " 0=v1 1=v0")])


def what_is_kept_can_match_too():
    """The new `b` is chosen first, and `x` needs the old one, which is installed."""
    lines = ["+b-1,b-2", "x-1;RDEPEND <c/b-2"]
    return check([(case("resolve", "update", "10", "c/b c/x", *lines), " 0=+ 1=v0")])


def flag_change_solves():
    """No variant has the flag on that the dependency asks for; then one has."""
    lines = ["a-1;IUSE x;RDEPEND c/b[x]", "b-1;IUSE x"]
    both = [lines[0], "b-1;IUSE x,b-1;IUSE x;USE x"]
    rows = [
        (case("resolve", "keep", "10", "c/a", *lines), "none"),
        (case("resolve", "keep", "10", "c/a", *both), " 0=v0 1=v1"),
    ]
    return check(rows)


def a_deep_conflict_is_found():
    """Forty names are wanted, in ten versions each; those of the last bar the greatest of the first.
    All versions of the last are tried in vain, and then the first name is the next to give way."""
    names = [f"p{at:02}" for at in range(40)]
    versions = [[f"{name}-{version}" for version in range(10, 0, -1)] for name in names]
    versions[-1] = [f"{it};RDEPEND !=c/p00-10" for it in versions[-1]]
    lines = [" ".join(f"c/{name}" for name in names), *map(",".join, versions)]
    first = "".join(f" {at}=v0" for at in range(39))
    vain = "".join(f"|{first} 39=v{at}" for at in range(10))
    found = f" 0=v1{''.join(f' {at}=v0' for at in range(1, 40))}"
    rows = [
        (case("resolve", "keep", "10", *lines), f"limit{vain}"),
        (case("resolve", "keep", "11", *lines), found),
    ]
    return check(rows)


def two_that_need_each_other():
    row = case("resolve", "keep", "10", "c/a", "a-1;RDEPEND c/b", "b-1;RDEPEND c/a")
    return check([(row, " 0=v0 1=v0")])


# Random universes over three names: a package is its version, and the names that it needs and
# blocks; a line is what is installed there, or None, and its variants.
NAMES = "abc"
TRIED = 500
LEAST = 20
DECISION = re.compile(r" (\d+)=(\+|-|v\d+)")


def random_package(rng, name, version):
    others = [it for it in NAMES if it != name]
    needs = rng.sample(others, rng.choice([0, 0, 1, 1, 2]))
    blocks = rng.sample(others, rng.choice([0, 0, 1]))
    return name, version, frozenset(needs), frozenset(blocks)


def random_line(rng, name):
    installed = random_package(rng, name, 1) if rng.random() < 0.5 else None
    versions = range(2 + rng.randint(0, 2), 1, -1)
    return installed, [random_package(rng, name, version) for version in versions]


def package_text(package):
    name, version, needs, blocks = package
    words = [f"c/{it}" for it in sorted(needs)] + [f"!c/{it}" for it in sorted(blocks)]
    return f"{name}-{version}" + (f";RDEPEND {' '.join(words)}" if words else "")


def line_text(line):
    installed, variants = line
    held = [f"+{package_text(installed)}"] if installed else []
    return ",".join(held + [package_text(it) for it in variants])


def values(line):
    """What may stand on a line, by the text of each value."""
    installed, variants = line
    held = {"+": installed} if installed else {}
    return {**held, "-": None, **{f"v{at}": it for at, it in enumerate(variants)}}


def is_solution(lines, chosen):
    """Whether `a` is there, what each package needs is there and none is blocked, and an installed
    package leaves its line only where one that is there blocks it."""
    there = [package for package in chosen if package]
    names = {name for name, _, _, _ in there}
    if "a" not in names or any(needs - names or blocks & names for _, _, needs, blocks in there):
        return False
    blocked = {name for _, _, _, blocks in there for name in blocks}
    gone = [held for (held, _), now in zip(lines, chosen) if held and not now]
    return all(held[0] in blocked for held in gone)


def has_solution(lines):
    ways = itertools.product(*(values(line).values() for line in lines))
    return any(is_solution(lines, chosen) for chosen in ways)


def chosen_by(lines, answer):
    decided = {int(line): value for line, value in DECISION.findall(answer)}
    kept = ["+" if installed else "-" for installed, _ in lines]
    return [values(line)[decided.get(at, kept[at])] for at, line in enumerate(lines)]


def check_answer(lines, answer):
    if answer == "none":
        expect(not has_solution(lines), f"there is a solution: {lines}")
    else:
        expect(is_solution(lines, chosen_by(lines, answer)), f"{answer} is no solution: {lines}")


def answers_are_solutions():
    """Each answer is a solution, and where there is none no filling of the lines is one."""
    rng = random.Random(14)
    universes = [[random_line(rng, name) for name in NAMES] for _ in range(TRIED)]
    how = ["update" if rng.random() < 0.5 else "keep" for _ in universes]
    texts = [map(line_text, lines) for lines in universes]
    rows = [case("resolve", it, "1000", "c/a", *lines) for it, lines in zip(how, texts)]
    answers = yield PROGRAM, rows
    for lines, answer in zip(universes, answers):
        check_answer(lines, answer)
    refused = answers.count("none")
    expect(LEAST <= refused <= TRIED - LEAST, f"{refused} universes have no solution")


TESTS = [
    a_block_lets_a_package_go,
    the_greater_version_comes_first,
    what_is_kept_comes_first_without_an_update,
    what_is_broken_is_replaced,
    whole_trees,
    backtrack_limits,
    jump_over_an_unrelated_choice,
    one_need_that_nothing_meets,
    each_member_of_a_choice_is_to_blame,
    what_is_kept_can_match_too,
    flag_change_solves,
    a_deep_conflict_is_found,
    two_that_need_each_other,
    answers_are_solutions,
]
