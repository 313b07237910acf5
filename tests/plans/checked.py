"""Plans over a few packages, and what the rules say of them."""
from cases import case, check

# the packages that are there, the groups, and the answer
EITHER = "u-1;RDEPEND || ( c/a c/b ),a-1"
SWAPS = [
    (EITHER, ["-a-1", "+b-1"], "unsafe u-1 RDEPEND c/a groups 1 2"),
    (EITHER, ["-a-1", "after 1,+b-1"], "unsafe u-1 RDEPEND c/a groups 1 2"),
    (EITHER, ["-a-1,+b-1"], "ok"),
    (EITHER, ["+b-1", "after 1,-a-1"], "ok"),
]
STRONG_BLOCKS = [
    ("old-1", ["-old-1,+new-1;RDEPEND !!c/old"], "barred 1 new-1 old-1"),
    ("old-1", ["-old-1", "after 1,+new-1;RDEPEND !!c/old"], "ok"),
    ("old-1", ["-old-1", "+new-1;RDEPEND !!c/old"], "barred 2 new-1 old-1"),
    ("old-1", ["-old-1", "+new-1;BDEPEND !c/old"], "barred 2 new-1 old-1"),
]
WEAK_BLOCKS = [
    ("old-1", ["-old-1,+new-1;RDEPEND !c/old"], "ok"),
    ("b-1", ["+a-1;RDEPEND !c/b"], "blocked a-1 b-1"),
    ("a-1;PDEPEND !c/b", ["+b-1"], "blocked a-1 b-1"),
]
BUILT = "lib-1:0/1,app-1;RDEPEND c/lib:0/1="
REBUILDS = [
    (BUILT, ["-lib-1,+lib-2:0/2"], "unsatisfied 0 app-1 RDEPEND c/lib:0/1="),
    (BUILT, ["-app-1,-lib-1,+app-1;RDEPEND c/lib:0/2=,+lib-2:0/2"], "ok"),
    ("p-1", ["-p-1,+p-2", "after 1,-p-2,+p-3;RDEPEND c/p:0/0="], "ok"),
]
MISSING = [
    ("u-1;RDEPEND c/v,v-1", ["-v-1"], "unsatisfied 0 u-1 RDEPEND c/v"),
    ("v-1", ["+u-1;RDEPEND c/v", "-v-1"], "unsatisfied 1 u-1 RDEPEND c/v"),
    ("v-1", ["+u-1;RDEPEND c/v", "-v-1", "after 1,-u-1"], "unsafe u-1 RDEPEND c/v groups 2"),
]
LINES = [
    ("a-1", ["-a-1", "+a-2"], "line c/a:0 1 2"),
    ("b-1,a-1", ["-b-1", "-a-1", "+b-2", "+a-2", "+a-3"], "line c/a:0 2 4"),
    ("a-1", ["-a-2"], "absent 1 a-2"),
    ("a-1:1", ["-a-1"], "absent 1 a-1"),
    ("a-1", ["-a-1", "after 1,-a-1"], "absent 2 a-1"),
    ("a-1", ["-a-1", "after 1,+b-1", "after 2,+a-2:0/2"], "ok"),
]
OCCUPIED = [
    ("b-1,a-1", ["+a-2"], "occupied 1 a-2 a-1"),
    ("b-1", ["+a-1", "+c-1,+a-3:2,+a-2:2"], "occupied 2 a-3 a-2"),
    ("a-1", ["+a-1:1"], "occupied 1 a-1 a-1"),
    ("b-1", ["+a-1", "+a-1:1"], "occupied 1 a-1 a-1"),
]
OPENINGS = [
    ("u-1;RDEPEND c/v", ["+v-1"], "opening lacks u-1 c/v"),
    ("a-1,b-1;RDEPEND !c/a", ["-a-1"], "opening blocks a-1 b-1"),
    ("a-1;REQUIRED_USE x", ["-a-1"], "opening flags a-1"),
    ("a-1,a-2", ["+b-1"], "opening twice a-1 a-2"),
]
BUILDS = [
    ("z-1", ["+b-1", "+a-1;DEPEND c/b"], "build 2 a-1 DEPEND c/b"),
    ("z-1", ["+b-1", "after 1,+a-1;DEPEND c/b"], "ok"),
    ("z-1", ["+a-1;BDEPEND c/b,+b-1"], "build 1 a-1 BDEPEND c/b"),
    ("b-1", ["-b-1,+a-1;IDEPEND c/b"], "ok"),
    ("b-1", ["-b-1", "+a-1;IDEPEND c/b"], "build 2 a-1 IDEPEND c/b"),
]
LATER = [
    ("z-1", ["+a-1;PDEPEND c/p"], "final a-1 c/p"),
    ("z-1", ["+a-1;PDEPEND c/p", "+p-1"], "ok"),
    ("z-1", ["+a-1;REQUIRED_USE x"], "flags a-1"),
    ("z-1", ["+a-1;RDEPEND || ( )"], "unsatisfied 1 a-1 RDEPEND -"),
    ("z-1", ["+a-1;RDEPEND x? ( c/b )"], "ok"),
]
# Groups without members, by the package's edition.
EMPTY = [
    ("z-1", ["+a-1;EAPI 5;RDEPEND || ( )"], "ok"),
    ("z-1", ["+a-1;EAPI 6;IUSE x;RDEPEND || ( x? ( c/d ) )"], "ok"),
    (
        "z-1",
        ["+a-1;EAPI 6;IUSE x;USE x;RDEPEND || ( x? ( c/d ) )"],
        "unsatisfied 1 a-1 RDEPEND c/d",
    ),
    ("z-1", ["+a-1;EAPI 7;RDEPEND || ( )"], "unsatisfied 1 a-1 RDEPEND -"),
    ("z-1", ["+a-1;EAPI 6;RDEPEND || ( ) || ( c/d )"], "unsatisfied 1 a-1 RDEPEND c/d"),
    ("z-1", ["+a-1;EAPI 6;DEPEND || ( )"], "ok"),
    ("z-1", ["+a-1;DEPEND || ( )"], "build 1 a-1 DEPEND -"),
    ("z-1", ["+a-1;EAPI 6;PDEPEND || ( )"], "ok"),
    ("z-1", ["+a-1;PDEPEND || ( )"], "final a-1 -"),
    ("z-1;EAPI 6;RDEPEND || ( )", ["+a-1;RDEPEND c/z"], "ok"),
    ("z-1;EAPI 8;RDEPEND || ( )", ["+a-1"], "opening lacks z-1 -"),
    ("z-1", ["+a-1;EAPI 6;REQUIRED_USE ^^ ( )"], "ok"),
    ("z-1", ["+a-1;EAPI 7;REQUIRED_USE ^^ ( )"], "flags a-1"),
]
PAIRS = [
    ("z-1", ["+a-1;RDEPEND c/b,+b-1;RDEPEND c/a"], "ok"),
    (
        "z-1",
        ["+a-1;RDEPEND c/b", "after 1,+b-1;RDEPEND c/a"],
        "unsatisfied 1 a-1 RDEPEND c/b",
    ),
]


def check_groups(rows):
    rows = [(case("check", installed, *groups), told) for installed, groups, told in rows]
    return check(rows)


def unsafe_swap():
    return check_groups(SWAPS)


def strong_block_needs_two_groups():
    return check_groups(STRONG_BLOCKS)


def weak_blocks():
    return check_groups(WEAK_BLOCKS)


def slot_operator_rebuild():
    return check_groups(REBUILDS)


def what_is_missing_at_the_end():
    return check_groups(MISSING)


def lines_that_change():
    return check_groups(LINES)


def lines_that_are_taken():
    return check_groups(OCCUPIED)


def what_is_broken_to_begin_with():
    return check_groups(OPENINGS)


def what_a_build_wants():
    return check_groups(BUILDS)


def what_an_addition_wants_later():
    return check_groups(LATER)


def groups_without_members():
    return check_groups(EMPTY)


def two_that_need_each_other():
    return check_groups(PAIRS)


def many_groups_in_a_line():
    """Groups in a line: each waits for the one before, and brings what needs its package."""
    groups = ["+p0-1;RDEPEND c/z"]
    groups += [f"after {n},+p{n}-1;RDEPEND c/p{n - 1}" for n in range(1, 400)]
    return check_groups([("z-1", groups, "ok")])


def groups_wait_for_earlier_ones():
    return check_groups([("z-1", ["after 1,+a-1"], "not in form"), ("z-1", [], "ok")])


TESTS = [
    unsafe_swap,
    strong_block_needs_two_groups,
    weak_blocks,
    slot_operator_rebuild,
    what_is_missing_at_the_end,
    lines_that_change,
    lines_that_are_taken,
    what_is_broken_to_begin_with,
    what_a_build_wants,
    what_an_addition_wants_later,
    groups_without_members,
    two_that_need_each_other,
    many_groups_in_a_line,
    groups_wait_for_earlier_ones,
]
