"""Texts of plans whose binds are judged: one for each leaf that asks, that of the greatest package
beside the addition."""
from cases import case, check, plan_text

APP = "app-1;RDEPEND c/lib:="
IN_SLOT = "app-1;RDEPEND c/lib:0="
TWO = "app-1;RDEPEND c/a:= c/b:="
BOUND = "[ ],+app-1:0/0;RDEPEND c/lib:0/1="

# the packages that are there, those that are offered, the groups, and the answer
WRONG = [
    ("lib-1:0/1", APP, "add c/app-1:0/0,bind 0/1", BOUND),
    ("lib-1:0/1", APP, "add c/app-1:0/0,bind 0/2", "binding app-1 c/lib:= 0/2"),
    ("lib-1:0/1", APP, "add c/app-1:0/0,bind 1/1", "binding app-1 c/lib:= 1/1"),
    ("a-1:0/1,b-1:0/2", TWO, "add c/app-1:0/0,bind 0/1,bind 0/3", "binding app-1 c/b:= 0/3"),
    ("a-1:0/1,b-1:0/2", TWO, "add c/app-1:0/0,bind 0/2,bind 0/1", "binding app-1 c/a:= 0/2"),
]

# a bind too few, and one too many
COUNTED = [
    ("lib-1:0/1", APP, "add c/app-1:0/0", "binding app-1 c/lib:= -"),
    ("a-1:0/1,b-1:0/2", TWO, "add c/app-1:0/0,bind 0/1", "binding app-1 c/b:= -"),
    ("lib-1:0/1", APP, "add c/app-1:0/0,bind 0/1,bind 0/1", "binding app-1 - 0/1"),
    ("lib-1:0/1", "app-1;RDEPEND c/lib", "add c/app-1:0/0,bind 0/1", "binding app-1 - 0/1"),
    ("lib-1:0/1", "app-1;DEPEND c/lib:=", "add c/app-1:0/0,bind 0/1", "binding app-1 - 0/1"),
    (
        "lib-1:0/1",
        "app-1;RDEPEND || ( c/lib:= )",
        "add c/app-1:0/0,bind 0/1",
        "binding app-1 - 0/1",
    ),
]

# of packages on several lines the greatest, and of two greatest the one on the smaller line
LINES = [
    ("lib-1:0/1,lib-2:1/5", APP, "add c/app-1:0/0,bind 0/1", "binding app-1 c/lib:= 0/1"),
    ("lib-2:0/1,lib-1:1/5", APP, "add c/app-1:0/0,bind 0/1", BOUND),
    ("lib-1:0/1,lib-2:1/5", IN_SLOT, "add c/app-1:0/0,bind 0/1", BOUND),
    ("lib-1:0/1,lib-2:1/5", IN_SLOT, "add c/app-1:0/0,bind 1/5", "binding app-1 c/lib:0= 1/5"),
    ("lib-1:1/5,lib-1-r0:0/1", APP, "add c/app-1:0/0,bind 0/1", BOUND),
    ("lib-1-r0:0/1,lib-1:1/5", APP, "add c/app-1:0/0,bind 1/5", "binding app-1 c/lib:= 1/5"),
    ("lib-9:0/1,lib-10:1/5", APP, "add c/app-1:0/0,bind 0/1", "binding app-1 c/lib:= 0/1"),
]

# what goes with the group, or comes behind it, isn't beside it; what may come before it is
AFTER = f"{APP},lib-2:1/5"
BESIDE = [
    (
        "lib-1:0/1",
        f"{APP},lib-2:0/2",
        "remove c/lib-1:0,add c/app-1:0/0,bind 0/1,add c/lib-2:0/2",
        "binding app-1 c/lib:= 0/1",
    ),
    (
        "lib-1:0/1",
        AFTER,
        "add c/app-1:0/0,bind 0/1;after 1,add c/lib-2:1/5",
        f"{BOUND}[ 0 ],+lib-2:1/5",
    ),
    ("lib-1:0/1", AFTER, "add c/app-1:0/0,bind 0/1;add c/lib-2:1/5", "binding app-1 c/lib:= 0/1"),
    (
        "lib-1:0/1",
        AFTER,
        "add c/app-1:0/0,bind 1/5;add c/lib-2:1/5",
        "unsatisfied 1 app-1 RDEPEND c/lib:1/5=",
    ),
    (
        "lib-1:0/1",
        AFTER,
        "add c/lib-2:1/5;after 1,add c/app-1:0/0,bind 1/5",
        "[ ],+lib-2:1/5[ 0 ],+app-1:0/0;RDEPEND c/lib:1/5=",
    ),
]

# two versions that are equal, on one line one after the other: the first in the order of packages
REPLACED = "remove c/lib-1:0,add c/lib-1-r0:0/2"
ONE_LINE = [
    (
        "lib-1:0/1",
        f"{APP},lib-1-r0:0/2",
        f"{REPLACED};add c/app-1:0/0,bind 0/2",
        "binding app-1 c/lib:= 0/2",
    ),
    (
        "lib-1:0/1",
        f"{APP},lib-1-r0:0/2",
        f"{REPLACED};add c/app-1:0/0,bind 0/1",
        "unsatisfied 2 app-1 RDEPEND c/lib:0/1=",
    ),
]

# where no package matches, any bind passes, and the next rule is heard
NONE = [
    ("z-1", APP, "add c/app-1:0/0,bind 7/7", "unsatisfied 1 app-1 RDEPEND c/lib:7/7="),
    ("lib-1:1/1", IN_SLOT, "add c/app-1:0/0,bind 7/7", "unsatisfied 1 app-1 RDEPEND c/lib:0/7="),
    ("z-1", APP, "add c/app-1:0/0", "binding app-1 c/lib:= -"),
]

# flags are judged before binds, and packages in their order
TURNS = [
    ("lib-1:0/1", f"{APP};IUSE x;REQUIRED_USE x", "add c/app-1:0/0,bind 0/2", "flags app-1"),
    (
        "lib-1:0/1",
        f"{APP},bar-1;RDEPEND c/zz",
        "add c/app-1:0/0,bind 0/2,add c/bar-1:0/0",
        "binding app-1 c/lib:= 0/2",
    ),
    (
        "lib-1:0/1",
        f"{APP};IUSE x;REQUIRED_USE x,bar-1;RDEPEND c/lib:=",
        "add c/app-1:0/0,bind 0/1;add c/bar-1:0/0,bind 0/2",
        "flags app-1",
    ),
    (
        "lib-1:0/1",
        f"{APP},bar-1;RDEPEND c/lib:=",
        "add c/app-1:0/0,bind 0/1;add c/bar-1:0/0,bind 0/2",
        "binding bar-1 c/lib:= 0/2",
    ),
]


def judged(rows):
    return check(
        [
            (case("judge", installed, offered, plan_text(groups)), told)
            for installed, offered, groups, told in rows
        ]
    )


def wrong_bind_is_told():
    return judged(WRONG)


def each_leaf_has_one_bind():
    return judged(COUNTED)


def of_lines_the_greatest_is_bound():
    return judged(LINES)


def what_stands_beside_is_bound():
    return judged(BESIDE)


def of_one_line_the_first_is_bound():
    return judged(ONE_LINE)


def any_bind_passes_where_none_matches():
    return judged(NONE)


def binds_are_judged_in_turn():
    return judged(TURNS)


TESTS = [
    wrong_bind_is_told,
    each_leaf_has_one_bind,
    of_lines_the_greatest_is_bound,
    what_stands_beside_is_bound,
    of_one_line_the_first_is_bound,
    any_bind_passes_where_none_matches,
    binds_are_judged_in_turn,
]
