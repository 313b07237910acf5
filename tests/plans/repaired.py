"""Plans of one group over packages that don't go together."""
from cases import case, check, plan_text

# the packages that are there, those that are offered, and groups that mend what is broken
MENDED = [
    ("u-1;RDEPEND c/v", "v-1", "add c/v-1:0/0", "ok"),
    ("u-1;RDEPEND c/v", "v-1", "remove c/u-1:0", "ok"),
    ("a-1,b-1;RDEPEND !c/a", "v-1", "remove c/a-1:0", "ok"),
    (
        "lib-2:0/2,app-1;RDEPEND c/lib:0/1=",
        "app-1;RDEPEND c/lib:=",
        "remove c/app-1:0,add c/app-1:0/0,bind 0/2",
        "ok",
    ),
    ("a-1", "v-1", "", "ok"),
]

# groups behind which something is still broken
BROKEN = [
    ("u-1;RDEPEND c/v", "w-1", "add c/w-1:0/0", "unsatisfied 0 u-1 RDEPEND c/v"),
    ("t-1;RDEPEND c/v,s-1;RDEPEND c/z", "w-1", "", "unsatisfied 0 s-1 RDEPEND c/z"),
    ("a-1,b-1;RDEPEND !c/a", "w-1", "add c/w-1:0/0", "blocked b-1 a-1"),
    ("a-1;REQUIRED_USE x", "w-1", "add c/w-1:0/0", "flags a-1"),
    ("a-1,a-2", "w-1", "remove c/a-1:0", "opening twice a-1 a-2"),
]

# groups whose packages don't fit, whatever else is broken
UNFIT = [
    ("u-1;RDEPEND c/v", "v-2", "remove c/v-1:0,add c/v-2:0/0", "absent 1 v-1"),
    ("u-1;RDEPEND c/x,v-1", "v-2", "add c/v-2:0/0", "occupied 1 v-2 v-1"),
    ("u-1;RDEPEND c/x", "v-1;REQUIRED_USE x", "add c/v-1:0/0", "flags v-1"),
    ("u-1;RDEPEND c/x", "v-1;RDEPEND c/w", "add c/v-1:0/0", "unsatisfied 1 v-1 RDEPEND c/w"),
    ("u-1;RDEPEND c/x,w-1", "v-1;RDEPEND !c/w", "add c/v-1:0/0", "blocked v-1 w-1"),
    (
        "u-1;RDEPEND c/v,w-1",
        "v-1;RDEPEND !!c/w",
        "remove c/w-1:0,add c/v-1:0/0",
        "barred 1 v-1 w-1",
    ),
    ("u-1;RDEPEND c/v", "v-1;BDEPEND c/w", "add c/v-1:0/0", "build 1 v-1 BDEPEND c/w"),
    ("u-1;RDEPEND c/v", "v-1;PDEPEND c/w", "add c/v-1:0/0", "final v-1 c/w"),
    (
        "lib-2:0/2,app-1;RDEPEND c/lib:0/1=",
        "app-1;RDEPEND c/lib:=",
        "remove c/app-1:0,add c/app-1:0/0,bind 0/1",
        "binding app-1 c/lib:= 0/1",
    ),
]


def repairs(rows):
    return [
        (case("repair", installed, offered, plan_text(groups)), told)
        for installed, offered, groups, told in rows
    ]


def repair_of_a_broken_opening():
    text = plan_text("add c/v-1:0/0")
    refused = (case("judge", "u-1;RDEPEND c/v", "v-1", text), "opening lacks u-1 c/v")
    return check([refused, *repairs(MENDED)])


def what_is_broken_behind_a_group():
    return check(repairs(BROKEN))


def what_comes_is_judged_first():
    return check(repairs(UNFIT))


TESTS = [repair_of_a_broken_opening, what_is_broken_behind_a_group, what_comes_is_judged_first]
