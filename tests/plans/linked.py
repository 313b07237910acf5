"""Texts of plans that are linked to the packages that are offered, and judged."""
from cases import case, check, plan_text

# the packages that are offered, the groups of the text, and what they stand for
MEANT = [
    ("a-1,p-1,p-2", "add c/p-2:0/0", "[ ],+p-2:0/0"),
    ("p-1:0/0,p-1:1/0,p-1:1/2", "add c/p-1:1/2", "[ ],+p-1:1/2"),
    ("p-1;RDEPEND c/a,p-1;RDEPEND c/b", "add c/p-1:0/0", "[ ],+p-1:0/0;RDEPEND c/a"),
    ("p-1;IUSE x y;USE kernel", "add c/p-1:0/0 x", "[ ],+p-1:0/0 kernel x"),
    ("p-1;IUSE kernel x;USE kernel", "add c/p-1:0/0 kernel x", "[ ],+p-1:0/0 kernel x"),
    ("p-1", "remove c/q-7:1", "[ ],-q-7:1"),
    (
        "p-1,p-2,q-1",
        "add c/p-1:0/0;after 1,remove c/p-1:0,add c/p-2:0/0,add c/q-1:0/0",
        "[ ],+p-1:0/0[ 0 ],-p-1:0,+p-2:0/0,+q-1:0/0",
    ),
    (
        "p-1",
        "remove c/a-1:0;remove c/b-1:0;after 1 2,remove c/d-1:0",
        "[ ],-a-1:0[ ],-b-1:0[ 0 1 ],-d-1:0",
    ),
]

# which leaves take a bind
BINDS = [
    ("p-1;RDEPEND c/a:= c/b", "add c/p-1:0/0,bind 2/3", "[ ],+p-1:0/0;RDEPEND c/a:2/3= c/b"),
    ("p-1;RDEPEND c/a:0= c/b:4", "add c/p-1:0/0,bind 1/5", "[ ],+p-1:0/0;RDEPEND c/a:0/5= c/b:4"),
    (
        "p-1;RDEPEND || ( c/a:= c/b:0= ) c/d:=",
        "add c/p-1:0/0,bind 0/1",
        "[ ],+p-1:0/0;RDEPEND || ( c/a c/b:0 ) c/d:0/1=",
    ),
    (
        "p-1;IUSE x;RDEPEND x? ( c/a:= ) !x? ( c/b:= ) c/d:=",
        "add c/p-1:0/0,bind 0/1,bind 0/2",
        "[ ],+p-1:0/0;RDEPEND x? ( c/a ) !x? ( c/b:0/1= ) c/d:0/2=",
    ),
    (
        "p-1;IUSE x;RDEPEND x? ( c/a:= ) !x? ( c/b:= ) c/d:=",
        "add c/p-1:0/0 x,bind 0/1,bind 0/2",
        "[ ],+p-1:0/0 x;RDEPEND x? ( c/a:0/1= ) !x? ( c/b ) c/d:0/2=",
    ),
    (
        "p-1;RDEPEND !c/a:= !!c/b:0= ( c/d:= )",
        "add c/p-1:0/0,bind 0/1",
        "[ ],+p-1:0/0;RDEPEND !c/a !!c/b:0 ( c/d:0/1= )",
    ),
    (
        "p-1;RDEPEND c/a:= c/b:0= c/d:=",
        "add c/p-1:0/0,bind 0/1",
        "[ ],+p-1:0/0;RDEPEND c/a:0/1= c/b:0 c/d",
    ),
    (
        "p-1;RDEPEND c/a:* c/b:0/3= c/d:=",
        "add c/p-1:0/0,bind 0/1,bind 0/2",
        "[ ],+p-1:0/0;RDEPEND c/a:* c/b:0/3= c/d:0/1=",
    ),
]

# what becomes of slot operators in other classes, and of binds of two packages
APART = [
    (
        "p-1;DEPEND c/a:=;BDEPEND c/b:0=;IDEPEND c/d:0/1=;PDEPEND c/e:=;RDEPEND c/a:=",
        "add c/p-1:0/0,bind 0/1",
        "[ ],+p-1:0/0;RDEPEND c/a:0/1=;PDEPEND c/e;DEPEND c/a;BDEPEND c/b:0;IDEPEND c/d:0/1=",
    ),
    (
        "p-1;RDEPEND c/a:= c/b:=,q-1;RDEPEND c/a:=",
        "add c/p-1:0/0,bind 0/1,add c/q-1:0/0,bind 0/2",
        "[ ],+p-1:0/0;RDEPEND c/a:0/1= c/b,+q-1:0/0;RDEPEND c/a:0/2=",
    ),
]

# additions that no plan has, and the first of two
FAULTY = [
    ("p-1", "add c/p-2:0/0", "none 1 p-2"),
    ("p-1.0", "add c/p-1:0/0", "none 1 p-1"),
    ("p-1:0/1", "add c/p-1:0/0", "none 1 p-1"),
    ("p-1:1/0", "add c/p-1:0/0", "none 1 p-1"),
    ("p-1;IUSE x", "add c/p-1:0/0 x y z", "flag 1 p-1 y"),
    ("p-1;IUSE x;USE kernel", "add c/p-1:0/0 kernel", "flag 1 p-1 kernel"),
    ("p-1", "add c/o-1:0/0 x,add c/p-1:0/0 x", "none 1 o-1"),
    ("p-1", "add c/p-1:0/0 x;add c/a-1:0/0", "flag 1 p-1 x"),
    ("p-1,q-1;IUSE y", "add c/p-1:0/0;remove c/z-9:0,add c/q-1:0/0 x y", "flag 2 q-1 x"),
]


def check_links(rows):
    rows = [(case("link", offered, plan_text(text)), told) for offered, text, told in rows]
    return check(rows)


def packages_that_are_meant():
    return check_links(MEANT)


def leaves_that_are_bound():
    return check_links(BINDS)


def binds_are_of_run_time_and_of_one_package():
    return check_links(APART)


def the_first_faulty_addition_is_told():
    return check_links(FAULTY)


def plan_file_without_groups():
    rows = [
        (case("judge", "a-1", "p-1", "plan 1\n"), ""),
        (case("judge", "a-1", "p-1", ""), "Line 1"),
    ]
    return check(rows)


# a library and what was built against it, what is offered, and texts over them
LIBRARY = "lib-1:0/1,app-1;RDEPEND c/lib:0/1="
NEWER = "lib-2:0/2,app-1;RDEPEND c/lib:=;DEPEND c/lib:="
REBUILDS = [
    ("remove c/lib-1:0,add c/lib-2:0/2", "unsatisfied 0 app-1 RDEPEND c/lib:0/1="),
    (
        "remove c/app-1:0,remove c/lib-1:0,add c/app-1:0/0,bind 0/2,add c/lib-2:0/2",
        "[ ],-app-1:0,-lib-1:0,+app-1:0/0;RDEPEND c/lib:0/2=;DEPEND c/lib,+lib-2:0/2",
    ),
    (
        "remove c/app-1:0,remove c/lib-1:0,add c/app-1:0/0,bind 0/1,add c/lib-2:0/2",
        "binding app-1 c/lib:= 0/1",
    ),
]


def slot_operator_rebuild():
    texts = [(plan_text(groups), told) for groups, told in REBUILDS]
    return check([(case("judge", LIBRARY, NEWER, text), told) for text, told in texts])


def the_fault_of_the_text_comes_first():
    """Of a text with several faults that of its lines comes first, then that of its additions."""
    early = plan_text("add c/q-1:0/0;after 2,remove c/a-1:0")
    late = plan_text("remove c/b-1:0;add c/q-1:0/0")
    rows = [
        (case("judge", "a-1", "p-1", early), "NotBefore 5"),
        (case("judge", "a-1", "p-1", late), "none 2 q-1"),
    ]
    return check(rows)


def many_groups_over_many_packages():
    """Packages p0 to p2000, each of which needs the one before; 400 groups bring the last of them,
    each of which waits for the one before."""
    offered = ",".join(["p0-1", *(f"p{n + 1}-1;RDEPEND c/p{n}:=" for n in range(2_000))])
    groups = [f"add c/p{n}-1:0/0,bind 0/{7 if n == 1_601 else 0}" for n in range(1_601, 2_001)]
    groups[1:] = [f"after {at},{group}" for at, group in enumerate(groups[1:], 1)]
    told = [f",+p{n}-1:0/0;RDEPEND c/p{n - 1}:0/0=" for n in range(1_601, 2_001)]
    told[0] = ",+p1601-1:0/0;RDEPEND c/p1600:0/7="
    whole = "[ ]" + told[0] + "".join(f"[ {at} ]{it}" for at, it in enumerate(told[1:]))
    text = plan_text(";".join(groups))
    return check([(case("judge", "p1600-1:0/7", offered, text), whole)])


TESTS = [
    packages_that_are_meant,
    leaves_that_are_bound,
    binds_are_of_run_time_and_of_one_package,
    the_first_faulty_addition_is_told,
    plan_file_without_groups,
    slot_operator_rebuild,
    the_fault_of_the_text_comes_first,
    many_groups_over_many_packages,
]
