"""Packages and atoms: read, printed, matched and bound (PMS 8.3)."""
from lines import pairs, rows

# Atoms of every form of PMS 8.3, each in its one spelling. Those of the first paragraph are valid
# in Portage's own tests of atoms too.
ATOMS = """
    sys-apps/portage =sys-apps/portage-2.1 =sys-apps/portage-2.1* ~sys-apps/portage-2.1
    sys-apps/portage:foo =sys-apps/portage-2.1:foo
    >=sys-apps/portage-2.1:foo[bar?,!baz?,!doc=,build=] sys-apps/portage[build(+)?]
    =app-doc/php-docs-20071125-r2 !!>sys-apps/portage-2.1

    c/p dev-libs/icu virtual/x11 c+/p+ c/p-x c/p-x1 A_1.b/p_q
    !c/p !!c/p !<c/p-1 !!>=c/p-1:0
    <c/p-1 <=c/p-1.2 =c/p-1-r0 ~c/p-01a >=c/p-1_p >c/p-1_rc2-r3 =c/p+-1
    =c/p-q-1.2.3_alpha4_beta-r5
    =c/p-1* =c/p-1.2_p* =c/p-1-r1* =c/p-1*:0[x]
    c/p:0 c/p:0/1 c/p:* c/p:= c/p:0= c/p:0/1= c/p:3.12/x_y-z+
    c/p[x] c/p[-x] c/p[x=] c/p[!x=] c/p[x?] c/p[!x?] c/p[x,-y,z=,!u=,v?,!w?]
    c/p[x(+)] c/p[x(-)] c/p[-x(+)] c/p[x(-)=] c/p[!x(+)=] c/p[x(+)?,!y(-)?]
    c/p:0[x] c/p:=[x] c/p:*[-x,y] !!~c-d/p_q-r-1.2.3_alpha4-r5:6/7=[a,-b(+),!c(-)?]
"""

# Pairs of an atom and a package that it matches, of which PMS 8.3.1 and 8.3.3 tell. Those of
# portage, pkg and udev have the same answers in Portage's own tests.
MATCHES = """
    =c/portage-45*|portage-045 !!=c/portage-45*|portage-045 ~c/portage-045|portage-045-r1
    <=c/portage-045|portage-045 <c/portage-046|portage-045 >c/portage-044|portage-045
    =c/udev-123*|udev-123

    c/p|p-1 <c/p-2|p-1.9 <c/p-1|p-1_rc1 <=c/p-2|p-2 <=c/p-2|p-2-r0 =c/p-1.0|p-1.00 =c/p-1|p-1-r0
    ~c/p-1|p-1-r3 ~c/p-1-r2|p-1 >=c/p-1|p-1 >=c/p-1|p-1_p >c/p-1|p-1-r1 >c/p-1.9|p-1.10 !<c/p-2|p-1

    =c/p-1.2*|p-1.2 =c/p-1.2*|p-1.2.3 =c/p-1.2*|p-1.2a =c/p-1.2*|p-1.2-r4 =c/p-1_alpha*|p-1_alpha3

    c/p|p-1:0/1 c/p:*|p-1:0/1 c/p:=|p-1:7/7 c/p:0|p-1:0/1 c/p:0/1|p-1:0/1 c/p:0=|p-1:0/1
    c/p:0/1=|p-1:0/1
"""

# Pairs of an atom and a package that it doesn't match.
MISSES = """
    =c/portage-045|portage-046 ~c/portage-045|portage-046-r1 >=c/portage-047|portage-046-r1
    <c/portage-046|portage-046 =c/pkg-1-r1*|pkg-1_alpha1 =c/udev-1*|udev-123

    c/p|q-1 d/p|p-1 <c/p-2|p-2 <c/p-2|p-2-r1 <=c/p-2|p-2-r1 =c/p-1|p-1-r1 =c/p-1|p-1.0
    ~c/p-1|p-1.0-r3 ~c/p-1|p-1a >=c/p-1|p-1_rc9 >c/p-1|p-1-r0 >c/p-1|p-0.9 !c/p|q-1

    =c/p-1.2*|p-1.20 =c/p-1.2*|p-1.02 =c/p-1.2*|p-1 =c/p-1.2*|q-1.2

    c/p:0|p-1:1/0 c/p:1|p-1:0/1 c/p:0/1|p-1:0/0 c/p:0/1|p-1:1/1 c/p:0=|p-1:1/0 c/p:0/1=|p-1:0/0
"""

NO_NAME = "no category and package name"
NO_VERSION = "no version behind the package name"


def atoms_are_printed_as_they_are_written():
    return rows("atom", [(atom, atom) for atom in ATOMS.split()])


def first_faults():
    table = [
        ("p c/ /p c/p/q !!!c/p -c/p =-c/p-1 c/p* [x] c/p.q", NO_NAME),
        ("-c/p-1 /p-1 p-1 c/a-1-2 =x-3d/p! =c/p!-1 =c/p!-1! >=/p-1. =x-3d/-1", NO_NAME),
        (
            "c/p-1 !c/p-1.2-r3:0 c/p-1:= c/p-1[x] sys-apps/portage-2.1:foo virtual/ffmpeg-0.10.3",
            "a version without an operator",
        ),
        ("=c/p ~c/p-x >=c/p:0 <c/p-1-rx !>c/p", "an operator without a version"),
        ("=c/p-1. <c/p-1.x =c/p-1!-2 =c/a-1-2", NO_VERSION),
        (">=c/p-1* ~c/p-1*[x] <c/p-1*:0", "an asterisk where none may stand"),
        ("c/p: c/p:0/ c/p:-1 c/p:0== c/p:: c/p:*= c/p:/1 c/p:0/1/2", "no slot part"),
        ("c/p[] c/p[!x] c/p[-x=,y] c/p[(+)]", "no USE item at 4"),
        ("c/p[x c/p[x]y c/p[x][y]", "no USE item at 5"),
        ("c/p[x,!y] c/p[x,,y] c/p[x,y=?]", "no USE item at 6"),
        ("c/p:0[x,y(*)] c/p:0[x,]", "no USE item at 8"),
    ]
    read = [(text, words) for texts, words in table for text in texts.split()]
    return rows("atom", read + [("a b/p-1", NO_NAME)])


def packages_that_atoms_match():
    return pairs("matches", MATCHES, "|", "yes") + pairs("matches", MISSES, "|", "no")


def use_dependency_matches():
    # In which states of x the package is accepted, by an asker with x and by one without: with x on
    # (+), with x off (-), and where the package doesn't know x (?).
    table = [
        ("c/p[x]", "+", "+"),
        ("c/p[-x]", "-", "-"),
        ("c/p[x=]", "+", "-"),
        ("c/p[!x=]", "-", "+"),
        ("c/p[x?]", "+", "+-"),
        ("c/p[!x?]", "+-", "-"),
        ("c/p[x(+)]", "+?", "+?"),
        ("c/p[-x(-)]", "-?", "-?"),
        ("c/p[-x(+)]", "-", "-"),
        ("c/p[x(+)=]", "+?", "-"),
        ("c/p[!x(-)=]", "-?", "+"),
        ("c/p[x(-)?]", "+", "+-?"),
        ("c/p[!x(-)?]", "+-?", "-?"),
        ("c/p[x,y(-)]", "", ""),
        ("c/p[x,-y(-)]", "+", "+"),
    ]
    read = []
    for atom, by_one_with, by_one_without in table:
        read += states(atom, "x", by_one_with) + states(atom, "", by_one_without)
    return rows("matches", read)


def states(atom, asker, accepted):
    """A row for each state of x in the package."""
    iuse = {"+": "+x", "-": "x", "?": ""}
    return [(atom, "p-1", iuse[it], asker, "yes" if it in accepted else "no") for it in "+-?"]


def atoms_with_a_bound_slot():
    table = [
        ("c/d:=", "c/d:0/74="),
        (">=c/d-1:=[x]", ">=c/d-1:0/74=[x]"),
        ("!c/d:5=", "!c/d:0/74="),
        ("c/d:0/1=", "c/d:0/74="),
        ("c/d", "c/d:0/74"),
        ("c/d:*[-x,y(+)?]", "c/d:0/74[-x,y(+)?]"),
        ("=c/d-1*:0", "=c/d-1*:0/74"),
    ]
    return rows("bound", [(atom, "0/74", bound) for atom, bound in table])


def packages_and_their_first_faults():
    table = [
        ("c", "p-x-1.2_p3-r4", "c/p-x-1.2_p3-r4"),
        ("app-doc", "php-docs-20071125-r2", "app-doc/php-docs-20071125-r2"),
        ("c", "p", NO_VERSION),
        ("c", "p-1.", NO_VERSION),
        ("c", "a-1-2", NO_VERSION),
        ("c", "p-1!", NO_VERSION),
        ("c", "-1", NO_NAME),
        ("c", "p!", NO_NAME),
        ("c", "p!-1", NO_NAME),
        ("c", "a/b-1", NO_NAME),
        ("-c", "p-1", NO_NAME),
    ]
    return rows("id", table)


def names_of_255_bytes():
    longest, too_long = with_names_of(255), with_names_of(256)
    return rows("atom", [(longest, longest), (too_long, NO_NAME)])


def with_names_of(length):
    """An atom each of whose names has so many bytes."""
    name = "a" * length
    return f">={name}/{name}-1:{name}/{name}=[{name}(+)?]"


def a_use_list_of_64_kib():
    atom = f"c/p[x{',x' * 32_768}]"
    return rows("atom", [(atom, atom)])


TESTS = [
    atoms_are_printed_as_they_are_written,
    first_faults,
    packages_that_atoms_match,
    use_dependency_matches,
    atoms_with_a_bound_slot,
    packages_and_their_first_faults,
    names_of_255_bytes,
    a_use_list_of_64_kib,
]
