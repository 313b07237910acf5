"""Runs over trees in which packages are installed."""
from trees import DONE, ONE, case, check, offered, text_file, told_each, tree_of


def record_file(row):
    """A file of the database, of a row with its path in there and, behind a space, its one line,
    if it has one."""
    path, _, value = row.partition(" ")
    return {f"var/db/pkg/{path}": text_file(f"{value}\n" if value else "")}


def tree_with(rows):
    """A tree with the candidates `c/p-1` and `c/v-1`, in which `c/u-1` is installed, with these
    rows."""
    given = ("c/u-1/EAPI 8", "c/u-1/SLOT 0", *rows)
    candidates = (offered("c/p-1"), offered("c/v-1"))
    return tree_of(*candidates, *(record_file(row) for row in given))


def check_rows(word, table):
    """Holds what a run of this word over each tree comes to, to what the table wants."""
    came = told_each([case(word, tree_with(rows), ONE) for rows, _ in table])
    for (rows, wanted), it in zip(table, came):
        check(it, wanted, rows)


# `c/u-1` owns nothing, and `c/w-1` is installed beside it
NO_FILES = "c/u-1/CONTENTS"
OTHER = ("c/w-1/CONTENTS", "c/w-1/EAPI 8", "c/w-1/SLOT 0")


def repair_of_a_broken_opening():
    twin = ("c/u-1-r1/CONTENTS", "c/u-1-r1/EAPI 8", "c/u-1-r1/SLOT 0")
    contents = "4 emerge: BadDatabase: var/db/pkg/c/u-1/CONTENTS\n"
    linked = "sym /x -> y 0"
    check_rows("c/v", (
        ((NO_FILES, "c/u-1/RDEPEND c/v"), "6 emerge: Inconsistent: Runtime c/u-1 c/v\n"),
        (
            (NO_FILES, "c/u-1/RDEPEND || ( )", "c/u-1/REQUIRED_USE"),
            "6 emerge: Inconsistent: Runtime c/u-1 -\n",
        ),
        ((NO_FILES, "c/u-1/REQUIRED_USE x"), "6 emerge: Inconsistent: RequiredUse c/u-1\n"),
        (
            (NO_FILES, "c/u-1/PDEPEND !c/w", *OTHER),
            "6 emerge: Inconsistent: Blocked c/w-1 c/u-1\n",
        ),
        ((NO_FILES, *twin), "6 emerge: Inconsistent: SlotTwice c/u-1 c/u-1-r1\n"),
        (("c/u-1/SLOT.x",), contents),
        (
            (NO_FILES, "c/w-1/CONTENTS", "c/w-1/SLOT 0"),
            "4 emerge: BadDatabase: var/db/pkg/c/w-1/EAPI\n",
        ),
        (("c/u-1/CONTENTS obj usr/bin/x 0",), contents),
        (
            (f"c/u-1/CONTENTS {linked}", f"c/w-1/CONTENTS {linked}", *OTHER[1:]),
            "4 emerge: BadDatabase: x\n",
        ),
    ))


# one more file of `c/u-1`, which isn't in form
FAULTY = (
    "USE a +b",
    "USE -a",
    "IUSE +a ++b",
    "REQUIRED_USE a %",
    "REQUIRED_USE ( a",
    "RDEPEND c/x c/y[",
    "PDEPEND || ( c/x !c/y )",
    "DEPEND c/x ( c/y",
    "BDEPEND (c/x )",
    "IDEPEND c/x )",
)

# the records of `c/w-1`, and the file that is told
BROKEN = (
    (("c/w-1/EAPI 8", "c/w-1/SLOT 0"), "CONTENTS"),
    (("c/w-1/CONTENTS", "c/w-1/SLOT 0"), "EAPI"),
    (("c/w-1/CONTENTS", "c/w-1/EAPI 8"), "SLOT"),
    (("c/w-1/CONTENTS", "c/w-1/EAPI 9", "c/w-1/SLOT 0"), "EAPI"),
    (("c/w-1/CONTENTS", "c/w-1/EAPI 8", "c/w-1/SLOT 0/"), "SLOT"),
    (("c/w-1/CONTENTS obj /x 0 0", "c/w-1/EAPI 8", "c/w-1/SLOT 0"), "CONTENTS"),
    (("c/w-1/CONTENTS sym /x y 0", "c/w-1/EAPI 8", "c/w-1/SLOT 0"), "CONTENTS"),
    (("c/w-1/CONTENTS fif /x", "c/w-1/EAPI 8", "c/w-1/SLOT 0"), "CONTENTS"),
)


def refused_at(path):
    return f"4 emerge: BadDatabase: {path}\n"


def records_that_are_not_in_form():
    """Each kind of fault of each file of a record, of the name of its folder, and of what two
    packages own, by the last line of the run."""
    record = "var/db/pkg/c/u-1"
    told = [((NO_FILES, f"c/u-1/{row}"), f"{record}/{row.split()[0]}") for row in FAULTY]
    told += [((NO_FILES, *rows), f"var/db/pkg/c/w-1/{file}") for rows, file in BROKEN]
    told.append(((NO_FILES, "c/w/x"), "var/db/pkg/c/w"))
    for other, path in (("x", "x"), ("x/y", "x")):
        rows = ("c/u-1/CONTENTS sym /x -> y 0", f"c/w-1/CONTENTS sym /{other} -> y 0", *OTHER[1:])
        told.append((rows, path))
    check_rows("c/v", [(rows, refused_at(path)) for rows, path in told])


def packages_beside_installed_ones():
    """What becomes of a merge of `c/p`, by the rows of `c/u-1`."""
    check_rows("c/p", (
        ((NO_FILES, "c/u-1/RDEPEND c/w", *OTHER), DONE),
        ((NO_FILES, "c/u-1/RDEPEND !c/p", *OTHER), "8 emerge: NoSolution\n"),
        (
            ("c/u-1/CONTENTS sym /usr/bin/p -> q 0", *OTHER),
            "13 emerge: Collision: Owned usr/bin/p c/u-1\n",
        ),
    ))


TESTS = [
    repair_of_a_broken_opening,
    records_that_are_not_in_form,
    packages_beside_installed_ones,
]
