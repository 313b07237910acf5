"""Texts of plans: read, printed, and their first faults."""
import os

import unproved
from cases import case, check

# a plan with each kind of line
PLAN = """plan 1
group 1
remove app-misc/tool01-1.0:0
add app-misc/tool01-1.1:0/0
group 2
after 1
remove app-office/writer-7.5:0
remove dev-libs/icu-73.1:0
add app-office/writer-7.5:0/0
bind 0/74
add dev-libs/icu-74.2:0/74 doc python_targets_python3_12
"""

# a faulty text for each cause, and what it is told as
FAULTY = [
    ("", "Line 1"),
    ("plan 1", "Line 1"),
    ("plan 1\ngroup 1\n", "Line 3"),
    ("plan 1\ngroup 2\n", "Number 2"),
    ("plan 1\ngroup 1\nafter 01\n", "Number 3"),
    ("plan 1\ngroup 1\nafter 1\n", "NotBefore 3"),
    ("plan 1\ngroup 1\nremove c/p-1\n", "Line 3"),
    ("plan 1\ngroup 1\nremove c/p-1:0\nremove c/a-1:0\n", "Line 4"),
]

# the most groups that a plan has
MOST_GROUPS = unproved.LIMITS["MOST_GROUPS"] if os.environ.get("UNPROVED") else 4_096


def many_groups(groups):
    each = (f"group {number}\nremove c/p-1:0\n" for number in range(1, groups + 1))
    return "plan 1\n" + "".join(each)


def a_plan_is_printed_as_it_was_read():
    rows = [(case("text", text), case(text)) for text in (PLAN, "plan 1\n")]
    return check(rows)


def the_first_faulty_line_is_told():
    return check([(case("text", text), told) for text, told in FAULTY])


def one_group_too_many_is_told():
    most = many_groups(MOST_GROUPS)
    rows = [(case("text", most), case(most)), (case("text", many_groups(MOST_GROUPS + 1)), "Limit")]
    return check(rows)


TESTS = [
    a_plan_is_printed_as_it_was_read,
    the_first_faulty_line_is_told,
    one_group_too_many_is_told,
]
