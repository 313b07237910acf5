"""Cases for ask_plans, as the lines that it reads."""
import asked

PROGRAM = "ask_plans"


def case(*parts):
    """The line of a case: its word and its parts."""
    return "\t".join(parts).replace("\n", "\\n")


def plan_text(groups):
    """The text of a plan of these groups, a semicolon between two and a comma between lines."""
    lines = ["plan 1"]
    for number, group in enumerate(filter(None, groups.split(";")), 1):
        lines += [f"group {number}", *group.split(",")]
    return "".join(f"{line}\n" for line in lines)


def check(rows):
    """A test that holds the answers to those that the rows want."""
    return asked.rows_at_once(PROGRAM, rows)


def expect(fact, message):
    if not fact:
        raise asked.Wrong(message)
