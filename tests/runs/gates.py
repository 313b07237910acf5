"""Journals with several gates."""
from crashes import GATE_OPEN, chosen, gate
from in_memory import PLAIN, answers, recovery_case
from journal import journal_path, record, stage_path
from trees import DONE, ONE, check, offered, run, text_file, tree_of


def staged(path):
    """The records and stages of groups 1 and 2, which place `ab` at `usr/x` and `cd` at this
    path."""
    return {
        journal_path(1, "record"): (PLAIN, record(1, [], [(0, "usr/x", b"ab")])),
        journal_path(2, "record"): (PLAIN, record(2, [], [(0, path, b"cd")])),
        stage_path(1, 0): text_file("ab"),
        stage_path(2, 0): text_file("cd"),
        "etc/x": text_file("e"),
    }


def two_gates(byte, path):
    """A tree with these groups, where both gates hold this byte."""
    return {**staged(path), gate(1): (PLAIN, byte), gate(2): (PLAIN, byte)}


def recovery(tree, **faults):
    return answers([recovery_case(tree, **faults)])[0]


# what both groups leave
FIRST = {"etc/x": text_file("e"), "usr/x": text_file("ab")}
SECOND = {"etc/x": text_file("e"), "usr/y": text_file("cd")}


def two_open_gates():
    came = recovery(two_gates(b"\x01", "usr/y"))
    check((came.completed, came.tree), ("1 2", {**FIRST, **SECOND}))


def broken_record_of_the_second_group():
    """Group 2 places what group 1 places."""
    tree = two_gates(b"\x01", "usr/x")
    came = recovery(tree)
    check((came.refused, came.tree), ("the record of group 2 is broken", tree))


def second_gate_alone_survives():
    """Of two gates that were put and not synced a crash may leave either, both or none."""
    tree = staged("usr/y")
    for gates, completed, wanted in (
        ((2,), "2", SECOND),
        ((1,), "1", FIRST),
        ((1, 2), "1 2", {**FIRST, **SECOND}),
        ((), "", {"etc/x": text_file("e")}),
    ):
        came = recovery({**tree, **{gate(group): GATE_OPEN for group in gates}})
        check((came.completed, came.tree), (completed, wanted), f"gates {gates}")


def odd_gates_that_a_crash_opens():
    """A recovery of two odd gates is stopped at the sync behind their removal, and the crash leaves
    both open: their records have no paths by then."""
    gates = [gate(1), gate(2)]
    # sync, list, a read of each gate, a put of each record, sync, and a removal of each gate
    left = recovery(two_gates(b"\x00", "usr/y"), stop=10, watch=gates)
    came = recovery(chosen(left, dict.fromkeys(gates, GATE_OPEN)))
    check((came.completed, came.tree), ("1 2", {"etc/x": text_file("e")}))


def broken_journal_record():
    """The gate of group 1 is open or it isn't, and its record has no bytes."""
    for byte, wanted, count in (
        (b"\x01", "5 emerge: BadJournal: 1 record\n", 5),
        (b"\x00", DONE, 7),
    ):
        journal = {gate(1): (PLAIN, byte), journal_path(1, "record"): (PLAIN, b"")}
        came = run("=c/p-1", tree_of(journal, offered("c/p-1")), ONE)
        check((came.told(), len(came.tree)), (wanted, count), f"gate {byte}")


def more_gates_than_may_be():
    tree = {gate(group): (PLAIN, b"") for group in range(4097)}
    came = run("=c/p-1", tree, ONE)
    check((came.told(), came.tree == tree), ("18 emerge: Limit: Groups\n", True))


TESTS = [
    two_open_gates,
    broken_record_of_the_second_group,
    second_gate_alone_survives,
    odd_gates_that_a_crash_opens,
    broken_journal_record,
    more_gates_than_may_be,
]
