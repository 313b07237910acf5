"""Merges that are stopped at one of their device calls, what a crash may then leave, and what
becomes of it."""
from crashes import (
    GATE_OPEN,
    ODD,
    as_read,
    check_endings,
    chosen,
    failing,
    gate,
    images,
    is_open,
    journal_paths,
    left_by,
    lost,
    meaning,
    recovered,
    stopped,
    three_images,
)
from in_memory import EXEC, PLAIN, answers, recovery_case
from journal import OPEN, journal_path, record, stage_path
from trees import DONE, ONE, SEVERAL, case, check, merged, offered, run, sample_tree, texts, tree_of

# The device's call that places the gate of the one file's merge: behind 6 of recovery, 27 looks at
# the configuration (3 for the profile's folder and its parents, one for each file of variables, and
# two for each of the 11 files of lines, none of which is there), 4 at the cache, the candidate and
# the database, the 4 stages, the record, the token and their sync, and 21 looks of the claim, one at
# each of the 4 paths and at each part above it.
GATE = 66

# The last call of that merge: behind the gate come its sync, the 4 files with a sync, the gate's
# removal with a sync, and the clearing of the journal, with a list, 6 removals and a sync.
LAST = 82


def letters_of(call):
    """A letter for each of three images that a stop at a call leaves: before the gate's sync the
    tree before, at the sync that or the one after, by whether the gate is there, and then the one
    after."""
    if call <= GATE:
        return "bbb"
    return "abb" if call == GATE + 1 else "aaa"


def letter(tree, image):
    """Whether a tree is the one before a merge of the sample, the one after, or neither."""
    if tree == sample_tree():
        return "b"
    return "a" if tree == merged(sample_tree(), image) else "?"


def expected(tree, call):
    """Which tree an image of a stop at a call has to recover to, by whether its gate is open where
    that may be either."""
    if call in (GATE, GATE + 1):
        return "a" if is_open(tree) else "b"
    return "b" if call < GATE else "a"


def each_call(image=ONE):
    """A number for each device call of a whole merge."""
    whole = run("=c/p-1", sample_tree(), image)
    check((whole.code, whole.tree), ("0", merged(sample_tree(), image)))
    return range(1, int(whole.calls) + 1)


def a_run_that_is_stopped_at_any_call_ends_well_when_it_is_run_again():
    for image in (ONE, SEVERAL):
        came = stopped(sample_tree(), image, range(1, 130))
        halted = [answer for answer in came if answer.code == "16"]
        check({answer.code for answer in came[len(halted) :]}, {"0"})
        check_endings(left_by(halted, three_images), image, sample_tree())


def files_of_the_journal_that_come_back_are_harmless():
    came = stopped(sample_tree(), ONE, range(1, LAST + 1))
    check_endings(left_by(came, with_journal), ONE, sample_tree())


def with_journal(answer):
    """Images in which each file of the journal that was touched is there."""
    back = [path for path in answer.touched if path in journal_paths(1, 4)]
    return [chosen(answer, dict.fromkeys(back, it)) for it in (ODD, GATE_OPEN)]


def open_journal(group, removals, placements):
    """The journal of an open group."""
    files = {"record": record(group, removals, placements), "gate": OPEN}
    return {journal_path(group, name): (PLAIN, it) for name, it in files.items()}


def removals_are_recovered():
    """An open group removes `usr/old`, where that holds an object."""
    stands = texts({"usr/old": "a", "usr/older": "b"})
    tree = {**open_journal(1, ["usr/old"], []), **stands}
    watch = [*tree, *journal_paths(1, 1)]
    came = answers([recovery_case(tree, stop=call, watch=watch) for call in range(1, 20)])
    left = left_by(came, images)
    for (call, _), tree in zip(left, recovered(left)):
        check(tree, texts({"usr/older": "b"}), f"at call {call}")


def images_mean_the_tree_before_or_after():
    check(len(each_call()), LAST)
    for call, answer in enumerate(stopped(sample_tree(), ONE, range(1, LAST + 1)), 1):
        three = "".join(letter(meaning(it, ONE), ONE) for it in three_images(answer))
        check(three, letters_of(call), f"at call {call}")
        for left in images(answer):
            check(letter(meaning(left, ONE), ONE), expected(left, call), f"at call {call}")


def images_of_each_call_recover_to_before_or_after():
    came = stopped(sample_tree(), ONE, range(1, LAST + 1))
    three = "".join(letter(tree, ONE) for tree in recovered(left_by(came, three_images)))
    check(three, "".join(letters_of(call) for call in range(1, LAST + 1)))
    left = left_by(came, images)
    for (call, tree), it in zip(left, recovered(left)):
        check(letter(it, ONE), expected(tree, call), f"at call {call}")


def check_recovered(came, image):
    """Fails where an image of one of these ends recovers to another tree than it means, which is
    the one before or the one after."""
    left = left_by(came, images)
    for (call, tree), it in zip(left, recovered(left)):
        check(it, meaning(tree, image), f"at call {call}")
        check(letter(it, image) in "ab", True, f"at call {call}")


def images_of_several_files_recover_to_what_they_mean():
    check_recovered(stopped(sample_tree(), SEVERAL, each_call(SEVERAL)), SEVERAL)


def images_behind_a_failing_call_recover_to_what_they_mean():
    check_recovered(failing(sample_tree(), ONE, each_call()), ONE)


def a_recovery_that_is_stopped_at_any_call_ends_well_when_it_is_run_again():
    """A third merge, behind one that was stopped where its gate may be there, and another that was
    stopped at one of its first calls."""
    came = stopped(sample_tree(), ONE, range(GATE - 1, LAST + 1))
    firsts = left_by(came, lambda answer: [as_read(answer), lost(answer)], GATE - 1)
    seconds = [(first, call, tree) for first, tree in firsts for call in range(1, 20)]
    watch = [*merged(sample_tree(), ONE), *journal_paths(1, 4)]
    cases = [case("=c/p-1", tree, ONE, stop=call, watch=watch) for _, call, tree in seconds]
    left = []
    for (first, call, _), answer in zip(seconds, answers(cases)):
        left += [(f"{first} and {call}", tree) for tree in three_images(answer)]
    check_endings(left, ONE, sample_tree())


def seventh_call_fails():
    answer = run("=c/p-1", sample_tree(), ONE, fail=7)
    check(answer.told(), "16 emerge: DeviceFault\n")
    check_endings([(7, answer.tree)], ONE, sample_tree())


def journals_that_are_refused_and_that_are_cleared():
    record_2 = "5 emerge: BadJournal: 2 record\n"
    stage_1 = "5 emerge: BadJournal: 1 stage 0\n"
    # the gates of groups 1 and 2, the stage of group 1, what is told, and how many objects are left
    table = (
        (b"\x01", b"\x01", (PLAIN, b"ab"), record_2, 7),
        (b"\x01", b"", (PLAIN, b"abc"), stage_1, 7),
        (b"\x01", b"", (PLAIN, b"ac"), stage_1, 7),
        (b"\x01", b"", (EXEC, b"ab"), stage_1, 7),
        (b"", b"\x01", (PLAIN, b"ab"), record_2, 7),
        (b"\x00", b"\x01\x01", (PLAIN, b"ab"), DONE, 7),
        (b"\x01", b"\x01\x01", (PLAIN, b"ab"), DONE, 8),
    )
    trees = [journal_with(first, second, stage) for first, second, stage, _, _ in table]
    came = answers([case("=c/p-1", tree, ONE) for tree in trees])
    for (first, second, stage, wanted, count), tree, answer in zip(table, trees, came):
        at = f"gates {first} and {second}, stage {stage}"
        check((answer.told(), len(answer.tree)), (wanted, count), at)
        check(answer.tree == tree, wanted != DONE, at)


def journal_with(first, second, stage):
    """A tree with these gates of groups 1 and 2 and this stage of group 1, whose record places a
    plain file of the bytes `ab` at `usr/x`."""
    journal = {
        gate(1): (PLAIN, first),
        gate(2): (PLAIN, second),
        journal_path(1, "record"): (PLAIN, record(1, [], [(0, "usr/x", b"ab")])),
        stage_path(1, 0): stage,
    }
    return tree_of(offered("c/p-1"), journal)


TESTS = [
    a_run_that_is_stopped_at_any_call_ends_well_when_it_is_run_again,
    files_of_the_journal_that_come_back_are_harmless,
    removals_are_recovered,
    images_mean_the_tree_before_or_after,
    images_of_each_call_recover_to_before_or_after,
    images_of_several_files_recover_to_what_they_mean,
    images_behind_a_failing_call_recover_to_what_they_mean,
    a_recovery_that_is_stopped_at_any_call_ends_well_when_it_is_run_again,
    seventh_call_fails,
    journals_that_are_refused_and_that_are_cleared,
]
