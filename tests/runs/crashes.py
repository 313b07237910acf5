"""What a crash may leave of a tree, and what that means by a plain second reading."""
import itertools
import random

from asked import Wrong
from in_memory import PLAIN, answers, recovery_case
from journal import JOBS, OPEN, journal_path, stage_path
from trees import case, check, merged, placed

GATE_OPEN = (PLAIN, OPEN)
ODD = (PLAIN, b"\x02")

# a touched path holds what it reads as, nothing, an odd byte, or the byte of an open gate
READ = object()
CHOICES = (READ, None, ODD, GATE_OPEN)

# so many touched paths at most have each of their images gone through; of more, so many by chance
FEW = 3
BY_CHANCE = 40
SEED = 1


def gate(group):
    return journal_path(group, "gate")


def journal_paths(group, stages):
    names = [journal_path(group, name) for name in ("gate", "record", "token")]
    return names + [stage_path(group, index) for index in range(stages)]


def watched(tree, image):
    """All paths that a merge of `c/p-1` may touch."""
    paths = [path for path, _ in placed(image)]
    return [*tree, *paths, *journal_paths(1, len(paths))]


def chosen(answer, choice):
    """The tree as a crash leaves it in which each path of a choice, which has to be touched, holds
    what the choice says."""
    for path in choice:
        if path not in answer.touched:
            raise Wrong(f"{path} was not touched")
    given = {path: it for path, it in choice.items() if it is not READ}
    return {path: it for path, it in {**answer.tree, **given}.items() if it is not None}


def as_read(answer):
    return chosen(answer, {})


def lost(answer):
    """Each path that was touched holds nothing."""
    return chosen(answer, dict.fromkeys(answer.touched))


def odd(answer):
    """Each object at a path that was touched is an odd one."""
    return chosen(answer, {path: ODD for path in answer.touched if path in answer.tree})


def odd_everywhere(answer):
    """At each path that was touched an odd object is, also where nothing reads."""
    return chosen(answer, dict.fromkeys(answer.touched, ODD))


def three_images(answer):
    return [as_read(answer), lost(answer), odd(answer)]


def images(answer):
    """Images of each kind: of few touched paths by all of their choices, of more by some that are
    drawn by chance."""
    paths = answer.touched
    if len(paths) <= FEW:
        choices = itertools.product(CHOICES, repeat=len(paths))
    else:
        chance = random.Random(SEED)
        choices = [chance.choices(CHOICES, k=len(paths)) for _ in range(BY_CHANCE)]
    given = [chosen(answer, dict(zip(paths, it))) for it in choices]
    return [*three_images(answer), odd_everywhere(answer), *given]


def is_open(tree, group=1):
    return tree.get(gate(group)) == GATE_OPEN


def meaning(tree, image):
    """What an image of a merge of `c/p-1` means: with the gate open each placed path has its stage,
    else what it holds; and the journal is nothing."""
    means = {path: it for path, it in tree.items() if not path.startswith(f"{JOBS}/")}
    if is_open(tree):
        for index, (path, _) in enumerate(placed(image)):
            means[path] = tree.get(stage_path(1, index))
    return means


def stopped(tree, image, calls):
    """What merges of `c/p-1` come to that are stopped at each of these calls, with what they
    touched."""
    watch = watched(tree, image)
    cases = [case("=c/p-1", tree, image, stop=call, watch=watch) for call in calls]
    return with_all_watched(answers(cases), watch)


def failing(tree, image, calls):
    """The same, of merges each of whose one call fails."""
    watch = watched(tree, image)
    cases = [case("=c/p-1", tree, image, fail=call, watch=watch) for call in calls]
    return with_all_watched(answers(cases), watch)


def with_all_watched(came, watch):
    """These answers, in whose trees no path may be that isn't watched."""
    for answer in came:
        unwatched = set(answer.tree) - set(watch)
        check(unwatched, set(), "unwatched paths")
    return came


def left_by(came, make, begin=1):
    """The images that are made of each of these ends, each with the number of its call."""
    return [(call, tree) for call, answer in enumerate(came, begin) for tree in make(answer)]


def recovered(left):
    """The trees that recovery makes of these images."""
    came = answers([recovery_case(tree) for _, tree in left])
    for (call, _), answer in zip(left, came):
        check("completed" in answer.values, True, f"at call {call}: {answer.values}")
    return [answer.tree for answer in came]


def check_endings(left, image, begun):
    """Fails where a merge into one of these images doesn't end as a whole one does."""
    came = answers([case("=c/p-1", tree, image) for _, tree in left])
    for (call, _), answer in zip(left, came):
        check((answer.code, answer.tree), ("0", merged(begun, image)), f"at call {call}")
