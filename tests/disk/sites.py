"""Two groups of a site in every order of their events, and what crashes leave at each call."""
import itertools

import asked
from asked import Wrong, shown
from crashes import (
    Group,
    events_case,
    images,
    left_of,
    looks,
    recover_case,
    tree_fields,
    wanted,
)
from told import line, same

PROGRAM = "ask_disk"

OLD, NEW = ("-", b"old"), ("-", b"new")
TREE = {"b": OLD, "c": OLD, "k": OLD}

# The first group places `a`, the second one `b` over what package 7 owns, and removes `c`; the
# third one places `d`.
OWNED = [(7, "b"), (7, "c")]
GROUPS = [Group({"a": NEW}), Group({"b": NEW}, ("c",), (7,)), Group({"d": NEW})]

# Both groups in turn, from the beginning to the claim of each.
TO_THE_CLAIMS = "01" * 6


def ask(lines):
    """What the program answers. What runs many tests may put another function here."""
    return asked.ask(PROGRAM, lines)


def orders(most):
    """Each order of one event or more, of so many of each group at most, and of ten at most."""
    for size in range(1, 11):
        for order in itertools.product("01", repeat=size):
            if max(order.count("0"), order.count("1")) <= most:
                yield "".join(order)


def lefts(cases):
    return [left_of(answer) for answer in ask(cases)]


def stopped(begun, later):
    """What each order leaves whose device stops at its last call, and how many events came."""
    whole = [begun + order for order in later]
    runs = lefts([events_case(TREE, OWNED, GROUPS, order) for order in whole])
    for order, left in zip(whole, runs):
        same(f"events of {order}", str(len(order)), left.end)
    cases = [
        events_case(TREE, OWNED, GROUPS, order, left.calls) for order, left in zip(whole, runs)
    ]
    for order, left in zip(whole, lefts(cases)):
        came = order[: int(left.end)]
        yield order, [came.count(str(at)) for at in range(3)], left


def check_images(found):
    """Each image recovers to the tree with the groups that are merged in it; each is tried once.
    The answer is each image with what it has to recover to."""
    cases = {}
    for order, came, left in found:
        for image in images(left):
            want = wanted(TREE, GROUPS, came, image)
            before = cases.setdefault(recover_case(image), (order, image, want))
            same(f"what is wanted behind {order}", before[2], want)
    for (order, _, want), left in zip(cases.values(), lefts(list(cases))):
        if not left.end.startswith("ok") or left.objects != want:
            raise Wrong(f"{order}: wanted {want}, came {left.end} {shown(str(left.objects))}")
    return [(image, want) for _, image, want in cases.values()]


def first_events_in_every_order():
    """Every order of the first five events of each group."""
    found = list(stopped("", orders(5)))
    same("orders", 922, len(found))
    check_images(found)


def gates_in_every_order():
    """Every order of the first five events of each group behind its claim."""
    found = list(stopped(TO_THE_CLAIMS, orders(5)))
    same("orders", 922, len(found))
    check_images(found)


def paths_in_every_order():
    """The same of each group behind its open gate, to its line."""
    check_images(list(stopped(TO_THE_CLAIMS + "01" * 2, orders(5))))


def each_call_of_some_orders():
    """Whole runs of two groups, in some orders, stopped at each of their calls."""
    tried = ["0" * 13 + "1" * 14, "1" * 14 + "0" * 13, "01" * 13 + "1", "0011" * 6 + "101"]
    stops = []
    for order, run in zip(tried, lefts([events_case(TREE, OWNED, GROUPS, it) for it in tried])):
        same(f"events of {order}", "27", run.end)
        stops += [(order, stop) for stop in range(1, run.calls + 2)]
    found = []
    cases = [events_case(TREE, OWNED, GROUPS, order, stop) for order, stop in stops]
    for (order, _), left in zip(stops, lefts(cases)):
        came = order[: int(left.end)]
        found.append((order, [came.count(str(at)) for at in range(3)], left))
    check_images(found)


def recovery_is_stopped_at_each_call():
    """What crashes leave of a recovery that is stopped recovers to what it had to come to."""
    begun = TO_THE_CLAIMS + "01" * 2
    trees = check_images(list(stopped(begun, ["0", "1", "01", "011", "0111", "00011"])))
    cases, wants = [], []
    for (image, want), run in zip(trees, lefts([recover_case(image) for image, _ in trees])):
        for stop in range(1, run.calls + 1):
            cases.append(recover_case(image, looks(GROUPS), stop))
            wants.append(want)
    again = {}
    for case, want, left in zip(cases, wants, lefts(cases)):
        same(f"the end of {shown(case)}", "failed", left.end)
        for image in images(left):
            again.setdefault(recover_case(image), set()).add(line(*tree_fields(want)))
    for (case, wanted_trees), left in zip(again.items(), lefts(list(again))):
        same(f"what {shown(case)} recovers to", wanted_trees, {line(*tree_fields(left.objects))})


def syncs(order):
    """How many syncs the events of the first and the third group make in this order."""
    none, left = lefts([events_case(TREE, OWNED, GROUPS, it) for it in ("", order)])
    same(f"events of {order}", str(len(order)), left.end)
    return left.syncs - none.syncs


def syncs_in_lockstep():
    """Both groups take their thirteen events in turn, and then one group after the other."""
    same("syncs in turn", 4, syncs("02" * 13))
    same("syncs of one after the other", 8, syncs("0" * 13 + "2" * 13))


TESTS = [
    first_events_in_every_order,
    gates_in_every_order,
    paths_in_every_order,
    each_call_of_some_orders,
    recovery_is_stopped_at_each_call,
    syncs_in_lockstep,
]
