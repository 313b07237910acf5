"""What crashes may leave of a tree, and what that has to recover to: a plain second reading.

A tree is a dictionary: by each path a kind and bytes. A case is a tree, an ownership book and what
groups bring, drop and take with them.
"""
from dataclasses import dataclass, field

from told import JOBS, THEN, held, line, objects_in

TOKEN = ("-", b"\1")
ODD = ("-", b"\2")

# The events of a group with one object, until its open gate is durable.
FIRST = ["begin", "stage", "record", "token", "sync sealed", "claim", "gate", "sync gate"]


@dataclass
class Group:
    """What a group brings, by path, the paths that it drops, and the packages that go with it."""

    brings: dict = field(default_factory=dict)
    drops: tuple = ()
    goes: tuple = ()

    def durable(self):
        """How many events came once its open gate is durable."""
        return len(FIRST) - 1 + len(self.brings)

    def paths(self, number):
        """The paths that the group may change: its own, and its files of the journal."""
        folder = f"{JOBS}/{number:08x}"
        stages = [f"stage/{at:08x}" for at in range(len(self.brings))]
        own = [f"{folder}/{name}" for name in ["gate", "record", "token", *stages]]
        return [*self.brings, *self.drops, *own]


def object_field(path, thing):
    return held(path, thing[1], thing[0])


def tree_fields(tree):
    return [f"hold {object_field(path, thing)}" for path, thing in sorted(tree.items())]


def group_fields(groups, owned):
    """The fields of a case but for the tree: who owns what, and what the groups do."""
    fields = [f"own {package} {path}" for package, path in owned]
    for number, group in enumerate(groups):
        fields += [f"bring {number} {object_field(*it)}" for it in group.brings.items()]
        fields += [f"drop {number} {path}" for path in group.drops]
        fields += [f"goes {number} {package}" for package in group.goes]
    return fields


def looks(groups):
    """Asks for each path that these groups may change."""
    return [f"look {path}" for at, group in enumerate(groups) for path in group.paths(at)]


def events_case(tree, owned, groups, order, stop=None):
    stops = [f"stop {stop}"] if stop is not None else []
    fields = [*stops, *tree_fields(tree), *group_fields(groups, owned), *looks(groups)]
    return line("events", f"order {order}", *fields)


def recover_case(tree, asked=(), stop=None):
    stops = [f"stop {stop}"] if stop is not None else []
    return line("recover", *stops, *tree_fields(tree), *asked)


@dataclass
class Left:
    """What is left of a tree."""

    end: str
    calls: int
    syncs: int
    touched: list
    objects: dict
    rest: list


def left_of(answer):
    end, calls, syncs, touched, objects, *rest = answer.split("\t")
    paths = touched.split(THEN) if touched else []
    return Left(end, int(calls), int(syncs), paths, objects_in(objects), rest)


def with_all(tree, paths, thing):
    """The tree in which each of these paths holds this, or nothing."""
    image = {path: it for path, it in tree.items() if path not in paths}
    if thing is not None:
        image.update({path: thing for path in paths})
    return image


def images(left):
    """Some trees that a crash may leave: what was changed since the last sync is as it is read,
    gone or odd, all of it, or one path alone, or all but one."""
    yield left.objects
    for thing in (None, ODD):
        yield with_all(left.objects, left.touched, thing)
        for path in left.touched:
            others = [it for it in left.touched if it != path]
            yield with_all(left.objects, [path], thing)
            yield with_all(left.objects, others, thing)


def applied(tree, group):
    """The tree with a group."""
    kept = {path: it for path, it in tree.items() if path not in group.drops}
    return {**kept, **group.brings}


def wanted(tree, groups, came, image):
    """What an image recovers to, where so many events came of each group: the tree with those whose
    open gate is durable, or open in the image."""
    for number, group in enumerate(groups):
        gate = image.get(f"{JOBS}/{number:08x}/gate")
        if came[number] >= group.durable() or gate == TOKEN:
            tree = applied(tree, group)
    return tree
