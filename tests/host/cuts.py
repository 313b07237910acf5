"""Power cuts in runs of the program, on two models of a disk, and what the program makes of them.

The calls of a run are recorded and done once more to a model. Before each call the power may be cut:
what a cut leaves has to mean the tree before or behind the group of the run, by a plain second reading
of the journal, and the one behind it once its line was told. Some of these trees are made, and the
program itself has to recover them to just that.
"""
import hashlib
import os
import random
import shutil
import struct
import tempfile

import roots
from asked import Wrong
from calls import Replay, need_strace, recorded
from disk import FOLDERS, JOURNAL, Disk
from journal import JOBS, OPEN, journal_path, stage_path
from roots import SPARE, Host, expect

# about so many cuts are tried in the model, and one of so many of them by the program (one without a
# proof takes far longer)
UNPROVED = "UNPROVED" in os.environ
CUTS = int(os.environ.get("CUTS", 2_000 if UNPROVED else 11_000))
ONE_OF = 40 if UNPROVED else 10
# so many runs of each kind are killed, and then another one is cut; half of them where the journal is
# begun or cleared, among so many changes
KILLS = 5 if CUTS <= 2_000 else 20
ENDS = 12
CHANCES = (0, 1, 0.5, 0.5)


def objects(seen):
    """The files and links of a tree, but for what was never named; a mode tells a kind alone."""
    found = {}
    for path, it in seen.items():
        if it[0] in ("file", "link") and SPARE not in path.split("/"):
            found[path] = it if it[0] == "link" else ("file", bool(it[1] & 0o111), it[2])
    return found


class Record:
    """The paths that a record removes, and of each object that it places the path, the kind's number
    and the digest."""

    def __init__(self, data, group):
        self.data, self.at = data, 9
        if data[:5] != b"EMJR\x01" or struct.unpack(">I", data[5:9]) != (group,):
            raise Wrong("an open group has no record")
        self.removals = [self.path() for _ in range(self.number(">I"))]
        self.placements = [self.placement() for _ in range(self.number(">I"))]

    def take(self, size):
        self.at += size
        return self.data[self.at - size : self.at]

    def number(self, form):
        return struct.unpack(form, self.take(struct.calcsize(form)))[0]

    def path(self):
        return self.take(self.number(">H")).decode()

    def placement(self):
        kind, _, digest = self.number(">B"), self.number(">Q"), self.take(16)
        return self.path(), kind, digest


def bytes_of(it):
    return it[1].encode() if it[0] == "link" else it[2]


def kind_of(it):
    return roots.LINK if it[0] == "link" else int(it[1])


def recovered(found):
    """What recovery has to make of these objects."""
    left = dict(found)
    for path in sorted(found):
        name = path.removeprefix(f"{JOBS}/").split("/")
        if path.startswith(f"{JOBS}/") and name[1:] == ["gate"] and found[path][2] == OPEN:
            redo(left, found, int(name[0], 16))
    return {path: it for path, it in left.items() if not path.startswith(f"{JOBS}/")}


def redo(left, found, group):
    record = Record(found[journal_path(group, "record")][2], group)
    for path in record.removals:
        left.pop(path, None)
    for index, (path, kind, digest) in enumerate(record.placements):
        stage = found.get(stage_path(group, index))
        if stage is None or kind_of(stage) != kind or md5(bytes_of(stage)) != digest:
            raise Wrong(f"stage {index} of the open group {group} is broken")
        left[path] = stage


def md5(data):
    return hashlib.md5(data).digest()


def is_change(call):
    """Whether a call may change the disk, as far as its name and its answer tell."""
    _, name, _, number = call
    return name not in ("execve", "openat", "fchmod", "chmod") and number is not None and number >= 0


class Cuts:
    """The cuts of some runs, one after another, of which the first begins on a disk at rest."""

    def __init__(self, name, host, trees, every):
        self.name, self.host, self.trees, self.every = name, host, trees, every
        self.disk, self.told, self.tried, self.chosen = Disk(host.root), 0, 0, []
        # those that left a gate
        self.half = []

    def run(self, words, path, inject=(), cut=True):
        """Records a run, and cuts the power before each of its calls, if that is wanted."""
        ran, calls = recorded(words, f"{self.host.folder}/calls", path, inject)
        replay, told = Replay(self.disk, calls), self.told
        rate = self.every / max(1, sum(map(is_change, calls)))
        for call in calls:
            if replay.take(*call) and cut:
                self.told = told + replay.told()
                for _ in range(int(rate + random.random())):
                    self.cut(f"behind {call[1]} {call[2]}")
        self.told = told + replay.told()
        self.check_model()
        return ran, calls

    def check_model(self):
        """Fails where the model isn't as the folder is that it stands for."""
        model, real = self.disk.read(), self.host.snapshot()
        wrong = sorted(it for it in model | real if model.get(it) != real.get(it))
        expect(not wrong, f"{self.name}: the model differs at {wrong}")

    def cut(self, where):
        for model in (FOLDERS, JOURNAL):
            chance = random.choice(CHANCES)
            left = self.disk.cut(model, chance)
            self.tried += 1
            told = f"{self.name}, {where}, {model}, chance {chance}"
            try:
                means = recovered(objects(left))
            except (Wrong, KeyError) as why:
                raise Wrong(f"{told}: it is refused: {why}") from None
            expect(means in self.trees[self.told :], f"{told}: it means another tree")
            if random.randrange(ONE_OF) == 0:
                self.chosen.append((told, left, means))
            if any(path.startswith(JOBS) and path.endswith("/gate") for path in left):
                self.half.append((told, left, means))


def make(root, left):
    """Makes a tree of what a cut left."""
    os.makedirs(root)
    names = {}
    for path, it in sorted(left.items()):
        name = f"{root}/{path}"
        if it[0] == "link":
            os.symlink(it[1], name)
        elif it[0] != "file":
            os.mkdir(name, it[1])
        elif left.files[path] in names:
            os.link(names[left.files[path]], name)
        else:
            names[left.files[path]] = name
            with open(name, "wb") as file:
                file.write(it[2])
            os.chmod(name, it[1])


def check_recovered(host, told, left, means, path, behind):
    """Fails where the program doesn't make of a tree what it means, and nothing else."""
    root = tempfile.mkdtemp(prefix="cut-", dir=roots.WORK) + "/root"
    make(root, left)
    words = [roots.PROGRAM, "--tree", root, "--images", host.images]
    pretend = roots.run([*words, "--pretend", behind], path=path)
    expect(pretend.status == 0, f"{told}: status {pretend.status}, {pretend.err!r}")
    was, host.root = host.root, root
    try:
        found = host.snapshot()
        expect(objects(found) == means, f"{told}: the program makes another tree of it")
        spare = [it for it in found if os.path.basename(it) == SPARE]
        expect(not spare, f"{told}: left behind: {spare}")
        ran = roots.run([*words, behind], path=path)
        expect(ran.status == 0, f"{told}: then status {ran.status}, {ran.err!r}")
        host.check_merged()
    finally:
        host.root = was
        shutil.rmtree(os.path.dirname(root))


def whole(host, words, path):
    """The objects of a root before a run and behind it, which is done on a copy."""
    before, was = objects(host.snapshot()), host.root
    copy = f"{host.folder}/copy"
    shutil.copytree(was, copy, symlinks=True)
    ran = roots.run([word.replace(was, copy) for word in words], path=path).expect(0)
    host.root = copy
    behind = objects(host.snapshot())
    host.root = was
    shutil.rmtree(copy)
    expect(ran.out.startswith("done 1"), f"said {ran.out!r}")
    return [before, behind]


def cuts_of(name, host, word, path, inject, count):
    """The cuts of one run."""
    words = host.words(word)
    cuts = Cuts(name, host, whole(host, words, path), count)
    cuts.run(words, path, inject)[0].expect(0)
    return cuts


def cuts_in_recovery(cuts, word, path, inject, count):
    """The cuts of a recovery of one of the trees that these cuts left, in which the group is open."""
    expect(cuts.half, f"{cuts.name}: no cut left a gate")
    told, left, means = random.choice(cuts.half)
    host = Host(cuts.host.entries)
    shutil.rmtree(host.root)
    make(host.root, left)
    again = Cuts(f"recovery behind {told}", host, [means], count)
    again.run(host.words("--pretend", word), path, inject)[0].expect(0)
    return again


def cuts_behind_a_kill(name, host, word, path, inject, count):
    """The cuts of a run behind one that was killed, of which only what it synced is durable."""
    words = host.words(word)
    trees = whole(host, words, path)
    other = f"{host.folder}/other"
    shutil.copytree(host.root, other, symlinks=True)
    there = [it.replace(host.root, other) for it in words]
    _, calls = recorded(there, f"{host.folder}/calls", path, inject)
    changes = list(changes_in(calls))
    call, turn = random.choice(random.choice([changes, changes[:ENDS] + changes[-ENDS:]]))
    cuts = Cuts(f"{name} behind a kill at {call} {turn}", host, trees, count)
    cuts.run(words, path, [*inject, f"{call}:signal=SIGKILL:when={turn}"], cut=False)
    cuts.run(words, path, inject)[0].expect(0)
    return cuts


def changes_in(calls):
    """The calls of the main thread that change a tree, each with its number among those of its
    name."""
    turns = {}
    for thread, name, _, number in calls:
        if thread == calls[0][0]:
            turns[name] = turns.get(name, 0) + 1
            changes = name in ("mkdir", "fchmod", "link", "rename", "unlink", "rmdir")
            if changes and number is not None and number >= 0:
                yield name, turns[name]


def try_cuts(cases, path):
    """Tries the cuts of runs, each of which has a name, what makes its host, a word and what strace is
    to do with its calls; and of recoveries, and of runs behind a kill. How many cuts were tried, and
    how many of them by the program."""
    need_strace()
    tried = made = 0
    count = CUTS // (2 * len(cases) * (KILLS + 2))
    for name, new_host, word, inject in cases:
        first = cuts_of(name, new_host(), word, path, inject, count)
        rounds = [first, cuts_in_recovery(first, word, path, inject, count)]
        for _ in range(KILLS):
            rounds.append(cuts_behind_a_kill(name, new_host(), word, path, inject, count))
        for cuts in rounds:
            tried += cuts.tried
            made += len(cuts.chosen)
            for told, left, means in cuts.chosen:
                check_recovered(cuts.host, told, left, means, path, word)
            shutil.rmtree(cuts.host.folder)
    return tried, made
