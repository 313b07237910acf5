"""The order of a run's system calls: what has to be durable before what."""
import os

from asked import Wrong
from calls import Replay, need_strace, recorded
from disk import Disk, File
from journal import JOBS
from roots import SPARE, expect, programs

CHANGES = ("mkdir", "link", "symlink", "rename", "unlink", "rmdir", "unlinkat")


class Order:
    """A recorded run, call by call, on a disk on which only what was synced is durable."""

    def __init__(self, host, inject=()):
        need_strace()
        self.root, self.disk = host.root, Disk(host.root)
        log, path = f"{host.folder}/calls", programs("exit 0")
        ran, self.calls = recorded(host.words(), log, path, inject)
        ran.expect(0)
        self.replay = Replay(self.disk, self.calls)
        self.gate = f"{host.root}/{JOBS}/00000001/gate"
        self.lines, self.moments = 0, []

    def run(self):
        """Goes through all calls. Fails where one comes too early."""
        for call in self.calls:
            moment = self.moment_of(call)
            if moment:
                lost = sorted(self.unsynced())
                expect(not lost, f"{moment} comes before a sync of {lost}")
                self.moments.append(moment)
            self.check_placed(call)
            self.replay.take(*call)

    def names_in(self, call):
        _, name, given, number = call
        if name not in CHANGES or number is None or number < 0:
            return []
        return [os.fsdecode(it) for it in given if isinstance(it, bytes)]

    def moment_of(self, call):
        """The name of a moment before which all has to be durable: the gate's coming and going, the
        first change behind each, and the lines."""
        _, name, given, number = call
        if name == "write" and given[0] == "1":
            self.lines += 1
            return f"line {self.lines}"
        names = self.names_in(call)
        if name == "rename" and names[1:] == [self.gate]:
            return "the gate"
        if name == "unlink" and names == [self.gate]:
            return "the gate's end"
        behind = self.moments[-1:] in (["the gate"], ["the gate's end"])
        return "the change behind it" if names and behind else None

    def unsynced(self):
        """The names whose change isn't durable, but for those of what is never named, and the files
        that aren't."""
        paths = dict(paths_of(self.disk.top, ""))
        for path, node in paths.items():
            if isinstance(node, File) and not node.is_durable:
                yield path
        for path, node in [("", self.disk.top), *paths.items()]:
            for change in getattr(node, "changes", []):
                yield from (f"{path}/{name}" for name in change if name != SPARE)

    def check_placed(self, call):
        """Fails where a file gets its name outside the journal whose bytes aren't durable."""
        names = self.names_in(call)
        if call[1] == "rename" and names and not names[1].startswith(f"{self.root}/{JOBS}/"):
            node = self.disk.find(names[0])
            if isinstance(node, File) and not node.is_durable:
                raise Wrong(f"{names[1]} is named before its bytes are durable")

    def count(self, name):
        return sum(it[1] == name and it[3] is not None and it[3] >= 0 for it in self.calls)


def paths_of(folder, path):
    for name, node in folder.names.items():
        yield f"{path}/{name}", node
        if hasattr(node, "names"):
            yield from paths_of(node, f"{path}/{name}")


def check_durable(host, wanted, inject=()):
    """Fails where a merge goes past a moment before all that it did is durable."""
    order = Order(host, inject)
    order.run()
    expect(order.moments == wanted, f"the moments were {order.moments}")
    return order


def first_syncs(host):
    """What a run makes durable before it changes anything: the paths of folders, or `sync` for all."""
    order, found = Order(host), []
    for call in order.calls:
        thread, name, given, number = call
        if order.names_in(call):
            break
        if name == "execve" and os.path.basename(given[0]) == b"sync" and number == 0:
            found.append("sync")
        if name == "fsync" and thread not in order.replay.apart:
            node = order.replay.files[int(given[0])]
            known = [("/", order.disk.top), *paths_of(order.disk.top, "")]
            found += [path for path, it in known if it is node]
        order.replay.take(*call)
    return found
