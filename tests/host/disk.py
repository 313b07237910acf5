"""A model of a disk on which only what was synced is sure to stay, and what a power cut may leave there.

A name is changed in the folder that has it. Of the changes that no sync made durable a cut keeps some
first ones: those of each folder for itself, which its own sync alone makes durable (FOLDERS), or those
of the whole disk, on which any sync makes durable all that was changed before it (JOURNAL). The bytes
of a file that wasn't synced may be anything.
"""
import os
import random
import stat

FOLDERS, JOURNAL = "each folder by its own sync", "all names by any sync"


class File:
    def __init__(self, mode, data=b"", is_durable=False):
        self.mode, self.data, self.is_durable = mode, data, is_durable


class Link:
    def __init__(self, target):
        self.target = target


class Folder:
    """The names in it as they are read, and as a cut is sure to leave them, once for each model; in
    between the changes, each a few names and what they have then."""

    def __init__(self, mode):
        self.mode, self.names, self.durable, self.changes = mode, {}, {}, []
        self.journaled = {}

    def settle(self):
        self.durable, self.changes = dict(self.names), []


class Left(dict):
    """What is seen at each path, and the file that stands there, which may have several names."""

    def __init__(self):
        super().__init__()
        self.files = {}


class Disk:
    """What is below a folder of the host, at first all of it durable, and then as calls change it."""

    def __init__(self, root):
        self.root, self.folders, self.changes = root, [], []
        self.top = self.node_of(root, {})
        self.settle()

    def node_of(self, name, files):
        """What has a name of the host; files are those that were found, by their numbers."""
        found = os.lstat(name)
        mode = stat.S_IMODE(found.st_mode)
        if stat.S_ISLNK(found.st_mode):
            return Link(os.readlink(name))
        if stat.S_ISDIR(found.st_mode):
            folder = self.new_folder(mode)
            folder.names = {it: self.node_of(f"{name}/{it}", files) for it in os.listdir(name)}
            return folder
        if found.st_ino not in files:
            with open(name, "rb") as file:
                files[found.st_ino] = File(mode, file.read(), True)
        return files[found.st_ino]

    def new_folder(self, mode):
        folder = Folder(mode)
        self.folders.append(folder)
        return folder

    def settle(self):
        """All is durable."""
        for folder in self.folders:
            folder.settle()
            for it in folder.names.values():
                if isinstance(it, File):
                    it.is_durable = True
        self.settle_journal()

    def settle_journal(self):
        for folder in self.folders:
            folder.journaled = dict(folder.names)
        self.changes = []

    def parts_of(self, name, above):
        """The folder that a name of the host begins from, and the parts of the name; or None for one
        that isn't below the root."""
        if above is not None:
            return above, [it for it in name.split("/") if it not in ("", ".")]
        if name != self.root and not name.startswith(f"{self.root}/"):
            return None
        return self.top, [it for it in name[len(self.root) :].split("/") if it]

    def find(self, name, above=None):
        """What has a name, or None."""
        found = self.parts_of(name, above)
        if found is None:
            return None
        node, parts = found
        for part in parts:
            node = node.names.get(part)
        return node

    def change(self, name, node, above=None, old=None):
        """Gives a name to a node, or to nothing; an old name in the same folder is then gone."""
        found = self.parts_of(name, above)
        if found is None:
            return
        folder, parts = found
        for part in parts[:-1]:
            folder = folder.names[part]
        names = {parts[-1]: node}
        if old is not None:
            names[old] = None
        give(folder.names, names)
        folder.changes.append(names)
        self.changes.append((folder, names))

    def sync(self, node):
        """A file, or the names of a folder, are durable."""
        if isinstance(node, File):
            node.is_durable = True
        elif isinstance(node, Folder):
            node.settle()
        self.settle_journal()

    def cut(self, model, chance):
        """What a power cut leaves, as of each path what is seen there. By a chance of 0 nothing stays
        that may go, by 1 all of it, and else anything."""
        names = self.kept_apart(chance) if model == FOLDERS else self.kept_in_turn(chance)
        left, files = Left(), {}
        add_below(left, self.top, "", names, lambda it: bytes_left(it, files, chance))
        return left

    def kept_apart(self, chance):
        kept = {}
        for folder in self.folders:
            kept[folder] = dict(folder.durable)
            for change in folder.changes[: some(len(folder.changes), chance)]:
                give(kept[folder], change)
        return kept

    def kept_in_turn(self, chance):
        kept = {folder: dict(folder.journaled) for folder in self.folders}
        for folder, change in self.changes[: some(len(self.changes), chance)]:
            give(kept[folder], change)
        return kept

    def read(self):
        """What is seen at each path now."""
        left = Left()
        now = {folder: folder.names for folder in self.folders}
        add_below(left, self.top, "", now, lambda it: it.data)
        return left


def give(names, change):
    for name, node in change.items():
        if node is None:
            names.pop(name, None)
        else:
            names[name] = node


def some(most, chance):
    return round(most * chance) if chance in (0, 1) else random.randint(0, most)


def bytes_left(file, files, chance):
    """What a cut leaves in a file, which is the same under each of its names."""
    if file.is_durable or chance == 1:
        return file.data
    if file not in files:
        half = file.data[: len(file.data) // 2]
        files[file] = b"" if chance == 0 else random.choice([b"", half, b"\0" * len(file.data)])
    return files[file]


def add_below(left, folder, path, names, data_of):
    """Adds what is seen below a folder, by the names that each folder has."""
    for name, node in names[folder].items():
        at = f"{path}/{name}" if path else name
        if isinstance(node, Link):
            left[at] = ("link", node.target)
        elif isinstance(node, File):
            left[at] = ("file", node.mode, data_of(node))
            left.files[at] = node
        else:
            left[at] = (stat.S_IFDIR, node.mode)
            add_below(left, node, at, names, data_of)
