"""The system calls of a run, as strace tells them, on the model of a disk."""
import os
import re
import shutil

from asked import Wrong
from disk import File, Folder, Link
from roots import Skipped, read, run

NAMES = (
    "execve mkdir mkdirat open openat write ftruncate chmod fchmod fchmodat rename renameat renameat2 "
    "link linkat symlink symlinkat unlink unlinkat rmdir fsync fdatasync copy_file_range sendfile"
)
LINE = re.compile(r"(\d+) +(\w+)\((.*)\) += (-?\d+|\?)")
BEGUN = re.compile(r"(\d+) +(\w+)\((.*) <unfinished \.\.\.>$")
ENDED = re.compile(r"(\d+) +<\.\.\. (\w+) resumed>(.*)$")


def need_strace():
    if not shutil.which("strace"):
        raise Skipped("strace is not here")
    if run(["strace", "-o", "/dev/null", "true"]).status != 0:
        raise Skipped("strace can't trace here")


def recorded(words, log, path, inject=()):
    """Runs the words, and answers how that ended with the system calls: of each the thread, the name,
    the arguments and the number that it answered, or none."""
    traced = ["strace", "-f", "-qq", "-xx", "-s", "16777216", "-o", log]
    trace = ",".join(f"?{name}" for name in NAMES.split())
    options = [f"trace={trace}", *(f"inject={it}" for it in inject)]
    ran = run([*traced, *(word for it in options for word in ("-e", it)), *words], path=path)
    return ran, list(calls_in(read(log).decode()))


def calls_in(log):
    begun = {}
    for line in log.splitlines():
        if found := BEGUN.match(line):
            begun[found[1], found[2]] = f"{found[1]} {found[2]}({found[3]}"
            continue
        if found := ENDED.match(line):
            line = begun.pop((found[1], found[2]), "") + found[3]
        if found := LINE.match(line):
            number = None if found[4] == "?" else int(found[4])
            yield int(found[1]), found[2], [plain(it) for it in found[3].split(", ")], number


def plain(argument):
    """An argument, of which a text is told as the number of each of its bytes."""
    if argument.startswith('"') and argument.endswith('"'):
        return bytes.fromhex(argument.strip('"').replace("\\x", ""))
    return argument


class Replay:
    """Does calls to a disk, one after another, and counts the lines that were told."""

    def __init__(self, disk, calls):
        self.disk, self.calls = disk, calls
        self.main = calls[0][0]
        self.files, self.said, self.apart = {}, b"", set()

    def told(self):
        return len(re.findall(rb"^done .*\n", self.said, re.M))

    def take(self, thread, name, given, number):
        """Takes a call, and answers whether the disk may be another one since."""
        if name == "execve" and thread != self.main:
            self.apart.add(thread)
            if number == 0 and os.path.basename(os.fsdecode(given[0])) == "sync":
                self.disk.settle()
                return True
        if thread in self.apart or number is None or number < 0:
            return False
        return getattr(self, f"do_{name}", self.do_nothing)(given, number)

    def do_nothing(self, given, number):
        return False

    def above(self, argument):
        return None if argument == "AT_FDCWD" else self.files.get(int(argument))

    def do_openat(self, given, number):
        name, above = os.fsdecode(given[1]), self.above(given[0])
        node, is_new = self.disk.find(name, above), "O_CREAT" in given[2]
        if is_new and self.disk.parts_of(name, above) is not None:
            if node is not None:
                raise Wrong(f"{name} is opened to be written over")
            node = File(int(given[3], 8))
            self.disk.change(name, node, above)
        self.files[number] = node
        return is_new

    def do_open(self, given, number):
        return self.do_openat(["AT_FDCWD", *given], number)

    def do_write(self, given, number):
        if given[0] == "1":
            self.said += given[1][:number]
        node = self.files.get(int(given[0]))
        if isinstance(node, File):
            node.data += given[1][:number]
            node.is_durable = False
        return isinstance(node, File)

    def do_copy(self, given, number):
        if any(isinstance(self.files.get(int(it)), File) for it in given[:3] if it.isdigit()):
            raise Wrong("bytes are copied by a call that the model doesn't know")
        return False

    do_copy_file_range = do_sendfile = do_ftruncate = do_copy

    def do_fchmod(self, given, number):
        node = self.files.get(int(given[0]))
        if isinstance(node, (File, Folder)):
            node.mode = int(given[1], 8)
        return False

    def do_chmod(self, given, number):
        node = self.disk.find(os.fsdecode(given[0]))
        if node is not None:
            node.mode = int(given[1], 8)
        return False

    def do_fchmodat(self, given, number):
        return self.do_chmod(given[1:], number)

    def do_mkdir(self, given, number, above=None):
        # (a mask of the program may take some of the mode, which it sets itself)
        self.disk.change(os.fsdecode(given[0]), self.disk.new_folder(int(given[1], 8)), above)
        return True

    def do_mkdirat(self, given, number):
        return self.do_mkdir(given[1:], number, self.above(given[0]))

    def do_rename(self, given, number):
        old, new = os.fsdecode(given[0]), os.fsdecode(given[1])
        node = self.disk.find(old)
        if os.path.dirname(old) != os.path.dirname(new):
            raise Wrong(f"{old} is renamed into another folder")
        if node is not None and node is not self.disk.find(new):
            self.disk.change(new, node, old=os.path.basename(old))
        return True

    def do_renameat(self, given, number):
        return self.do_rename([given[1], given[3]], number)

    do_renameat2 = do_renameat

    def do_link(self, given, number):
        self.disk.change(os.fsdecode(given[1]), self.disk.find(os.fsdecode(given[0])))
        return True

    def do_linkat(self, given, number):
        return self.do_link([given[1], given[3]], number)

    def do_symlink(self, given, number):
        self.disk.change(os.fsdecode(given[1]), Link(os.fsdecode(given[0])))
        return True

    def do_symlinkat(self, given, number):
        return self.do_symlink([given[0], given[2]], number)

    def do_unlink(self, given, number, above=None):
        self.disk.change(os.fsdecode(given[0]), None, above)
        return True

    def do_unlinkat(self, given, number):
        return self.do_unlink(given[1:], number, self.above(given[0]))

    do_rmdir = do_unlink

    def do_fsync(self, given, number):
        self.disk.sync(self.files.get(int(given[0])))
        return True

    do_fdatasync = do_fsync
