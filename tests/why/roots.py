"""Folders in which a run is refused, and what the program says there."""
import fcntl
import os
import subprocess
import tempfile

from asked import Wrong
from repository import package

# where the folders are made, and the program; set by what imports this
WORK = PROGRAM = None
PROFILE = {"etc/portage/make.profile/make.defaults": "ARCH=amd64\nACCEPT_KEYWORDS=amd64\n"}


class Link(str):
    """Where a link leads."""


class Zeros(int):
    """So many bytes, each of them zero, for which the disk has no block."""


def write(name, held):
    os.makedirs(os.path.dirname(name), exist_ok=True)
    if isinstance(held, Link):
        os.symlink(held, name)
    elif isinstance(held, Zeros):
        with open(name, "wb") as file:
            file.truncate(held)
    else:
        with open(name, "wb") as file:
            file.write(held if isinstance(held, bytes) else held.encode())


def offered(*names, **values):
    """The files of packages in the repository, which are alike."""
    return {path: held for name in names for path, held in package(name, **values).items()}


def installed(name, contents="", **values):
    """The files of an installed package's record."""
    values = {"CONTENTS": contents, "EAPI": "8\n", "SLOT": "0\n", **values}
    return {f"var/db/pkg/{name}/{key}": held for key, held in values.items() if held is not None}


class Root:
    """A folder with these files below it, and those of images."""

    def __init__(self, files, images=(), profile=PROFILE):
        self.folder = tempfile.mkdtemp(prefix="why-", dir=WORK)
        self.root, self.images = f"{self.folder}/root", f"{self.folder}/images"
        os.makedirs(self.images)
        os.makedirs(self.root)
        for path, held in {**profile, **files}.items():
            write(f"{self.root}/{path}", held)
        for path, held in dict(images).items():
            write(f"{self.images}/{path}", held)

    def named(self, text):
        """The text, with what stands for the two folders put in."""
        return text.replace("IMAGES", self.images).replace("ROOT", self.root)

    def run(self, words, env=(), out=subprocess.PIPE, begin=None):
        """The status of a run, and what it wrote; `begin` is called in its process before."""
        words = [self.named(word) for word in words]
        words = [PROGRAM, "--tree", self.root, "--images", self.images, *words]
        return run(words, env, out, begin)

    def locked(self):
        """Holds the folder as a run does, until what is answered is closed."""
        folder = os.open(self.root, os.O_RDONLY)
        fcntl.flock(folder, fcntl.LOCK_EX)
        return folder


def run(words, env=(), out=subprocess.PIPE, begin=None):
    how = {"stdin": subprocess.DEVNULL, "stdout": out, "stderr": subprocess.PIPE, "timeout": 120}
    how["preexec_fn"] = begin
    kept = {key: held for key, held in os.environ.items() if key != "EMERGE_QUIET"}
    ran = subprocess.run(words, env={**kept, **dict(env)}, **how)
    return ran.returncode, (ran.stdout or b"").decode(), ran.stderr.decode()


def expect(found, wanted, what):
    if found != wanted:
        raise Wrong(f"{what}:\n{found}\nand not\n{wanted}")
