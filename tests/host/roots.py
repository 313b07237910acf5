"""Roots with a repository and an image, runs of the program on them, and what is left there."""
import hashlib
import os
import stat
import subprocess
import tempfile
import time

from asked import TOP, Wrong
from journal import JOBS as JOURNAL, OPEN, journal_path, record, stage_path
from repository import ebuild_path, entry_path, package as files_of

# where the roots are made, and the program; set by what imports this
WORK = PROGRAM = None
PROFILE = "etc/portage/make.profile"
AMD64 = b'ARCH="amd64"\nACCEPT_KEYWORDS="amd64"\n'
HELLO = "app-misc/hello-2.12"
HELLO_FILE = "usr/share/hello/greeting"
HELLO_TEXT = b"Hello, world!\n"
SPARE = ".emerge ->new"
PLAIN, EXEC, LINK = 0, 1, 2
MODES = {PLAIN: 0o644, EXEC: 0o755}
LARGE = 100_000
LINKS = 60_000
VERSIONS = 256
DONE = f"done 1 +{HELLO}\nemerge: ok 1\n"


class Skipped(Exception):
    """Why a test can't be run here."""


def expect(fact, message):
    if not fact:
        raise Wrong(message)


def write(name, data, mode=0o644):
    os.makedirs(os.path.dirname(name), exist_ok=True)
    with open(name, "wb") as file:
        file.write(data)
    os.chmod(name, mode)


def read(name):
    with open(name, "rb") as file:
        return file.read()


def md5(data):
    return hashlib.md5(data).hexdigest()


def hello(text=HELLO_TEXT):
    """An image of one file."""
    return {HELLO_FILE: (PLAIN, text)}


def tools(size=100):
    """An image of files, programs and links in several folders, one file of this size."""
    return {
        "etc/tools/tools.conf": (PLAIN, b"colour = none\n"),
        "usr/bin/tool": (EXEC, b"#!/bin/sh\necho a tool\n"),
        "usr/bin/tool.sh": (LINK, b"tool"),
        "usr/bin/tool-2": (LINK, b"../../usr/bin/tool"),
        "usr/lib/libtool.so": (LINK, b"libtool.so.2"),
        "usr/lib/libtool.so.2": (EXEC, os.urandom(size)),
        "usr/lib/nowhere": (LINK, b"/nowhere/at all -> it"),
        "usr/share/doc/tool/empty": (PLAIN, b""),
        "usr/share/doc/tool/two words": (PLAIN, b"two words\n"),
        "usr/share/doc/tool/\u00e9t\u00e9": (PLAIN, b"a name in UTF-8\n"),
    }


def put(name, kind, data):
    """Makes a file or a link."""
    if kind == LINK:
        os.makedirs(os.path.dirname(name), exist_ok=True)
        os.symlink(data.decode(), name)
    else:
        write(name, data, MODES[kind])


def contents(image):
    """The list of what a package owns, as its record shall have it."""
    lines = []
    for path in sorted(image, key=str.encode):
        kind, data = image[path]
        if kind == LINK:
            lines.append(f"sym /{path} -> {data.decode()} 0\n")
        else:
            lines.append(f"obj /{path} {md5(data)} 0\n")
    return "".join(lines).encode()


def install_many(root, packages, files):
    """Records of so many packages, each of so many files; the files themselves aren't there, since a
    run looks at the records alone. Each package needs the one before it."""
    digest = md5(b"")
    for at in range(packages):
        record = f"{root}/var/db/pkg/dev-many/part{at}-1"
        lines = [f"obj /usr/many/{at}/file-{it} {digest} 0\n" for it in range(files)]
        write(f"{record}/CONTENTS", "".join(lines).encode())
        write(f"{record}/EAPI", b"8\n")
        write(f"{record}/SLOT", b"0\n")
        if at:
            write(f"{record}/RDEPEND", f"dev-many/part{at - 1}\n".encode())


def offer_many(root, packages):
    """Puts so many packages into the repository, some versions of each name. All have one entry and
    one ebuild, in files that have as many links as a file may have."""
    texts = [text.encode() for text in files_of("c/p-0").values()]
    for at in range(packages):
        package = f"c/p{at // VERSIONS}-{at % VERSIONS}"
        names = [f"{root}/{path(package)}" for path in (entry_path, ebuild_path)]
        if at % VERSIONS == 0:
            for name in names:
                os.makedirs(os.path.dirname(name), exist_ok=True)
        if at % LINKS == 0:
            firsts = names
            for name, text in zip(names, texts):
                write(name, text)
        else:
            for first, name in zip(firsts, names):
                os.link(first, name)


class Host:
    """A folder with a root that has a profile and a repository, and the image of its package: of
    each path a kind and the bytes."""

    def __init__(self, image=None):
        self.folder = tempfile.mkdtemp(prefix="emerge-host-", dir=WORK)
        self.root = f"{self.folder}/root"
        self.images = f"{self.folder}/images"
        self.entries = hello() if image is None else image
        write(f"{self.root}/{PROFILE}/make.defaults", AMD64)
        write(f"{self.root}/etc/standing", b"stays\n", 0o600)
        self.offer(HELLO)
        self.image(HELLO, self.entries)

    def at(self, path):
        return f"{self.root}/{path}"

    def offer(self, package, **values):
        """Puts a package into the repository, which is stable on amd64 and needs what the values
        say."""
        for path, text in files_of(package, **values).items():
            write(self.at(path), text.encode())

    def image(self, package, entries):
        os.makedirs(f"{self.images}/{package}", exist_ok=True)
        for path, (kind, data) in entries.items():
            put(f"{self.images}/{package}/{path}", kind, data)

    def words(self, *command, extra=()):
        host = ["--tree", self.root, "--images", self.images, *extra]
        return [PROGRAM, *host, *(command or ["app-misc/hello"])]

    def run(self, *command, extra=(), **how):
        return run(self.words(*command, extra=extra), **how)

    def snapshot(self):
        """What is below the root: of each name its kind, its mode and its bytes."""
        found = {}
        for at, folders, files in os.walk(self.root):
            for name in folders + files:
                path = os.path.join(at, name)
                found[os.path.relpath(path, self.root)] = seen(path)
        return found

    def objects(self):
        """What is below the root and is no folder."""
        return {path: it for path, it in self.snapshot().items() if it[0] in ("file", "link")}

    def check_merged(self):
        """Fails where the root isn't just as a whole merge leaves it."""
        self.check_owned()
        for path, wanted in self.merged().items():
            found = seen(self.at(path)) if os.path.lexists(self.at(path)) else None
            expect(found == wanted, f"{path} is {found}")
            self.check_folders(path)
        record = set(os.listdir(self.at(f"var/db/pkg/{HELLO}")))
        expect(record == {"CONTENTS", "EAPI", "SLOT"}, f"the record has {record}")
        self.check_clean()

    def merged(self):
        """What the paths of the package and of its record hold after a merge."""
        record = {"CONTENTS": contents(self.entries), "EAPI": b"8\n", "SLOT": b"0\n"}
        paths = {f"var/db/pkg/{HELLO}/{name}": (PLAIN, data) for name, data in record.items()}
        return {path: seen_as(*it) for path, it in {**self.entries, **paths}.items()}

    def check_owned(self):
        """Fails where a file or link isn't as the record in the tree says."""
        for line in read(self.at(f"var/db/pkg/{HELLO}/CONTENTS")).decode().splitlines():
            kind, rest = line.split(" ", 1)
            if kind == "sym":
                path, target = rest.removesuffix(" 0").split(" -> ", 1)
                expect(os.readlink(self.root + path) == target, f"{path} leads elsewhere")
            else:
                path, digest, _ = rest.rsplit(" ", 2)
                expect(md5(read(self.root + path)) == digest, f"{path} has other bytes")

    def check_no_half(self):
        """Fails where a path of the package holds anything but nothing or what it shall hold."""
        for path, wanted in self.merged().items():
            if os.path.lexists(self.at(path)):
                expect(seen(self.at(path)) == wanted, f"{path} is half written")

    def check_folders(self, path):
        for above in folders_above(path):
            if above not in ("var", "var/db"):
                expect(mode_of(self.at(above)) == 0o755, f"{above} has another mode")

    def check_clean(self):
        """Fails where a journal or a spare object is left, or what stood there was changed. A run that
        was killed at its very end may leave empty folders."""
        left = [it for _, _, files in os.walk(self.at(JOURNAL)) for it in files]
        expect(not left, f"a journal is left: {left}")
        spares = [it for it in self.snapshot() if os.path.basename(it) == SPARE]
        expect(not spares, f"left behind: {spares}")
        expect(read(self.at("etc/standing")) == b"stays\n", "a file that stood there was changed")
        expect(mode_of(self.at("etc/standing")) == 0o600, "a mode was changed")


def seen(path):
    mode = os.lstat(path).st_mode
    if stat.S_ISLNK(mode):
        return ("link", os.readlink(path))
    if stat.S_ISREG(mode):
        return ("file", stat.S_IMODE(mode), read(path))
    return (stat.S_IFMT(mode), stat.S_IMODE(mode))


def seen_as(kind, data):
    """What is seen of an object of this kind and these bytes."""
    return ("link", data.decode()) if kind == LINK else ("file", MODES[kind], data)


def mode_of(path):
    return stat.S_IMODE(os.lstat(path).st_mode)


def folders_above(path):
    parts = path.split("/")[:-1]
    return ["/".join(parts[: at + 1]) for at in range(len(parts))]


class Ran:
    def __init__(self, status, out, err):
        self.status, self.out, self.err = status, out, err

    def expect(self, status, out=None, err=()):
        told = f"status {self.status}, said {self.out!r} and {self.err!r}"
        expect(self.status == status, f"{told}; status {status} is wanted")
        expect(out is None or self.out == out, f"{told}; {out!r} is wanted")
        for text in [err] if isinstance(err, str) else err:
            expect(text in self.err, f"{told}; standard error lacks {text!r}")
        return self


def run(words, path=None, **how):
    """Runs the words. The path is where programs are looked for first."""
    env = dict(os.environ)
    if path:
        env["PATH"] = f"{path}:{env['PATH']}"
    ran = subprocess.run(
        words, env=env, stdin=subprocess.DEVNULL, capture_output=True, timeout=120, **how
    )
    return Ran(ran.returncode, ran.stdout.decode(), ran.stderr.decode())


def programs(sync):
    """A folder with a program `sync` of this text."""
    folder = tempfile.mkdtemp(prefix="programs-", dir=WORK)
    write(f"{folder}/sync", f"#!/bin/sh\n{sync}\n".encode(), 0o755)
    return folder


def open_journal(host, removals, placements):
    """Leaves the journal of a stopped run whose group 1 is open: placements are a kind, a path and
    the bytes."""
    for index, (kind, _, data) in enumerate(placements):
        put(host.at(stage_path(1, index)), kind, data)
    text = record(1, removals, placements)
    for name, data in (("record", text), ("token", OPEN), ("gate", OPEN)):
        write(host.at(journal_path(1, name)), data)


def run_behind_a_kill(host, path, word="app-misc/hello"):
    """Runs a merge. A program that the killed run was just starting holds the lock until it begins."""
    for _ in range(100):
        ran = host.run(word, path=path)
        if ran.status != 21:
            break
        time.sleep(0.05)
    return ran


def check_second_run(host, path, where):
    """Fails where a run behind another one, which something befell, doesn't leave all well."""
    ran = run_behind_a_kill(host, path)
    expect(ran.status == 0, f"{where}: then status {ran.status}, {ran.err!r}")
    try:
        host.check_merged()
    except Wrong as wrong:
        raise Wrong(f"{where}: {wrong}") from None
