"""What of a run is durable when, by the order of its system calls, and where some of them fail."""
import os
import re
import subprocess

from calls import need_strace
from order import check_durable, first_syncs
from roots import (
    DONE,
    EXEC,
    HELLO,
    JOURNAL,
    LARGE,
    PLAIN,
    SPARE,
    Host,
    Skipped,
    check_second_run,
    expect,
    open_journal,
    programs,
    read,
    run,
    seen,
    seen_as,
    tools,
    write,
)

LINES = ["line 1", "line 2"]
GATE = ["the gate", "the change behind it", "the gate's end"]


def what_is_told_is_durable():
    """A line tells of what is durable; before the gate its stages are, before a file has its name the
    file is, and before the gate goes the names are."""
    order = check_durable(Host(tools()), GATE + LINES)
    expect(order.count("link") == 10, f"{order.count('link')} files are the stages themselves")
    host = Host(tools())
    open_journal(host, ["etc/old"], [(PLAIN, "usr/bin/old", b"whole")])
    write(host.at("etc/old"), b"old")
    check_durable(host, ["the gate's end", "the change behind it"] + GATE + LINES)


def links_that_the_system_refuses():
    """A file that can have no second name is copied, and is durable before it has its place."""
    for error in ("EMLINK", "EXDEV", "EPERM"):
        host = Host(tools())
        order = check_durable(host, GATE + LINES, [f"link:error={error}"])
        expect(order.count("link") == 0, f"{error}: a file got a second name")
        host.check_merged()


def root_on_two_disks():
    """What is placed on another disk than that of the journal is copied."""
    host = Host(tools(LARGE))
    other = host.at("usr")
    os.makedirs(other)
    words = ["mount", "-t", "tmpfs", "-o", "size=4m,mode=755", "none", other]
    if subprocess.run(words, capture_output=True).returncode != 0:
        raise Skipped("no second disk can be made here; the refused links above stand for it")
    try:
        host.run().expect(0, DONE, "")
        host.check_merged()
    finally:
        subprocess.run(["umount", other], check=True)


def recovery_over_its_own_links():
    """A placed file may be its stage already, and the spare name may be another name of it."""
    for spare in (True, False):
        host = Host(tools())
        # (another one in the same folder would want the spare name for itself)
        open_journal(host, [], [(PLAIN, "usr/bin/old", b"whole"), (EXEC, "usr/lib/new", b"new")])
        os.makedirs(host.at("usr/bin"), mode=0o755)
        stage = host.at(f"{JOURNAL}/00000001/stage/00000000")
        os.link(stage, host.at("usr/bin/old"))
        if spare:
            os.link(stage, host.at(f"usr/bin/{SPARE}"))
        host.run("--pretend", "app-misc/hello").expect(0, None, "")
        host.check_clean()
        for path, want in (("bin/old", (PLAIN, b"whole")), ("lib/new", (EXEC, b"new"))):
            name = host.at(f"usr/{path}")
            expect(seen(name) == seen_as(*want), f"{path} is another file")
            expect(os.lstat(name).st_nlink == 1, f"{path} has another name")
        host.run().expect(0, DONE, "")
        host.check_merged()


def what_the_first_sync_is():
    """It is that of all disks where a stopped run has left a journal, and else that of the folders on
    the way to where the journal is missing."""
    host = Host(tools())
    expect(sorted(first_syncs(host)) == ["/", "/var"], "a first run syncs something else")
    host = Host(tools())
    os.makedirs(host.at("var/lib/portage"))
    way = ["/", "/var", "/var/lib", "/var/lib/portage"]
    expect(sorted(first_syncs(host)) == way, "the folders above the journal aren't synced")
    host = Host(tools())
    open_journal(host, [], [(PLAIN, "usr/bin/old", b"whole")])
    expect(first_syncs(host)[0] == "sync", "a run behind a stopped one doesn't sync all")
    host = Host(tools())
    os.makedirs(host.at(f"{JOURNAL}/00000002/stage"))
    host.run("--pretend", "app-misc/hello").expect(0, None, "")
    expect(not os.path.lexists(host.at(JOURNAL)), "the journal's empty folders are left")


def counted(host, names, *words):
    """How often a run makes each of some system calls, also where they fail."""
    need_strace()
    log = f"{host.folder}/counted"
    trace = ",".join(f"?{name}" for name in names)
    run(["strace", "-f", "-qq", "-o", log, "-e", f"trace={trace}", *host.words(*words)]).expect(0)
    made = [re.match(r"\d+ +(\w+)\(", line) for line in read(log).decode().splitlines()]
    return [sum(it is not None and it[1] == name for it in made) for name in names]


def threads_of_a_sync():
    """A sync starts a thread for each further lane of files, and none where no file waits for it."""
    host = Host(tools())
    expect(sum(counted(host, ["clone", "clone3"])) == 3, "a merge has one sync of many files")
    host.check_merged()
    expect(sum(counted(host, ["clone", "clone3"])) == 0, "a thread is started that has nothing to do")


def folders_with_nothing_left():
    """They go with the sync behind the last object that was in them, and are asked for once."""
    image = {f"usr/lib/{at % 3}/file-{at}": (PLAIN, b"%d\n" % at) for at in range(60)}
    host = Host(image)
    (asked,) = counted(host, ["rmdir"])
    expect(asked < 20, f"{asked} folders are asked for")
    host.check_merged()
    plan = f"plan 1\ngroup 1\nremove {HELLO}:0\n".encode()
    write(host.at("var/plan"), plan)
    (asked,) = counted(host, ["rmdir"], "--plan", "var/plan")
    expect(asked < 30, f"{asked} folders are asked for")
    expect(not os.path.lexists(host.at("usr")), "the package's folders are left")
    expect(not os.path.lexists(host.at("var/db/pkg")), "the record's folders are left")


def folders_of_a_stopped_removal():
    """A recovery takes away the folders whose last object the stopped run has removed."""
    host = Host()
    open_journal(host, ["usr/old/a/gone", "usr/old/b/c/gone"], [(PLAIN, "usr/bin/old", b"whole")])
    for folder in ("usr/old/a", "usr/old/b/c", "usr/empty"):
        os.makedirs(host.at(folder))
    host.run("--pretend", "app-misc/hello").expect(0, None, "")
    expect(not os.path.lexists(host.at("usr/old")), "a folder is left that has nothing")
    expect(os.path.isdir(host.at("usr/empty")), "another folder went")


def sync_that_fails():
    """The first sync of a run comes before it changes anything, also what a stopped one left."""
    host = Host()
    open_journal(host, [], [(PLAIN, "usr/bin/old", b"whole")])
    before = host.snapshot()
    ran = host.run(path=programs("exit 1"))
    ran.expect(16, "emerge: DeviceFault\n", "sync")
    expect(host.snapshot() == before, "something was changed before the first sync")
    host.run().expect(0, DONE)
    host.check_merged()


def syncs_of_files_that_fail():
    """The first one of each thread, and then of the threads that follow."""
    need_strace()
    quick = programs("exit 0")
    host = Host()
    before = host.snapshot()
    words = ["strace", "-f", "-qq", "-o", "/dev/null", "-e", "trace=fsync"]
    ran = run([*words, "-e", "inject=fsync:error=EIO:when=1", *host.words()], path=quick)
    ran.expect(16, "emerge: DeviceFault\n", "sync")
    expect(host.snapshot() == before, "something was changed before the first sync")
    for at in range(2, 12):
        host = Host({f"usr/lib/{it}": (PLAIN, b"%d\n" % it) for it in range(100)})
        ran = run([*words, "-e", f"inject=fsync:error=EIO:when={at}", *host.words()], path=quick)
        expect(ran.status in (0, 16), f"at {at}: status {ran.status}")
        expect(ran.status == 0 or "emerge: sync" in ran.err or "emerge: put" in ran.err, ran.err)
        check_second_run(host, quick, f"fsync {at}")
