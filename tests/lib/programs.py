#!/usr/bin/env python3
"""A program of this repository: the proved one where there is one, and else one without a proof.

As a command it prints `proved` or `unproved` and the path of the program that it names, and on
standard error what it makes before, and how long that takes. With --proved it has the program proved
where it isn't.
"""

import argparse
import contextlib
import signal
import subprocess
import sys

sys.dont_write_bytecode = True
import unproved
from checkout import Checkout
from unproved import TOP, NotMade


def say(text):
    print(text, file=sys.stderr, flush=True)


def proved(name):
    """The path of the program that is proved as its sources stand; None where there is none."""
    return Checkout(TOP).program(name)


def prove(name):
    """The path of the proved program, which is proved first where it isn't."""
    if not proved(name):
        say(f"{name} is proved first. On four processors that takes half an hour to an hour from nothing.")
        subprocess.run([f"{TOP}/bench/prove", name], stdout=sys.stderr, check=False)
    path = proved(name)
    if not path:
        raise NotMade(f"{name} isn't proved: what the proof said is in {TOP}/.prove")
    return path


def without_proof(name):
    """The path of the program as it is made without a proof, once for these sources."""
    if not unproved.is_kept(name):
        say(f"{name} is made without a proof first. That takes some two minutes, once.")
    return unproved.program(name)


def main():
    words = argparse.ArgumentParser(description=__doc__.split("\n\n", maxsplit=1)[0])
    words.add_argument("name")
    words.add_argument("--proved", action="store_true")
    said = words.parse_args()
    if said.proved:
        print("proved", prove(said.name))
    elif path := proved(said.name):
        print("proved", path)
    else:
        print("unproved", without_proof(said.name))


@contextlib.contextmanager
def told_at_the_end():
    """Ends a command for which there is no program with a line that says why, and one that is told to
    end so that it removes what it made."""
    signal.signal(signal.SIGTERM, lambda number, _: sys.exit(128 + number))
    try:
        yield
    except KeyboardInterrupt:
        sys.exit(128 + signal.SIGINT)
    except NotMade as why:
        sys.exit(str(why))
    except FileNotFoundError as why:
        if why.filename != "rt":
            raise
        sys.exit("The command rt isn't found. It is that of the toolchain which the file KIT names.")


if __name__ == "__main__":
    with told_at_the_end():
        main()
