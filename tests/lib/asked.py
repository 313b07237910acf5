"""Asks a proved program of this repository line by line, and runs tests of its answers.

A program that is asked so reads lines and writes one line for each. It is the one that the gate has
built, in crates/NAME/out, or the one that the environment names by NAME in capitals; with UNPROVED=1
there it is made without any proof (`rt try`), and kept.
"""
import functools
import itertools
import os
import subprocess
import sys
from concurrent.futures import ThreadPoolExecutor

import unproved

TOP = os.path.dirname(os.path.dirname(os.path.dirname(os.path.abspath(__file__))))
SECONDS = 900
# The lines that a run of a program has at least.
LEAST = 20


class Wrong(Exception):
    """What a test found."""


def command(name):
    """The words that start a program, and the folder in which it starts."""
    folder = f"{TOP}/crates/{name}"
    made = os.environ.get(name.upper(), f"{folder}/out/{name}")
    if os.environ.get("UNPROVED"):
        made = unproved.program(name)
    elif not os.path.isfile(made):
        print(f"{name} is proved and built first", flush=True)
        quiet = {"stdin": subprocess.DEVNULL, "stdout": subprocess.DEVNULL}
        subprocess.run(["rt", "run"], cwd=folder, **quiet)
    return [made], folder


def ask(name, lines):
    """What the program answers to each of these lines, which hold no line feed. Each line is a case
    of its own, so the program runs on parts of them side by side."""
    words, folder = command(name)
    size = max(LEAST, -(-len(lines) // (os.cpu_count() or 1)))
    parts = [lines[at : at + size] for at in range(0, len(lines), size)]
    with ThreadPoolExecutor() as pool:
        answers = pool.map(functools.partial(answers_of, words, folder), parts)
        return list(itertools.chain.from_iterable(answers))


def answers_of(words, folder, lines):
    """What a program that is started so answers to each of these lines."""
    text = "".join(f"{line}\n" for line in lines).encode()
    how = {"input": text, "stdout": subprocess.PIPE, "stderr": subprocess.PIPE}
    ran = subprocess.run(words, cwd=folder, timeout=SECONDS, **how)
    answers = ran.stdout.decode(errors="surrogateescape").split("\n")[:-1]
    if ran.returncode != 0 or len(answers) != len(lines):
        said = ran.stderr.decode(errors="replace")[-600:]
        ended = f"status {ran.returncode}, {len(answers)} of {len(lines)} lines answered"
        raise Wrong(f"{words[0]}: {ended}: {said}")
    return answers


def hold(rows, answers):
    """Holds what was answered to the line of each row to the answer that the row wants."""
    for (line, wanted), came in zip(rows, answers):
        if came != wanted:
            raise Wrong(f"{shown(line)}: wanted {shown(wanted)}, came {shown(came)}")


def shown(text):
    return text if len(text) <= 200 else f"{text[:200]}.. ({len(text)} characters)"


def tried(test, run=None):
    """Whether a test passed, or what stands for it here."""
    try:
        (run or test)()
    except (Wrong, OSError, subprocess.SubprocessError) as wrong:
        print(f"FAILED {test.__name__}: {wrong}\n", end="", flush=True)
        return False
    print(f"ok {test.__name__}\n", end="", flush=True)
    return True


def chosen(tests):
    """These tests, or those of them that the arguments name, or whose module they name."""
    names = sys.argv[1:]
    return [it for it in tests if not names or it.__name__ in names or it.__module__ in names]


def status(results):
    print(f"{results.count(True)} passed, {results.count(False)} failed")
    return 0 if results and all(results) else 1


def one_by_one(tests):
    return [tried(it) for it in tests]


def main(tests, run_all=one_by_one):
    """Runs these tests, or those of them that the arguments name, and answers the exit status."""
    return status(run_all(chosen(tests)))


def main_of_rows(name, modules):
    """As `main`, of the TESTS of these modules, which give rows that the program answers."""
    return main_at_once([of_rows(name, it) for module in modules for it in module.TESTS])


def of_rows(name, rows_of):
    """The test that a program answers these rows as they want."""

    @functools.wraps(rows_of)
    def test():
        return rows_at_once(name, rows_of())

    return test


def rows_at_once(name, rows):
    """A test that holds what the program answers to these rows."""
    answers = yield name, [line for line, _ in rows]
    hold(rows, answers)


def main_at_once(tests):
    """As `main`, of tests that ask at once."""
    return status(at_once(chosen(tests)))


def at_once(tests):
    """Whether each of these tests passed, which give a generator that yields a program and lines, and
    goes on with the answers. So each program is started once."""
    begun = [it() for it in tests]
    answers = ask_at_once([next(it) for it in begun])
    runs = [functools.partial(go_on, *it) for it in zip(begun, answers)]
    return [tried(test, run) for test, run in zip(tests, runs)]


def ask_at_once(questions):
    """The answers to questions, each a program and lines; each program is started once."""
    lines = {}
    for name, asked in questions:
        lines.setdefault(name, []).extend(asked)
    answers = {name: iter(ask(name, asked)) for name, asked in lines.items()}
    return [list(itertools.islice(answers[name], len(asked))) for name, asked in questions]


def go_on(test, answers):
    try:
        test.send(answers)
    except StopIteration:
        return
    raise Wrong("a test asks once")
