"""Runs tests side by side, so that a program which answers their questions starts seldom.

Once each test that still runs waits for answers, all of their questions are asked together.
"""
import subprocess
import threading

from asked import Wrong, ask, tried


class Question:
    """Lines for the program, and behind the round what it answered, or why it didn't."""

    def __init__(self, lines):
        self.lines, self.is_over = list(lines), False
        self.answers = self.fault = None


class Rounds:
    """The questions of so many tests to a program."""

    def __init__(self, program, tests):
        self.program, self.running = program, tests
        self.questions, self.turn = [], threading.Condition()

    def ask(self, lines):
        """What the program answers to these lines."""
        question = Question(lines)
        with self.turn:
            self.questions.append(question)
            self.go_on()
            self.turn.wait_for(lambda: question.is_over)
        if question.fault is not None:
            raise question.fault
        return question.answers

    def leave(self):
        """A test ends, for which no other has to wait."""
        with self.turn:
            self.running -= 1
            self.go_on()

    def go_on(self):
        """Asks the questions where no test is left that may add one."""
        if not self.questions or len(self.questions) < self.running:
            return
        questions, self.questions = self.questions, []
        lines = list(dict.fromkeys(line for it in questions for line in it.lines))
        fault, table = None, {}
        try:
            table = dict(zip(lines, ask(self.program, lines)))
        except (Wrong, OSError, subprocess.SubprocessError) as why:
            fault = why
        for it in questions:
            it.answers, it.fault = [table.get(line) for line in it.lines], fault
            it.is_over = True
        self.turn.notify_all()


def side_by_side(rounds, tests):
    """Whether each of these tests passed, which ask by the rounds."""
    results = {}

    def run(test):
        try:
            results[test] = tried(test)
        finally:
            rounds.leave()

    threads = [threading.Thread(target=run, args=[test]) for test in tests]
    for thread in threads:
        thread.start()
    for thread in threads:
        thread.join()
    return [results.get(test, False) for test in tests]
