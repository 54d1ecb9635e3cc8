"""Asks the programs of rows, `crates/ken_rows_NAME`, and reads their transcripts: each row again, and its answer behind it."""

import re
import subprocess
import sys

from timing import Case, built

INDENT = "  "
SHOWN = 400
# Equal bytes that an answer spells as a run.
RUN = re.compile(rb"(.)\1{7,}", re.DOTALL)
# What an answer spells as a text.
PLAIN = re.compile(rb"[!-\-/-~]+")


def spelled(rows):
    return "".join(f"{row}\n" for row in rows).encode()


def bytes_word(data):
    """Bytes as an answer spells them, and as a row may."""
    parts, place = [], 0
    for run in RUN.finditer(data):
        parts += [data[place : run.start()].hex(), f"{run[1].hex()}*{len(run[0])}"]
        place = run.end()
    return ".".join(filter(None, [*parts, data[place:].hex()])) or "-"


def text_word(data):
    return f"'{data.decode()}" if PLAIN.fullmatch(data) else bytes_word(data)


def named(**fields):
    """Numbers, or lists of numbers, behind their names."""
    words = {name: value if isinstance(value, (list, tuple)) else [value] for name, value in fields.items()}
    return " ".join(f"{name}={','.join(map(str, numbers)) or '-'}" for name, numbers in words.items())


def answers_in(rows, transcript):
    """The answer to each row, as its lines. The transcript may end early."""
    lines = iter(transcript.split("\n"))
    line = next(lines)
    for row in rows:
        if line != row:
            return
        answer = []
        for line in lines:
            if not line.startswith(INDENT):
                break
            answer.append(line[len(INDENT) :])
        yield answer


class Program:
    """A program of rows, which is built first."""

    def __init__(self, name):
        self.name = f"ken_rows_{name}"
        self.path = built(self.name)

    def differs_at(self, pairs):
        """Asks rows, each with the lines of its answer, and finds the first that is answered otherwise, or at which the program ends:
        its place, and what was answered. None where all are answered so."""
        rows = [row for row, _ in pairs]
        done = subprocess.run([self.path], input=spelled(rows), capture_output=True)
        answers = list(answers_in(rows, done.stdout.decode()))
        ended = f"status {done.returncode}: {done.stderr.decode()}"
        for place, answer in enumerate(answers):
            if answer != pairs[place][1]:
                return place, "\n".join(answer) or ended
        if done.returncode or len(answers) < len(rows):
            return max(len(answers) - 1, 0), ended
        return None

    def case(self, rows):
        """A run on these rows, to be timed."""
        return Case([self.path], spelled(rows))

    def unread(self, rows):
        """A run on as many bytes of comments: what it takes to read rows, and to write them again."""
        return self.case([f"#{row}" for row in rows])


def reads_of(rows, case):
    """The answers of a run that was timed, which are to be those of all rows."""
    answers = list(answers_in(rows, case.taken.decode()))
    if len(answers) < len(rows):
        sys.exit(f"the program ended at row {len(answers)}: {rows[len(answers) - 1][:SHOWN]}")
    return answers
