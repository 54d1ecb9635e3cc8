"""Times runs of a program: each case is run again and again, and its best run counts."""

import os
import subprocess
import sys
import tempfile
import time
from dataclasses import dataclass, field
from pathlib import Path

ROOT = Path(__file__).resolve().parent.parent
TIME = Path("/usr/bin/time")

# A case runs until it has taken so many seconds, and at least so often.
SECONDS = 2.0
LEAST_RUNS = 6


@dataclass
class Case:
    """A command with its input, and what running it took."""

    words: list
    given: bytes = b""
    seconds: float = field(default=float("inf"), init=False)
    spent: float = field(default=0.0, init=False)
    runs: int = field(default=0, init=False)
    taken: bytes = field(default=b"", init=False)
    # In KiB, or 0 where nothing tells it.
    peak: int = field(default=0, init=False)

    @property
    def peak_kib(self):
        return f"{self.peak:,}" if self.peak else ""

    def has_time_left(self):
        return self.runs < LEAST_RUNS or self.spent < SECONDS


def is_current(program):
    """Whether a program is built, as the gate builds all of them, and no file of a crate has changed since."""
    if not os.access(program, os.X_OK):
        return False
    parts = (ROOT.glob(f"crates/*/{part}/**/*") for part in ("src", "specs", "proofs"))
    files = [ROOT / "crates.txt", *(path for part in parts for path in part if path.is_file())]
    return all(path.stat().st_mtime <= program.stat().st_mtime for path in files)


def built(crate, *words):
    """The program of a crate. Where it isn't built, rt builds it: only to run it, here with these words and no input. It says what
    it does meanwhile."""
    if is_current(program := ROOT / "crates" / crate / "out" / crate):
        return program
    print(f"rt builds {crate}, and proves what isn't proved yet", file=sys.stderr, flush=True)
    told, folder = [], ROOT / "crates" / crate
    streams = {"stdin": subprocess.DEVNULL, "stdout": subprocess.PIPE, "stderr": subprocess.STDOUT}
    with subprocess.Popen(["rt", "run", "--", *words], cwd=folder, text=True, **streams) as rt:
        for line in rt.stdout:
            told.append(line)
            if line.startswith(("rt:", "so far:")):
                print(line, end="", file=sys.stderr, flush=True)
    if rt.returncode:
        raise SystemExit("".join(told))
    return program


def run(words, case, room):
    """Runs a command on a case's input, and returns what it wrote and the seconds that it took."""
    given, taken = room / "given", room / "taken"
    given.write_bytes(case.given)
    with open(given, "rb") as source, open(taken, "wb") as sink:
        start = time.perf_counter()
        subprocess.run(words, stdin=source, stdout=sink, stderr=subprocess.DEVNULL)
        seconds = time.perf_counter() - start
    return taken.read_bytes(), seconds


def time_once(case, room):
    case.taken, seconds = run(case.words, case, room)
    case.seconds = min(case.seconds, seconds)
    case.spent += seconds
    case.runs += 1


def find_peak(case, room):
    """The most memory that a run held. Python can't tell: it counts its own memory with a child's."""
    if TIME.exists():
        told = room / "peak"
        run([TIME, "-q", "-f", "%M", "-o", told, *case.words], case, room)
        case.peak = int(told.read_text())


def measure(cases):
    """Times all cases once, and then again those that have time left, so that what else the machine does hits them alike."""
    with tempfile.TemporaryDirectory() as folder:
        room = Path(folder)
        while any(case.has_time_left() for case in cases):
            for case in cases:
                if case.has_time_left():
                    time_once(case, room)
        for case in cases:
            find_peak(case, room)


def print_row(*cells):
    print("| " + " | ".join(f"{cell:>12}" for cell in cells) + " |")
