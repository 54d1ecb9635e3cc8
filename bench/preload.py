"""Runs a program with a small C library that is loaded before the C library's own, and tells something of the run."""

import os
import subprocess
import sys
from pathlib import Path
from shutil import which


def library_of(source, room):
    """The library that a file of C is compiled to."""
    if not which("cc"):
        sys.exit("there is no cc")
    library = Path(room, source.stem).with_suffix(".so")
    subprocess.run(["cc", "-O2", "-fPIC", "-shared", "-o", library, source], check=True)
    return library


def run_under(library, words, given, **settings):
    """What the program wrote, how it ended, and what the library told. The settings are for the library's eyes alone."""
    told, tells = os.pipe()
    names = {f"KEN_{name.upper()}": str(value) for name, value in settings.items()}
    with subprocess.Popen(
        words,
        stdin=subprocess.PIPE,
        stdout=subprocess.PIPE,
        stderr=subprocess.DEVNULL,
        pass_fds=[tells],
        env={**os.environ, "LD_PRELOAD": str(library), "KEN_TELL": str(tells), **names},
    ) as process:
        os.close(tells)
        written, _ = process.communicate(given)
    with os.fdopen(told, "rb") as told:
        return written, process.returncode, told.read()
