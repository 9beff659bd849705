"""Where the program is, and one run of it."""

import pathlib
import subprocess
from dataclasses import dataclass

TOP = pathlib.Path(__file__).resolve().parents[2]
LAUNCHER, BUILT = TOP / "continuity", TOP / "crates/continuity/out/continuity"
SHORT = ("load", "1", "1", "1")     # what a launcher runs that has only to build


class NoProgram(Exception):
    """There is no program that could be run."""


@dataclass(frozen=True)
class Ended:
    """How a run ended."""
    status: int
    printed: bytes
    told: str       # on standard error

    def why(self):
        return f"the program ended with {self.status}" + (f": {self.told}" if self.told else "")


def built():
    """The program of the launcher, which builds it first where it is not. That takes long: what it says of it is seen at once."""
    ran = started([LAUNCHER, *SHORT], stdout=subprocess.DEVNULL)
    if ran.returncode:
        raise NoProgram(f"{LAUNCHER} ended with {ran.returncode}")
    return BUILT


def run(program, command, given):
    """Gives a program a command and its input."""
    ran = started([program, command], input=given, capture_output=True)
    return Ended(ran.returncode, ran.stdout, ran.stderr.decode(errors="replace").strip())


def started(words, **streams):
    try:
        return subprocess.run(list(map(str, words)), check=False, **streams)
    except OSError as why:
        raise NoProgram(f"{words[0]} cannot be run: {why.strerror}") from why
