"""Finding the program `vpoker` and running it. All figures of this package come through `Program.run`."""
from __future__ import annotations

import hashlib
import os
import shutil
import subprocess
from dataclasses import dataclass
from functools import cached_property, lru_cache
from pathlib import Path

from .errors import ProgramMissing, Refused, RunFailed, UnexpectedOutput, UnknownCommand
from .texts import Input

HOW_TO_GET = """There is no program `vpoker`. This package computes nothing itself: it needs the proved program.
Build it in a clone of the repository, on a machine with the Rattle kit:
    cd crates/vpoker && rt run -- tables
or name a built one:
    export VPOKER=/path/to/vpoker"""

FAILURES = {
    4: "reading its input failed",
    5: "writing its output failed",
    6: "there was not enough memory",
    7: "the input has more than 67108864 bytes",
    8: "its arguments could not be read",
}


@dataclass(frozen=True)
class Answer:
    """What one run printed, and its exit status."""

    status: int
    output: bytes

    @property
    def text(self) -> str:
        return self.output.decode("utf-8", "replace")

    @property
    def words(self) -> list[str]:
        """The words of the first line."""
        return self.text.split("\n", 1)[0].split()


@dataclass(frozen=True)
class Program:
    """A built program `vpoker`."""

    path: Path

    @cached_property
    def sha256(self) -> str:
        """The SHA-256 of the program's file, in hexadecimal digits."""
        return hashlib.sha256(self.path.read_bytes()).hexdigest()

    def answer(self, words: list[str], data: bytes = b"") -> Answer:
        """Runs `vpoker WORDS` over the bytes, whatever it answers."""
        done = subprocess.run([str(self.path), *words], input=data, stdout=subprocess.PIPE, check=False)
        return Answer(done.returncode, done.stdout)

    def run(self, words: list[str], given: Input | None = None) -> Answer:
        """Runs `vpoker WORDS`; an answer with status 0 or 1 (a finding) comes back, any other is raised."""
        answer = self.answer(words, given.data if given else b"")
        raise_failure(answer, words, given)
        return answer


def raise_failure(answer: Answer, words: list[str], given: Input | None) -> None:
    """Raises what an answer says, if its status is neither 0 nor 1."""
    command = "vpoker " + " ".join(words)
    if answer.status in (0, 1):
        return
    if answer.status == 2:
        raise UnknownCommand(f"`{command}` is no command of this program, or a number is out of range")
    if answer.status == 3:
        raise refusal(answer, words, given)
    if answer.status < 0:
        raise RunFailed(f"`{command}` was ended by signal {-answer.status}", 9)
    raise RunFailed(f"`{command}`: {FAILURES.get(answer.status, f'it ended with status {answer.status}')}", answer.status)


def refusal(answer: Answer, words: list[str], given: Input | None) -> Refused:
    """The exception for `refused LINE` or `refused record K`."""
    said, command = answer.words, "vpoker " + " ".join(words)
    if said[:2] == ["refused", "record"] and len(said) == 3:
        return Refused(f"`{command}` refused record {said[2]}", record=int(said[2]), words=words, given=given)
    if said[:1] != ["refused"] or len(said) != 2 or not said[1].isdigit():
        raise UnexpectedOutput(f"`{command}` ended with status 3 and printed {answer.text[:60]!r}")
    line = int(said[1])
    place = given.place(line) if given else None
    return Refused(f"`{command}` refused {place or f'line {line}'}", line=line, place=place, words=words, given=given)


def find_program() -> Program:
    """The program that VPOKER names, that is on PATH, or that the repository around this package has built, in this order."""
    named = os.environ.get("VPOKER")
    if named:
        found = shutil.which(named)
        if not found:
            raise ProgramMissing(f"VPOKER names {named}, which is no program.\n{HOW_TO_GET}")
        return _program(found)
    found = shutil.which("vpoker")
    if found:
        return _program(found)
    for folder in Path(__file__).resolve().parents:
        built = folder / "crates" / "vpoker" / "out" / "vpoker"
        if os.access(built, os.X_OK) and built.is_file():
            return _program(str(built))
    raise ProgramMissing(HOW_TO_GET)


@lru_cache(maxsize=None)
def _program(path: str) -> Program:
    return Program(Path(path).resolve())
