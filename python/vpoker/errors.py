"""What can go wrong with a run of the program, as exceptions with its exit status."""
from __future__ import annotations

from dataclasses import dataclass
from typing import TYPE_CHECKING, Sequence

if TYPE_CHECKING:
    from .texts import Input


@dataclass(frozen=True)
class Place:
    """A line of a file: its name, the line counted from 1, and its text without the line end.

    `text` is None if the line is past the end of the file: the input ends too early.
    """

    file: str
    line: int
    text: str | None

    def __str__(self) -> str:
        return f"{self.file}:{self.line}"


class VpokerError(Exception):
    """Any failure of a run. `status` is the exit status that `vp` ends with."""

    status = 9


class ProgramMissing(VpokerError):
    """There is no program `vpoker`, or what VPOKER names is none."""

    status = 127


class UnknownCommand(VpokerError):
    """The program answered `usage`: it does not know the command, or a number is out of range."""

    status = 2


class Refused(VpokerError):
    """The input is not in the language of the command, or does not fit it.

    `line` is the line of the joined input, counted from 1; `place` the line of the file that it came from.
    `record` is the number of the CSV record instead, for `sessions`. `words` and `given` are the run that was refused.
    """

    status = 3

    def __init__(self, message: str, line: int | None = None, place: Place | None = None, record: int | None = None,
                 words: Sequence[str] = (), given: Input | None = None):
        super().__init__(message)
        self.line, self.place, self.record = line, place, record
        self.words, self.given = list(words), given


class Unsuitable(VpokerError):
    """What was asked for cannot be computed: no such pay line, no column for the bet, a payment that is no whole number."""

    status = 2


class RunFailed(VpokerError):
    """The program could not do its work: 4 to 8 as in docs/FORMATS.md, or a signal ended it."""

    def __init__(self, message: str, status: int):
        super().__init__(message)
        self.status = status if 0 < status < 128 else 9


class UnexpectedOutput(VpokerError):
    """The program printed a text of another form than docs/FORMATS.md says; versions that do not fit together."""
