"""A certificate checked on many class lines: the parts, what is kept of them, and the verdict."""
from __future__ import annotations

import fcntl
import hashlib
import json
import random
from dataclasses import dataclass, field
from pathlib import Path
from typing import IO, Any, Iterator

from .answers import Checked, Finding
from .errors import UnexpectedOutput, Unsuitable
from .program import Answer, Program, raise_failure
from .runs import read_check
from .tables import PayTable
from .texts import Input, Source, words_of
from .workers import Job, run_all

#: how many class lines one run enumerates
PART = 100


@dataclass(frozen=True)
class Text:
    """A certificate as a file: its table, its bet, and the lines of the file on which its classes stand, from 1."""

    source: Source
    table: PayTable
    coin: int
    class_lines: tuple[int, ...]

    @property
    def sha256(self) -> str:
        """The SHA-256 of the whole file."""
        return hashlib.sha256(self.source.data).hexdigest()

    @property
    def table_sha256(self) -> str:
        """The SHA-256 of the table in its one spelling."""
        return hashlib.sha256(self.table.text.encode()).hexdigest()

    @staticmethod
    def read(source: Source, program: Program) -> Text:
        """The certificate of a file. `Refused`, by the program's word, if it is none."""
        answer = program.run(["check", "1", "0"], Input((source,)))
        rows = [(number, words_of(line)) for number, line in enumerate(source.lines, 1)]
        coin = next(int(words[1]) for _, words in rows if words[:1] == ["cert"])
        classes = tuple(number for number, words in rows if words[:1] == ["class"])
        said = read_check(answer)
        if isinstance(said, Checked) and said.classes != len(classes):
            raise UnexpectedOutput(f"the program counts {said.classes} class lines, where {len(classes)} are")
        return Text(source, PayTable.of_source(source.without("cert")), coin, classes)

    def difference(self, program: Program) -> tuple[int, str | None, str | None] | None:
        """The first line in which it differs from what `certify` prints for its table: its number, its text and certify's."""
        made = program.run(["certify", str(self.coin)], Input((self.table.source,))).output
        if made == self.source.data:
            return None
        ours, theirs = Source("", made).data.split(b"\n"), self.source.data.split(b"\n")
        for number in range(max(len(ours), len(theirs))):
            mine = ours[number] if number < len(ours) else None
            other = theirs[number] if number < len(theirs) else None
            if mine != other:
                return number + 1, _text(other), _text(mine)
        return None


def _text(line: bytes | None) -> str | None:
    return None if line is None else line.decode("utf-8", "backslashreplace").replace("\r", "\\r")


def all_parts(classes: int) -> list[tuple[int, int]]:
    """The first place and the number of class lines of each part; together they are each line once."""
    return [(start, min(PART, classes - start + 1)) for start in range(1, classes + 1, PART)]


def sampled(classes: int, number: int, seed: int) -> list[tuple[int, int]]:
    """So many places drawn at random, each a part of one line, by the Mersenne twister of Python from the seed."""
    if number > classes:
        raise Unsuitable(f"the certificate has {classes} class lines, fewer than {number}")
    return [(place, 1) for place in sorted(random.Random(seed).sample(range(1, classes + 1), number))]


@dataclass
class Kept:
    """The answers of the parts that are done, in a file of JSON lines, so that a stopped check goes on.

    Its first line has the SHA-256 of the certificate and of the program: with another of them it begins anew.
    """

    path: Path
    head: dict[str, str]
    answers: dict[tuple[int, int], Answer] = field(default_factory=dict)

    def load(self) -> None:
        """Reads what an earlier run has kept. A line that was cut off is left out."""
        try:
            rows = [json.loads(line) for line in self.path.read_text().splitlines() if line.endswith("}")]
        except (OSError, ValueError):
            rows = []
        if rows and rows[0] == self.head:
            for row in rows[1:]:
                self.answers[row["from"], row["count"]] = Answer(row["status"], row["output"].encode())

    def open(self) -> IO[str]:
        """The file, with what is known in it, to be written on."""
        try:
            file = self.path.open("a")
            fcntl.flock(file, fcntl.LOCK_EX | fcntl.LOCK_NB)
        except BlockingIOError as fault:
            raise Unsuitable(f"another check of this certificate is at work on {self.path}") from fault
        except OSError as fault:
            raise Unsuitable(f"{self.path}: {fault.strerror}") from fault
        file.truncate(0)
        for row in [self.head, *(self.row(part, answer) for part, answer in self.answers.items())]:
            file.write(json.dumps(row) + "\n")
        file.flush()
        return file

    @staticmethod
    def row(part: tuple[int, int], answer: Answer) -> dict[str, Any]:
        """A part as it is kept."""
        return {"from": part[0], "count": part[1], "status": answer.status, "output": answer.text}


def walk(text: Text, program: Program, parts: list[tuple[int, int]], kept: Kept, cluster: str | None) -> Iterator[int]:
    """Runs the parts that are not done, and keeps their answers; yields the number of class lines of each.

    It ends early if a finding is known and each part before it is done.
    """
    with kept.open() as file:
        todo = [part for part in parts if part not in kept.answers]
        jobs = [Job(key, ("check", str(start), str(count)), text.source.data) for key, (start, count) in enumerate(todo)]
        for job, answer in run_all(program, jobs, cluster):
            raise_failure(answer, list(job.words), Input((text.source,)))
            part = todo[job.key]
            kept.answers[part] = answer
            file.write(json.dumps(kept.row(part, answer)) + "\n")
            file.flush()
            yield part[1]
            if settled(text, parts, kept):
                return


def settled(text: Text, parts: list[tuple[int, int]], kept: Kept) -> bool:
    """Whether no part that is not done can have an earlier finding than the first that is known."""
    first = first_finding(kept)
    if first is None:
        return False
    line = first.line
    return all(part in kept.answers for part in parts if text.class_lines[part[0] - 1] <= line)


def first_finding(kept: Kept) -> Finding | None:
    """Of all findings the one of the least line, as one check of all lines would say it."""
    found = [said for said in map(read_check, (answer for answer in kept.answers.values() if answer.status == 1))
             if isinstance(said, Finding)]
    return min(found, key=lambda finding: finding.line) if found else None


def walked(parts: list[tuple[int, int]], kept: Kept) -> int:
    """How many class lines of the parts were enumerated without a finding, by the program's own count."""
    said = [read_check(kept.answers[part]) for part in parts if part in kept.answers]
    return sum(one.walked for one in said if isinstance(one, Checked))
