"""Files, their sections, and inputs that are joined from several files, so that a refusal names a file and its line."""
from __future__ import annotations

import sys
from dataclasses import dataclass
from pathlib import Path
from typing import Callable

from .errors import Place, Unsuitable

#: the words that begin a section
SECTIONS = ("table", "list", "pool", "log", "deal", "cert")


def words_of(line: str) -> list[str]:
    """The words of a line as the program reads it: without a comment, apart by spaces and tabs alone."""
    text = line.removesuffix("\r").split("#", 1)[0]
    return [word for word in text.replace("\t", " ").split(" ") if word]


@dataclass(frozen=True)
class Source:
    """The bytes of a file, and the name that it is reported by."""

    name: str
    data: bytes

    @staticmethod
    def read(path: str | Path) -> Source:
        """The file of that path; `-` is standard input."""
        if str(path) == "-":
            return Source("standard input", sys.stdin.buffer.read())
        try:
            return Source(str(path), Path(path).read_bytes())
        except OSError as fault:
            raise Unsuitable(f"{path}: {fault.strerror}") from fault

    @property
    def lines(self) -> list[str]:
        """Its lines without their LF; bytes that are no UTF-8 come as U+FFFD. A last line without LF counts."""
        lines = self.data.decode("utf-8", "replace").split("\n")
        return lines[:-1] if lines[-1] == "" else lines

    def sections(self) -> list[tuple[str, int, int]]:
        """Each section as its first word, its first line and its last line, counted from 1.

        A section ends with its `end`; one that has none ends with the file, and a deal line is a section of one line.
        """
        found: list[tuple[str, int, int]] = []
        start, name = 0, ""
        lines = self.lines
        for number, line in enumerate(lines, 1):
            words = words_of(line)
            if not words:
                continue
            if not name:
                name, start = words[0], number
            if words == ["end"] or name == "deal":
                found.append((name, start, number))
                name = ""
        if name:
            found.append((name, start, len(lines)))
        return found

    def only(self, name: str) -> Source:
        """The file with all lines outside the sections of that name made empty: line numbers stay those of the file."""
        return self._blanked(lambda section: section != name)

    def without(self, *names: str) -> Source:
        """The file with the lines of the sections of these names made empty: line numbers stay those of the file."""
        return self._blanked(lambda section: section in names)

    def _blanked(self, goes: Callable[[str], bool]) -> Source:
        lines = self.lines
        for name, first, last in self.sections():
            if goes(name):
                lines[first - 1:last] = [""] * (last - first + 1)
        return Source(self.name, "".join(line + "\n" for line in lines).encode())

    def has(self, name: str) -> bool:
        """Whether it has a section of that first word."""
        return any(section[0] == name for section in self.sections())


@dataclass(frozen=True)
class Input:
    """What the program reads: files one after the other, each with a line feed at its end."""

    sources: tuple[Source, ...]

    @property
    def data(self) -> bytes:
        """The joined bytes. The last file stays as it is."""
        parts = [source.data for source in self.sources]
        return b"".join(part if part.endswith(b"\n") or not part else part + b"\n" for part in parts[:-1]) + parts[-1]

    def place(self, line: int) -> Place:
        """The file and line of a line of the joined text."""
        before = 0
        for source in self.sources[:-1]:
            count = len(source.lines)
            if line <= before + count:
                return Place(source.name, line - before, source.lines[line - before - 1])
            before += count
        last = self.sources[-1]
        number = line - before
        return Place(last.name, number, last.lines[number - 1] if 0 < number <= len(last.lines) else None)
