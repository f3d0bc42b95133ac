"""Pay tables. The program alone decides whether one is well formed; here it is read, changed and written."""
from __future__ import annotations

from dataclasses import dataclass, replace
from fractions import Fraction
from pathlib import Path

from .errors import UnexpectedOutput, Unsuitable
from .program import Program, find_program
from .texts import Input, Source, words_of


@dataclass(frozen=True)
class PayLine:
    """One pay line. `pays[b - 1]` is the whole payment in coins for a bet of b coins."""

    name: str
    pattern: str
    qualifier: str
    pays: tuple[int, ...]

    def __str__(self) -> str:
        return " ".join(["line", self.name, self.pattern, self.qualifier, *map(str, self.pays)])


@dataclass(frozen=True)
class PayTable:
    """A pay table: `deck` cards, `wild` a rank or `none`, `coins` columns of payments, its lines in the order in which they pay.

    `source` is the file that it was read from; it is what the program reads, so that a refusal names its line.
    """

    name: str
    deck: int
    wild: str
    coins: int
    lines: tuple[PayLine, ...]
    source: Source

    @staticmethod
    def read(path: str | Path, program: Program | None = None) -> PayTable:
        """The table of a file; `-` is standard input, and the name of a built-in table (`vpoker tables`) serves, too."""
        if str(path) != "-" and not Path(path).exists():
            return built_in(str(path), program or find_program())
        return PayTable.of_source(Source.read(path), program)

    @staticmethod
    def parse(text: str, name: str = "table", program: Program | None = None) -> PayTable:
        """The table of a text; `name` is what a refusal calls it."""
        return PayTable.of_source(Source(name, text.encode()), program)

    @staticmethod
    def of_source(source: Source, program: Program | None = None) -> PayTable:
        """The table of a file. `Refused`, by the program's word, if it is none."""
        try:
            return _parsed(source)
        except (ValueError, LookupError):
            (program or find_program()).run(["multi", "1", "1"], Input((source,)))
            raise UnexpectedOutput(f"{source.name}: the program takes this table, and this package cannot read it") from None

    @property
    def text(self) -> str:
        """The table in its one spelling."""
        head = [f"table {self.name}", f"deck {self.deck}", f"wild {self.wild}", f"coins {self.coins}"]
        return "".join(line + "\n" for line in [*head, *map(str, self.lines), "end"])

    def line(self, name: str) -> PayLine:
        """The pay line of that name."""
        for line in self.lines:
            if line.name == name:
                return line
        raise Unsuitable(f"{self.source.name} has no pay line {name!r}; it has {', '.join(line.name for line in self.lines)}")

    def coin(self, wanted: int | None) -> int:
        """The bet that is meant: the wanted one, or the greatest of the table."""
        if wanted is not None and not 1 <= wanted <= self.coins:
            raise Unsuitable(f"{self.source.name} has payments for bets of 1 to {self.coins} coins, not of {wanted}")
        return wanted or self.coins

    def with_payment(self, name: str, coin: int, each: Fraction) -> PayTable:
        """The table in which the line pays `each` coins for each coin bet, in the column of the bet `coin`."""
        pay = each * coin
        if pay.denominator != 1 or not 0 <= pay <= 500000:
            raise Unsuitable(f"{name}={each}: {coin} coins would be paid {pay}, which is no whole number from 0 to 500000")
        self.line(name)
        lines = tuple(
            replace(line, pays=line.pays[:coin - 1] + (int(pay),) + line.pays[coin:]) if line.name == name else line
            for line in self.lines
        )
        changed = replace(self, lines=lines)
        return replace(changed, source=Source(self.source.name, changed.text.encode()))


def _parsed(source: Source) -> PayTable:
    rows = [words for words in map(words_of, source.lines) if words]
    head = dict((words[0], words[1]) for words in rows[:4])
    coins = int(head["coins"])
    lines = []
    for words in rows[4:rows.index(["end"])]:
        pays = tuple(map(int, words[-coins:]))
        lines.append(PayLine(words[1], " ".join(words[2:-coins - 1]), words[-coins - 1], pays))
    if list(head) != ["table", "deck", "wild", "coins"] or not 1 <= coins <= 5:
        raise ValueError("no pay table")
    return PayTable(head["table"], int(head["deck"]), head["wild"], coins, tuple(lines), source)


def built_in(name: str, program: Program) -> PayTable:
    """One of the tables that the program writes itself."""
    texts = program.run(["tables"]).text.split("end\n")
    for text in texts:
        if text.startswith(f"table {name}\n"):
            return _parsed(Source(name, (text + "end\n").encode()))
    names = ", ".join(text.split()[1] for text in texts if text.strip())
    raise Unsuitable(f"there is no file {name!r}, and no built-in table of that name (there are {names})")
