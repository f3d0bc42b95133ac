"""What the commands of the program answer, as dataclasses.

Every figure is a `Fraction` or a whole number. Expected payments are in coins for the whole bet; returns, losses and
contributions are per coin bet (1 is 100 %); chances are between 0 and 1.
"""
from __future__ import annotations

from dataclasses import dataclass
from fractions import Fraction
from typing import Iterator

from .cards import held


@dataclass(frozen=True)
class Finding:
    """A broken rule: the line of a certificate or the game of a log, the rule, the number found and the number expected."""

    line: int
    rule: str
    said: int
    due: int


@dataclass(frozen=True)
class Deal:
    """The best hold of a deal. `mask` is the least of the tied ones, `ties` how many of the 32 holds are best."""

    cards: tuple[str, ...]
    mask: int
    value: Fraction
    pat: Fraction
    ties: int


@dataclass(frozen=True)
class Hold:
    """One of the 32 holds of a deal: its mean payment, and how many of its draws end on each pay line, and on none."""

    mask: int
    cards: tuple[str, ...]
    value: Fraction
    draws: dict[str, int]
    none: int

    @property
    def total(self) -> int:
        """The number of its draws."""
        return sum(self.draws.values()) + self.none


@dataclass(frozen=True)
class Holds:
    """The 32 holds of a deal, best first, equal ones by rising mask."""

    cards: tuple[str, ...]
    holds: tuple[Hold, ...]

    @property
    def ties(self) -> int:
        """How many holds are best."""
        return sum(hold.value == self.holds[0].value for hold in self.holds)


@dataclass(frozen=True)
class ClassLine:
    """A class of deals: its representative, how many deals it has, its least best hold, and that hold's mean payment times L."""

    cards: tuple[str, ...]
    weight: int
    mask: int
    scaled: int

    @property
    def held(self) -> tuple[str, ...]:
        """The held cards."""
        return held(self.cards, self.mask)


@dataclass(frozen=True)
class Certificate:
    """A certificate: its bytes, its classes, and the return SUM / DENOMINATOR."""

    data: bytes
    classes: tuple[ClassLine, ...]
    sum: int
    denominator: int

    @property
    def rtp(self) -> Fraction:
        """The return per coin bet."""
        return Fraction(self.sum, self.denominator)


@dataclass(frozen=True)
class LineChance:
    """How often a pay line comes: `combinations` of the cycle of `Hits`, and what it pays for the bet, in coins."""

    name: str
    pay: int
    combinations: int
    chance: Fraction
    contribution: Fraction

    @property
    def one_in(self) -> Fraction | None:
        """One in so many hands; None if it never comes."""
        return 1 / self.chance if self.chance else None


@dataclass(frozen=True)
class Hits:
    """The chances of all lines under best play. `cycle` is deals times L, of which `combinations` are counted."""

    coin: int
    lines: tuple[LineChance, ...]
    none: int
    cycle: int
    rtp: Fraction

    @property
    def hit_frequency(self) -> Fraction:
        """The chance that a hand is paid anything."""
        return sum((line.chance for line in self.lines if line.pay > 0), Fraction(0))


@dataclass(frozen=True)
class Moments:
    """Several hands from one deal. `mean` and `second` are of the payment of all hands, in coins and coins squared;
    `within` and `between` are the two parts of the variance of one hand: of the draws, and of the deals."""

    coin: int
    hands: int
    mean: Fraction
    second: Fraction
    within: Fraction
    between: Fraction

    @property
    def rtp(self) -> Fraction:
        """The return per coin bet."""
        return self.mean / (self.hands * self.coin)

    def variance(self, hands: int = 1) -> Fraction:
        """The variance of the payment of so many hands from one deal, in bets of one hand squared."""
        return (hands * self.within + hands * hands * self.between) / self.coin**2


@dataclass(frozen=True)
class RuleLoss:
    """What a rule of a list decides: how many deals, and what they lose per coin bet."""

    deals: int
    loss: Fraction


@dataclass(frozen=True)
class Audit:
    """What a list costs. `rules` are in the order of the list; `ambiguous` is the number of deals on which it leaves a
    choice that matters."""

    optimum: Fraction
    least: Fraction
    greatest: Fraction
    loss: Fraction
    ambiguous: int
    exceptions: RuleLoss
    rules: tuple[RuleLoss, ...]
    none: RuleLoss


@dataclass(frozen=True)
class CardError:
    """A class on which a list loses. `what` is `rule`, `except` or `none`, `number` that of the rule or exception from 1
    (0 for `none`); `best` the mask of the best hold, `charged` that of the hold that the list may lead to; `loss` is that
    of all deals of the class, per coin bet."""

    cards: tuple[str, ...]
    weight: int
    what: str
    number: int
    best: int
    charged: int
    loss: Fraction


@dataclass(frozen=True)
class CardErrors:
    """The classes on which a list loses most, dearest first, and what the other losing classes are together."""

    optimum: Fraction
    loss: Fraction
    errors: tuple[CardError, ...]
    rest_classes: int
    rest_deals: int
    rest_loss: Fraction


@dataclass(frozen=True)
class Compiled:
    """A list made from a pool: its text, and the losses of the pool's order, of the settled order and of the list."""

    optimum: Fraction
    start: Fraction
    settled: Fraction
    loss: Fraction
    text: str

    @property
    def rules(self) -> list[str]:
        """Its rules, without the word `rule`."""
        return [line[5:] for line in self.text.splitlines() if line.startswith("rule ")]

    @property
    def exceptions(self) -> list[tuple[tuple[str, ...], int]]:
        """Its exceptions: the representative of a class, and the mask."""
        rows = [line.split() for line in self.text.splitlines() if line.startswith("except ")]
        return [(tuple(row[1:6]), int(row[6])) for row in rows]


@dataclass(frozen=True)
class Worst:
    """The class on which another game's play costs most: the mask that is held, the best one, and by how many coins that is
    worth more for each deal."""

    cards: tuple[str, ...]
    mask: int
    best: int
    cost: Fraction


@dataclass(frozen=True)
class Cross:
    """What one table's best play returns on another, in how many classes and deals it errs there, and where most."""

    optimum: Fraction
    cross: Fraction
    loss: Fraction
    classes: int
    deals: int
    worst: Worst | None


@dataclass(frozen=True)
class Piece:
    """From the payment `start` on the return at the payment x is (base + slope * x) / D, until the next piece.
    `deals` is the number of deals that are played otherwise from there on."""

    start: int
    classes: int
    deals: int
    base: int
    slope: int


@dataclass(frozen=True)
class Meter:
    """The return over the whole payments `lo` to `hi` of one line. `denominator` is D of `Piece`."""

    coin: int
    line: str
    lo: int
    hi: int
    pieces: tuple[Piece, ...]
    denominator: int

    def ends(self) -> Iterator[tuple[Piece, int]]:
        """Each piece with its last payment."""
        for number, piece in enumerate(self.pieces, 1):
            yield piece, self.pieces[number].start - 1 if number < len(self.pieces) else self.hi

    def rtp(self, payment: int) -> Fraction:
        """The return at a whole payment from lo to hi."""
        if not self.lo <= payment <= self.hi:
            raise ValueError(f"{payment} is not from {self.lo} to {self.hi}")
        piece = [piece for piece in self.pieces if piece.start <= payment][-1]
        return Fraction(piece.base + piece.slope * payment, self.denominator)

    def least(self, target: Fraction = Fraction(1)) -> int | None:
        """The least whole payment at which the return is at least the target; None if there is none up to hi."""
        for piece, last in self.ends():
            if Fraction(piece.base + piece.slope * last, self.denominator) < target:
                continue
            if piece.slope == 0:
                return piece.start
            wanted = (target * self.denominator - piece.base) / piece.slope
            return max(piece.start, -(-wanted.numerator // wanted.denominator))
        return None


@dataclass(frozen=True)
class Cost:
    """A game whose hold is not best, from 1, and by how many coins the best hold is worth more."""

    game: int
    cost: Fraction


@dataclass(frozen=True)
class Replay:
    """A lawful log: its sums in coins, and what its holds cost. `loss` is the sum of the costs."""

    costs: tuple[Cost, ...]
    games: int
    bet: int
    paid: int
    credits: int
    slips: int
    loss: Fraction


@dataclass(frozen=True)
class Checked:
    """A certificate of which `walked` of `classes` class lines were enumerated, and no rule is broken."""

    classes: int
    walked: int
    rtp: Fraction


@dataclass(frozen=True)
class ClassValues:
    """The mean payments times L of all 32 holds of a class, by their masks."""

    cards: tuple[str, ...]
    weight: int
    scaled: tuple[int, ...]

    @property
    def ties(self) -> int:
        """How many of the holds are best."""
        return self.scaled.count(max(self.scaled))
