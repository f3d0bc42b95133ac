"""One function a command of the program: it runs it, and reads what it prints. Nothing is computed here.

`coin` is the bet in coins; without it, it is the greatest of the table. `program` is found by `find_program` if it is not given.
"""
from __future__ import annotations

from fractions import Fraction
from functools import wraps
from typing import Callable, Iterator, ParamSpec, TypeVar

from . import answers as a
from .cards import DECKS, Hand
from .errors import UnexpectedOutput, Unsuitable
from .program import Answer, Program, find_program
from .tables import PayTable
from .texts import Input, Source

P = ParamSpec("P")
T = TypeVar("T")


def _reads(function: Callable[P, T]) -> Callable[P, T]:
    """A text of another form than the function knows becomes `UnexpectedOutput`."""

    @wraps(function)
    def reading(*args: P.args, **named: P.kwargs) -> T:
        try:
            return function(*args, **named)
        except (ValueError, LookupError) as fault:
            raise UnexpectedOutput(f"`{function.__name__}`: the program printed what this package cannot read ({fault})") from fault

    return reading


def _rows(answer: Answer) -> list[list[str]]:
    return [line.split() for line in answer.text.splitlines()]


def _fraction(words: list[str]) -> Fraction:
    over, slash, under = words
    if slash != "/":
        raise ValueError(f"no fraction: {words}")
    return Fraction(int(over), int(under))


def _run(program: Program | None, words: list[object], *sources: Source) -> Answer:
    return (program or find_program()).run([str(word) for word in words], Input(sources))


def _deal_source(hand: Hand | str) -> Source:
    known = Hand.of(hand) if isinstance(hand, str) else hand
    return Source("the deal", f"deal {known}\n".encode())


def finding_of(answer: Answer) -> a.Finding | None:
    """The finding of an answer with status 1."""
    words = answer.words
    if answer.status != 1:
        return None
    if len(words) != 5 or words[0] != "finding":
        raise UnexpectedOutput(f"status 1 with {answer.text[:60]!r}")
    return a.Finding(int(words[1]), words[2], int(words[3]), int(words[4]))


@_reads
def deal(table: PayTable, hand: Hand | str, coin: int | None = None, program: Program | None = None) -> a.Deal:
    """The best hold of a deal, and its expected payment in coins."""
    rows = _rows(_run(program, ["deal", table.coin(coin)], table.source, _deal_source(hand)))
    return a.Deal(tuple(rows[0][1:]), int(rows[1][1]), _fraction(rows[1][-3:]), _fraction(rows[2][1:]), int(rows[3][1]))


@_reads
def holds(table: PayTable, hand: Hand | str, coin: int | None = None, program: Program | None = None) -> a.Holds:
    """All 32 holds of a deal. `UnknownCommand` if the program has no command `holds`."""
    rows = _rows(_run(program, ["holds", table.coin(coin)], table.source, _deal_source(hand)))
    return read_holds(table, rows)


def read_holds(table: PayTable, rows: list[list[str]]) -> a.Holds:
    """The holds that these rows of words say."""
    names = [line.name for line in table.lines]
    found = []
    for row in rows[1:]:
        slash, draws = row.index("/"), row.index("draws")
        counts = [int(word) for word in row[draws + 1:]]
        if row[0] != "hold" or len(counts) != len(names) + 1:
            raise ValueError(" ".join(row))
        value = _fraction(row[slash - 1:slash + 2])
        found.append(a.Hold(int(row[1]), tuple(row[2:slash - 1]), value, dict(zip(names, counts)), counts[-1]))
    if len(found) != 32:
        raise ValueError(f"{len(found)} holds")
    return a.Holds(tuple(rows[0][1:]), tuple(found))


@_reads
def certify(table: PayTable, coin: int | None = None, program: Program | None = None) -> a.Certificate:
    """The certificate of a table: all classes with their best holds, and the return."""
    return read_certificate(_run(program, ["certify", table.coin(coin)], table.source).output)


def read_certificate(data: bytes) -> a.Certificate:
    """The certificate in these bytes. Nothing is checked: `vp check` does that."""
    classes, over, under = [], 0, 1
    for words in map(str.split, data.decode().splitlines()):
        if words[:1] == ["class"]:
            classes.append(a.ClassLine(tuple(words[1:6]), *map(int, words[6:9])))
        elif words[:1] == ["return"]:
            over, under = int(words[1]), int(words[3])
    return a.Certificate(data, tuple(classes), over, under)


def check(certificate: bytes, start: int = 1, count: int = 0, program: Program | None = None) -> a.Checked | a.Finding:
    """Tests all rules of a certificate, and enumerates the draws of `count` class lines from the place `start`, from 1."""
    answer = _run(program, ["check", start, count], Source("certificate", certificate))
    return read_check(answer)


@_reads
def read_check(answer: Answer) -> a.Checked | a.Finding:
    """What an answer of `check` with status 0 or 1 says."""
    found = finding_of(answer)
    if found:
        return found
    rows = _rows(answer)
    return a.Checked(int(rows[0][1]), int(rows[0][2]), _fraction(rows[1][1:]))


@_reads
def hits(table: PayTable, coin: int | None = None, program: Program | None = None) -> a.Hits:
    """The chance of each pay line under the holds that `certify` prints (the least mask of tied ones)."""
    bet = table.coin(coin)
    rows = _rows(_run(program, ["hits", bet], table.source))
    lines, none, cycle = [], 0, 1
    for row in rows:
        if row[0] == "hit":
            chance = _fraction(row[3:])
            lines.append(a.LineChance(row[1], int(row[2]), int(row[3]), chance, int(row[2]) * chance / bet))
        elif row[0] == "none":
            none, cycle = int(row[1]), int(row[3])
    return a.Hits(bet, tuple(lines), none, cycle, _fraction(rows[-1][1:]))


@_reads
def multi(table: PayTable, hands: int = 1, coin: int | None = None, program: Program | None = None) -> a.Moments:
    """The mean and variance of 1 to 100 hands from one deal."""
    bet = table.coin(coin)
    return read_moments(_run(program, ["multi", bet, hands], table.source), bet, hands)


def read_moments(answer: Answer, bet: int, hands: int) -> a.Moments:
    """The moments that an answer of `multi` says."""
    said = {row[0]: _fraction(row[1:]) for row in _rows(answer)}
    return a.Moments(bet, hands, said["mean"], said["second"], said["within"], said["between"])


@_reads
def audit(table: PayTable, card: Source, coin: int | None = None, program: Program | None = None) -> a.Audit:
    """What a strategy list costs against best play, rule by rule."""
    return read_audit(_run(program, ["audit", table.coin(coin)], table.source, card))


def read_audit(answer: Answer) -> a.Audit:
    """The figures that an answer of `audit` says."""
    rows = _rows(answer)
    said = {row[0]: row[1:] for row in rows}
    under = int(said["loss"][2])

    def part(words: list[str]) -> a.RuleLoss:
        return a.RuleLoss(int(words[-2]), Fraction(int(words[-1]), under))

    rules = tuple(part(row) for row in rows if row[0] == "rule")
    optimum, least, greatest, loss = (_fraction(said[name]) for name in ("optimum", "least", "greatest", "loss"))
    return a.Audit(optimum, least, greatest, loss, int(said["ambiguous"][0]), part(said["except"]), rules, part(said["none"]))


@_reads
def card_errors(table: PayTable, card: Source, count: int = 134459, coin: int | None = None,
                program: Program | None = None) -> a.CardErrors:
    """The `count` classes on which a list loses most. `UnknownCommand` if the program has no command `errors`."""
    return read_errors(_rows(_run(program, ["errors", table.coin(coin), count], table.source, card)))


def read_errors(rows: list[list[str]]) -> a.CardErrors:
    """The errors that these rows of words say."""
    said = {row[0]: row[1:] for row in rows}
    under = int(said["loss"][2])
    found = []
    for row in rows:
        if row[0] == "error":
            what, number = row[7], 0 if row[7] == "none" else int(row[8])
            best, charged, loss = map(int, row[-3:])
            found.append(a.CardError(tuple(row[1:6]), int(row[6]), what, number, best, charged, Fraction(loss, under)))
    classes, deals, loss = map(int, said["rest"][:3])
    return a.CardErrors(_fraction(said["optimum"]), _fraction(said["loss"]), tuple(found), classes, deals, Fraction(loss, under))


@_reads
def compile_pool(table: PayTable, pool: Source, loss: Fraction, coin: int | None = None,
                 program: Program | None = None) -> a.Compiled:
    """A list of a pool's rules that loses at most `loss` per coin bet, which has to be a whole number of millionths."""
    millionths = loss * 1000000
    if millionths.denominator != 1 or not 0 <= millionths <= 1000000:
        raise Unsuitable(f"a loss of {loss} is no whole number of millionths from 0 to 1000000")
    answer = _run(program, ["compile", table.coin(coin), int(millionths)], table.source, pool)
    rows = [line.split() for line in answer.text.splitlines()[:4]]
    said = {row[1]: _fraction(row[2:]) for row in rows}
    text = answer.text.split("\n", 4)[4]
    return a.Compiled(said["optimum"], said["start"], said["settled"], said["loss"], text)


@_reads
def cross(first: PayTable, second: PayTable, coin: int | None = None, program: Program | None = None) -> a.Cross:
    """What the first table's best play returns on the second."""
    rows = _rows(_run(program, ["cross", first.coin(coin)], first.source, second.source))
    said = {row[0]: row[1:] for row in rows}
    classes, deals = map(int, said["differ"])
    row, worst = said.get("worst"), None
    if row:
        worst = a.Worst(tuple(row[:5]), int(row[5]), int(row[6]), Fraction(int(row[7]), DECKS[second.deck][1]))
    return a.Cross(_fraction(said["optimum"]), _fraction(said["cross"]), _fraction(said["loss"]), classes, deals, worst)


@_reads
def meter(table: PayTable, line: str, lo: int, hi: int, coin: int | None = None, program: Program | None = None) -> a.Meter:
    """The return at each whole payment of a line from lo to hi, 0 to 500000, for the whole bet."""
    bet = table.coin(coin)
    table.line(line)
    if not 0 <= lo <= hi <= 500000:
        raise Unsuitable(f"payments from {lo} to {hi}: they have to rise, from 0 to 500000")
    answer = _run(program, ["meter", bet, line, lo, hi], table.source)
    pieces = [a.Piece(*map(int, row.split()[1:])) for row in answer.text.splitlines() if row.startswith("piece ")]
    deals, common = DECKS[table.deck]
    return a.Meter(bet, line, lo, hi, tuple(pieces), deals * common * bet)


@_reads
def replay(table: PayTable, log: Source, program: Program | None = None) -> a.Replay | a.Finding:
    """What the holds of a log cost, or the first game that breaks a rule."""
    answer = _run(program, ["replay"], table.source, log)
    found = finding_of(answer)
    if found:
        return found
    rows = _rows(answer)
    common = DECKS[table.deck][1]
    costs = tuple(a.Cost(int(row[1]), Fraction(int(row[2]), common)) for row in rows if row[0] == "cost")
    said = {row[0]: row[1:] for row in rows}
    games, bet, paid, held_credits, slips = (int(said[name][0]) for name in ("games", "bet", "paid", "credits", "slips"))
    return a.Replay(costs, games, bet, paid, held_credits, slips, _fraction(said["loss"]))


@_reads
def values(table: PayTable, coin: int | None = None, program: Program | None = None) -> Iterator[a.ClassValues]:
    """The worth of all holds of all classes. `UnknownCommand` if the program has no command `values`."""
    answer = _run(program, ["values", table.coin(coin)], table.source)
    return read_values(answer.text)


def read_values(text: str) -> Iterator[a.ClassValues]:
    """The classes that a text of `values` says."""
    for line in text.splitlines():
        words = line.split()
        if words[0] == "class":
            yield a.ClassValues(tuple(words[1:6]), int(words[6]), tuple(map(int, words[7:39])))
