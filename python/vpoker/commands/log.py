"""`vp replay`, `vp why`: a game log in words, and a refused input in words."""
from __future__ import annotations

import sys
from fractions import Fraction

import click

from .. import runs
from ..answers import Finding, Replay
from ..cards import NAMES, Hand, hold_text
from ..errors import Refused
from ..program import find_program
from ..show import Grid, Report, decimal, exact, percent
from ..tables import PayTable
from ..texts import Input, Source, words_of
from ..why import explain
from . import options

FINDINGS = {
    "bet": "it bets {said} coins; the table has payments for 1 to {due}",
    "funds": "it bets {said} coins with {due} credits",
    "deal": "dealt card {said}, {card}, was dealt before",
    "hold": "held card {said}, {card}, was not dealt, or is held twice",
    "count": "{said} cards are drawn, {due} expected",
    "draw": "drawn card {said}, {card}, was dealt, or is drawn twice",
    "pay": "it pays {said}, {due} expected",
    "credits": "the credits are {said}, {due} expected",
}


def games(log: Source) -> list[tuple[int, list[str]]]:
    """The games of a log: the line of the file, from 1, and its words."""
    rows = [(number, words_of(line)) for number, line in enumerate(log.lines, 1)]
    return [(number, words) for number, words in rows if words[:1] == ["game"]]


def part(words: list[str], name: str, until: str) -> list[str]:
    """The cards of a game's line between two of its words."""
    return words[words.index(name) + 1:words.index(until)]


@click.command()
@click.argument("table")
@click.argument("log", required=False)
@click.option("--costs", type=click.IntRange(0), default=20, show_default=True, help="Show so many of the dearest games.")
@options.output
def replay(table: str, log: str | None, costs: int, form: str, as_json: bool) -> None:
    """Whether a game LOG keeps the rules of the game, and what its holds cost.

    \b
    Examples:
      vp replay jacks-9-6 my-log.txt
      vp replay examples/jacks-log.txt
    """
    known, source = options.table_and("log", table, log)
    found = runs.replay(known, source)
    if isinstance(found, Finding):
        options.finish(finding_report(source, found), form, as_json)
        sys.exit(1)
    options.finish(costs_report(known, source, found, costs), form, as_json)


def finding_report(source: Source, found: Finding) -> Report:
    """The first game that breaks a rule, in words."""
    line, words = games(source)[found.line - 1]
    card = NAMES[found.due] if found.due < len(NAMES) else ""
    said = FINDINGS.get(found.rule, "found {said}, expected {due}").format(said=found.said, due=found.due, card=card)
    facts = [("game", str(found.line)), ("line", f"{source.name}, line {line}"), ("", " ".join(words)), ("rule", found.rule), ("finding", said)]
    data = {"finding": {"game": found.line, "line": line, "rule": found.rule, "found": found.said, "expected": found.due, "text": said}}
    return Report(f"{source.name} breaks a rule of the game", facts, [], ["the games behind it were not looked at"], data)


def costs_report(table: PayTable, source: Source, found: Replay, most: int) -> Report:
    """The sums, and the dearest games."""
    lines = games(source)
    dear = sorted(found.costs, key=lambda cost: (-cost.cost, cost.game))
    rows: list[list[str | int]] = []
    for cost in dear[:most]:
        line, words = lines[cost.game - 1]
        deal = Hand.of(" ".join(part(words, "deal", "hold")))
        best = runs.deal(table, deal, int(words[1]))
        kept = " ".join(part(words, "hold", "draw")) or "nothing"
        rows.append([cost.game, line, str(deal), kept, hold_text(best.cards, best.mask), decimal(cost.cost, 4)])
    back = Fraction(found.paid, found.bet) if found.bet else None
    facts = [("games", str(found.games)), ("bet", f"{found.bet} coins"),
             ("paid", f"{found.paid} coins" + (f" ({percent(back, 2)} % of what was bet)" if back is not None else "")),
             ("credits at the end", str(found.credits)), ("games whose hold was not best", str(found.slips)),
             ("what they gave away", f"{decimal(found.loss, 4)} coins on average"
              + (f" ({percent(found.loss / found.bet, 4)} % of what was bet)" if found.bet else ""))]
    grids = [Grid(["game", "line", "deal", "held", "best", "cost, coins"], rows, "Dearest games")] if rows else []
    data = {"games": found.games, "bet": found.bet, "paid": found.paid, "credits": found.credits, "slips": found.slips,
            "loss": exact(found.loss), "costs": [{"game": cost.game, "line": lines[cost.game - 1][0], "cost": exact(cost.cost)} for cost in found.costs]}
    return Report(f"{source.name} keeps the rules of the game", facts, grids, [], data)


@click.command(context_settings={"ignore_unknown_options": True})
@click.argument("words", nargs=-1, required=True)
@click.option("-i", "--input", "files", multiple=True, help="A file of the input, in place of standard input; once for each, in order.")
@click.option("--json", "as_json", is_flag=True, help="For another program.")
def why(words: tuple[str, ...], files: tuple[str, ...], as_json: bool) -> None:
    """Why `vpoker WORDS` refuses its input: the line, the word, and what may stand there.

    \b
    Examples:
      vp why certify 5 < my-table.txt
      vp why audit 5 -i my-table.txt -i my-card.txt
    """
    given = Input(tuple(Source.read(path) for path in files or ("-",)))
    try:
        answer = find_program().run(list(words), given)
    except Refused as refused:
        reason = explain(refused, list(words), given)
        data = {"where": reason.where, "text": reason.text, "column": None if reason.column is None else reason.column + 1,
                "hints": reason.hints, "line": refused.line, "record": refused.record}
        if as_json:
            Report("", data=data).show("json")
        else:
            click.echo(f"refused: {reason}")
        sys.exit(3)
    status = "nothing is refused" if answer.status == 0 else f"nothing is refused; `{answer.text.splitlines()[0]}`"
    if as_json:
        Report("", data={"where": None, "status": answer.status}).show("json")
    else:
        click.echo(status)
    sys.exit(answer.status)
