"""`vp par`, `vp hand`, `vp compare`: the figures of a pay table and of a deal."""
from __future__ import annotations

from fractions import Fraction
from typing import Any

import click

from .. import runs
from ..answers import Deal, Hits, Holds, Moments
from ..cards import DECKS, Hand, hold_text
from ..errors import UnknownCommand
from ..show import Grid, Report, decimal, exact, percent, root
from ..tables import PayTable
from . import options

HANDS = (1, 3, 5, 10, 50, 100)
#: the factor of the volatility index: a standard normal variable is within it of its mean with the chance 90 %
NINETY = Fraction(1645, 1000)
TIED = ("Chances and variance are those of the holds that `certify` prints: of equally good holds the one of least mask. "
        "A published sheet may take another of them, which changes lines and variance, never the return.")
MODEL = "Every figure is of best play, if each set of replacement cards is equally likely."


def tied_deals(table: PayTable, coin: int | None) -> int | None:
    """The number of deals that have several best holds; None if the program has no command `values`."""
    try:
        return sum(line.weight for line in runs.values(table, coin) if line.ties > 1)
    except UnknownCommand:
        return None


@click.command()
@click.argument("table")
@options.coins
@options.output
def par(table: str, coins: int | None, form: str, as_json: bool) -> None:
    """The PAR sheet of TABLE: lines, return, hit frequency, variance.

    \b
    Examples:
      vp par jacks-9-6
      vp par my-table.txt --coins 1 --format html > sheet.html
    """
    known = PayTable.read(table)
    hits, moments, tied = runs.hits(known, coins), runs.multi(known, 1, coins), tied_deals(known, coins)
    options.finish(par_report(known, hits, moments, tied), form, as_json)


def par_report(table: PayTable, hits: Hits, moments: Moments, tied: int | None) -> Report:
    """The sheet."""
    deviation = root(moments.variance())
    rows: list[list[str | int]] = [
        [line.name, line.pay, line.combinations, percent(line.chance, 6), decimal(line.one_in, 2) if line.one_in else "never",
         percent(line.contribution)]
        for line in hits.lines
    ]
    none = Fraction(hits.none, hits.cycle)
    rows.append(["(nothing)", 0, hits.none, percent(none, 6), decimal(1 / none, 2) if none else "never", percent(Fraction(0))])
    rows.append(["(all)", "", hits.cycle, percent(Fraction(1), 6), "", percent(hits.rtp)])
    spreads: list[list[str | int]] = []
    for hands in HANDS:
        whole = root(moments.variance(hands))
        spreads.append([hands, decimal(moments.variance(hands)), decimal(whole), decimal(whole / hands)])
    facts = [
        ("RTP", percent(hits.rtp) + " %"), ("hit frequency", percent(hits.hit_frequency) + " %"),
        ("variance", decimal(moments.variance(), 6)), ("standard deviation", decimal(deviation, 6)),
        ("volatility index", decimal(NINETY * deviation, 6) + " (90 %)"),
    ]
    deals = DECKS[table.deck][0]
    facts.append(("deals with tied best holds", "not known: this program has no command `values`" if tied is None
                  else f"{tied} of {deals} ({percent(Fraction(tied, deals))} %)"))
    grids = [Grid(["line", "pays", "combinations", "chance %", "one in", "adds to RTP %"], rows, "Pay lines"),
             Grid(["hands", "variance", "standard deviation", "for each bet"], spreads,
                  "Several hands from one deal, in bets of one hand")]
    notes = [MODEL + " " + TIED, "Volatility index: 1.645 times the standard deviation. After N games of one hand the return is "
             "within this index / sqrt(N) of the RTP with a chance of about 90 %, if N is large."]
    bet = f"{hits.coin} coin{'s' if hits.coin > 1 else ''}"
    return Report(f"{table.name}, a bet of {bet}", facts, grids, notes, par_data(table, hits, moments, tied))


def par_data(table: PayTable, hits: Hits, moments: Moments, tied: int | None) -> dict[str, Any]:
    """The sheet for another program."""
    return {
        "table": table.name, "coins": hits.coin, "rtp": exact(hits.rtp), "hit_frequency": exact(hits.hit_frequency),
        "variance": exact(moments.variance()), "standard_deviation": decimal(root(moments.variance()), 8),
        "volatility_index_90": decimal(NINETY * root(moments.variance()), 8), "cycle": hits.cycle, "tied_deals": tied,
        "lines": [{"name": line.name, "pays": line.pay, "combinations": line.combinations, "chance": exact(line.chance, 12),
                   "one_in": exact(line.one_in, 4), "contribution": exact(line.contribution)} for line in hits.lines],
        "nothing": {"combinations": hits.none, "chance": exact(Fraction(hits.none, hits.cycle), 12)},
        "hands": [{"hands": hands, "variance": exact(moments.variance(hands)),
                   "standard_deviation": decimal(root(moments.variance(hands)), 8)} for hands in HANDS],
        "note": TIED,
    }


@click.command()
@click.argument("table")
@click.argument("cards", nargs=-1, required=True)
@options.coins
@options.output
def hand(table: str, cards: tuple[str, ...], coins: int | None, form: str, as_json: bool) -> None:
    """All 32 holds of a deal: what each is worth, and how it pays.

    \b
    Examples:
      vp hand jacks-9-6 As Ks Qs Js 4s
      vp hand joker-kings "Jo,10s,Js,Qs,Ks" --coins 1
    """
    known, given = PayTable.read(table), Hand.of(" ".join(cards))
    best = runs.deal(known, given, coins)
    try:
        report = holds_report(known, runs.holds(known, given, coins), coins, form in ("csv", "html"))
    except UnknownCommand:
        report = best_report(known, best, coins)
    options.finish(report, form, as_json)


def holds_report(table: PayTable, found: Holds, coins: int | None, columns: bool) -> Report:
    """The 32 holds, and the draws of each by pay line: in a column each, or as one text that a terminal has room for."""
    coin, best = table.coin(coins), found.holds[0].value
    used = [line.name for line in table.lines if any(hold.draws[line.name] for hold in found.holds)]
    rows: list[list[str | int]] = []
    for hold in found.holds:
        row: list[str | int] = [" ".join(hold.cards) or "nothing", decimal(hold.value), decimal(best - hold.value), hold.total]
        paid = ", ".join(f"{name} {hold.draws[name]}" for name in used if hold.draws[name])
        rows.append([*row, *(hold.draws[name] for name in used), hold.none] if columns else [*row, paid or "nothing"])
    head = ["hold", "worth, coins", "less than best", "draws", *([*used, "(nothing)"] if columns else ["draws that pay"])]
    data = {"cards": list(found.cards), "coins": coin, "ties": found.ties, "holds": [
        {"mask": hold.mask, "cards": list(hold.cards), "value": exact(hold.value), "draws": hold.draws, "nothing": hold.none}
        for hold in found.holds]}
    ties = [f"{found.ties} holds are equally good"] if found.ties > 1 else []
    return Report(f"{' '.join(found.cards)} on {table.name}, a bet of {coin}", [], [Grid(head, rows)], ties, data)


def best_report(table: PayTable, best: Deal, coins: int | None) -> Report:
    """What `deal` says alone, for a program without `holds`."""
    coin = table.coin(coins)
    facts = [("best hold", hold_text(best.cards, best.mask)), ("worth", f"{decimal(best.value)} coins"),
             ("all five held", f"{decimal(best.pat)} coins"), ("equally good holds", str(best.ties))]
    data = {"cards": list(best.cards), "coins": coin, "ties": best.ties, "holds": [
        {"mask": best.mask, "cards": hold_text(best.cards, best.mask).split(), "value": exact(best.value)}]}
    return Report(f"{' '.join(best.cards)} on {table.name}, a bet of {coin}", facts, [],
                  ["this program has no command `holds`: the best hold alone is known"], data)


@click.command()
@click.argument("tables", nargs=-1, required=True)
@options.coins
@options.output
def compare(tables: tuple[str, ...], coins: int | None, form: str, as_json: bool) -> None:
    """The figures of several pay tables side by side.

    \b
    Example:
      vp compare jacks-9-6 bonus-8-5 my-table.txt
    """
    rows: list[list[str | int]] = []
    data = []
    for name in tables:
        known = PayTable.read(name)
        hits, moments = runs.hits(known, coins), runs.multi(known, 1, coins)
        deviation = root(moments.variance())
        rare = min((line for line in hits.lines if line.chance), key=lambda line: line.chance, default=None)
        rows.append([known.name, hits.coin, percent(hits.rtp), percent(hits.hit_frequency, 2), decimal(moments.variance(), 3),
                     decimal(deviation, 3), f"{rare.name} 1 in {decimal(1 / rare.chance, 0)}" if rare else ""])
        data.append(par_data(known, hits, moments, None))
    head = ["table", "coins", "RTP %", "hit frequency %", "variance", "standard deviation", "rarest line"]
    options.finish(Report("", [], [Grid(head, rows)], [], data), form, as_json)


@click.command()
@click.argument("table")
@click.argument("other")
@options.coins
@options.output
def cross(table: str, other: str, coins: int | None, form: str, as_json: bool) -> None:
    """What the best play of TABLE costs on the machine OTHER.

    \b
    Example:
      vp cross jacks-9-6 bonus-8-5
    """
    first, second = PayTable.read(table), PayTable.read(other)
    found, coin = runs.cross(first, second, coins), first.coin(coins)
    facts = [("best play there returns", percent(found.optimum, 5) + " %"), ("the other play returns", percent(found.cross, 5) + " %"),
             ("and loses", percent(found.loss, 5) + " %"), ("it errs in", f"{found.classes} classes, {found.deals} deals")]
    data: dict[str, Any] = {"table": first.name, "other": second.name, "coins": coin, "optimum": exact(found.optimum),
                            "cross": exact(found.cross), "loss": exact(found.loss, 10), "classes": found.classes, "deals": found.deals}
    if found.worst:
        worst = found.worst
        facts.append(("at worst with", f"{' '.join(worst.cards)}: it holds {hold_text(worst.cards, worst.mask)}; "
                      f"{hold_text(worst.cards, worst.best)} is worth {decimal(worst.cost)} coins more"))
        data["worst"] = {"cards": list(worst.cards), "holds": hold_text(worst.cards, worst.mask).split(),
                         "best": hold_text(worst.cards, worst.best).split(), "cost": exact(worst.cost)}
    options.finish(Report(f"the best play of {first.name} on {second.name}, a bet of {coin}", facts, [], [], data), form, as_json)
