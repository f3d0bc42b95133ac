"""`vp vary`, `vp meter`, `vp break-even`, `vp ruin`: what a payment does to the return, and the return to a bankroll."""
from __future__ import annotations

import itertools
from fractions import Fraction
from typing import Any

import click

from .. import ruin as ruins
from .. import runs
from ..answers import Meter, Moments
from ..errors import Unsuitable
from ..program import find_program, raise_failure
from ..show import Grid, Report, decimal, exact, percent, root
from ..tables import PayTable
from ..texts import Input
from ..workers import Job, progress, run_all
from . import options

WIDEST = 20000


@click.command()
@click.argument("table")
@click.argument("settings", nargs=-1, required=True)
@click.option("--target", metavar="PERCENT", help="Sort by how near the return is to this one.")
@click.option("--top", type=click.IntRange(1), help="Show so many rows.")
@options.coins
@options.cluster
@options.output
def vary(table: str, settings: tuple[str, ...], target: str | None, top: int | None, coins: int | None, cluster: str | None,
         form: str, as_json: bool) -> None:
    """Returns over a grid of pay tables: how to find the schedule for a return.

    A setting is LINE=PAYMENTS, in coins for each coin bet: 6..9, or 5,6, or 4740/5.

    \b
    Examples:
      vp vary jacks-9-6 full-house=6..9 flush=5,6
      vp vary jacks-9-6 full-house=6..9 flush=4..6 royal=800 --target 97.5 --top 5
    """
    known = PayTable.read(table)
    coin, choices = known.coin(coins), [options.setting(text) for text in settings]
    names = [name for name, _ in choices]
    if len(set(names)) != len(names):
        raise click.BadParameter("a line is set twice")
    grid = list(itertools.product(*(pays for _, pays in choices)))
    if len(grid) > WIDEST:
        raise Unsuitable(f"this grid has {len(grid)} pay tables; {WIDEST} are the most")
    found = grid_moments(known, names, grid, coin, cluster)
    aim = options.fraction(target) / 100 if target else None
    if aim is not None:
        near = aim
        found.sort(key=lambda item: (abs(item[1].rtp - near), item[0]))
    options.finish(vary_report(known, names, found[:top], coin, aim), form, as_json)


def grid_moments(table: PayTable, names: list[str], grid: list[tuple[Fraction, ...]], coin: int,
                 cluster: str | None) -> list[tuple[tuple[Fraction, ...], Moments]]:
    """Each choice of payments with the moments of its table, in the order of the grid."""
    program, jobs = find_program(), []
    for key, pays in enumerate(grid):
        changed = table
        for name, pay in zip(names, pays):
            changed = changed.with_payment(name, coin, pay)
        jobs.append(Job(key, ("multi", str(coin), "1"), changed.source.data))
    program.run(list(jobs[0].words), Input((table.source,)))
    answers: dict[int, Moments] = {}
    with progress("pay tables", len(jobs)) as count:
        for job, answer in run_all(program, jobs, cluster):
            raise_failure(answer, list(job.words), None)
            answers[job.key] = runs.read_moments(answer, coin, 1)
            count(1)
    return [(pays, answers[key]) for key, pays in enumerate(grid)]


def vary_report(table: PayTable, names: list[str], found: list[tuple[tuple[Fraction, ...], Moments]], coin: int,
                aim: Fraction | None) -> Report:
    """The grid."""
    head = [*names, "RTP %", "standard deviation"] + ([] if aim is None else ["off target"])
    rows: list[list[str | int]] = []
    for pays, moments in found:
        row: list[str | int] = [*map(str, pays), percent(moments.rtp), decimal(root(moments.variance()), 3)]
        rows.append(row if aim is None else [*row, percent(moments.rtp - aim)])
    data = [{"payments": dict(zip(names, map(str, pays))), "rtp": exact(moments.rtp), "variance": exact(moments.variance())}
            for pays, moments in found]
    return Report(f"{table.name}, a bet of {coin}; payments for each coin bet", [], [Grid(head, rows)], [], data)


@click.command()
@click.argument("table")
@click.argument("line")
@click.argument("lo", type=click.IntRange(0, 500000))
@click.argument("hi", type=click.IntRange(0, 500000))
@click.option("--plot", metavar="FILE", type=click.Path(dir_okay=False, writable=True), help="Draw it, as PNG, SVG or PDF by the name.")
@click.option("--rows", type=click.IntRange(2), default=20, show_default=True, help="Show about so many breakpoints.")
@options.coins
@options.output
def meter(table: str, line: str, lo: int, hi: int, plot: str | None, rows: int, coins: int | None, form: str, as_json: bool) -> None:
    """A progressive meter: the return while LINE pays LO to HI coins for the whole bet.

    \b
    Examples:
      vp meter jacks-9-6 royal 4000 12500
      vp meter jacks-9-6 royal 4000 12500 --plot meter.png
    """
    found = runs.meter(PayTable.read(table), line, lo, hi, coins)
    if plot:
        draw(found, plot)
    options.finish(meter_report(found, rows), form, as_json)


def meter_report(found: Meter, most: int) -> Report:
    """The pieces, thinned out evenly for a text."""
    fair, pieces = found.least(), found.pieces
    step = -(-len(pieces) // most)
    shown = pieces[::step]
    rows: list[list[str | int]] = [[piece.start, percent(found.rtp(piece.start)), piece.classes, piece.deals] for piece in shown]
    if pieces[-1].start < found.hi:
        rows.append([found.hi, percent(found.rtp(found.hi)), "", ""])
    facts = [("payments at which some deal is played otherwise", str(len(pieces) - 1)),
             ("return", f"{percent(found.rtp(found.lo))} % to {percent(found.rtp(found.hi))} %"),
             ("least payment that returns all that is bet", f"none up to {found.hi}" if fair is None else str(fair))]
    notes = [] if step == 1 else [f"one breakpoint in {step} is shown; --rows {len(pieces)} shows all, and --json has them"]
    data: dict[str, Any] = {
        "line": found.line, "coins": found.coin, "lo": found.lo, "hi": found.hi, "least_fair": fair,
        "pieces": [{"payment": piece.start, "rtp": exact(found.rtp(piece.start)), "classes": piece.classes, "deals": piece.deals}
                   for piece in pieces], "rtp_hi": exact(found.rtp(found.hi))}
    head = ["payment", "RTP %", "classes that change", "deals that change"]
    return Report(f"{found.line} from {found.lo} to {found.hi} coins, a bet of {found.coin}", facts, [Grid(head, rows)], notes, data)


def draw(found: Meter, path: str) -> None:
    """The return and the breakpoints as a picture."""
    try:
        import matplotlib
    except ImportError as missing:
        raise Unsuitable("--plot needs matplotlib: Debian's python3-matplotlib, or pip install matplotlib") from missing
    matplotlib.use("Agg")
    from matplotlib import pyplot

    figure, axis = pyplot.subplots(figsize=(10, 6))
    starts = [piece.start for piece in found.pieces] + [found.hi]
    axis.plot(starts, [float(100 * found.rtp(start)) for start in starts], label="return")
    axis.axhline(100, color="black", linestyle=":")
    fair = found.least()
    if fair is not None:
        axis.axvline(fair, color="green", linestyle="--", label=f"all that is bet comes back from {fair}")
    other = axis.twinx()
    other.vlines(starts[1:-1], 0, [piece.deals for piece in found.pieces[1:]], color="lightgray")
    other.set_ylabel("deals that are played otherwise from there on")
    axis.set(xlabel=f"payment of {found.line}, coins", ylabel="return, %")
    axis.set_zorder(other.get_zorder() + 1)
    axis.patch.set_visible(False)
    axis.legend(loc="upper left")
    try:
        figure.savefig(path)
    except (OSError, ValueError) as fault:
        raise Unsuitable(f"{path}: {fault}") from fault


@click.command("break-even")
@click.argument("table")
@click.argument("line")
@click.option("--target", metavar="PERCENT", default="100", show_default=True, help="The return to reach; 99.5 with half a percent cash back.")
@click.option("--denom", metavar="MONEY", help="The worth of a coin, as 0.25: the payment is told in money, too.")
@options.coins
@options.output
def break_even(table: str, line: str, target: str, denom: str | None, coins: int | None, form: str, as_json: bool) -> None:
    """The least payment of LINE at which the game returns all that is bet, exactly.

    \b
    Examples:
      vp break-even jacks-9-6 royal
      vp break-even jacks-9-6 royal --target 99.5 --denom 0.25
    """
    known, aim = PayTable.read(table), options.fraction(target) / 100
    found = runs.meter(known, line, 0, 500000, coins)
    least = found.least(aim)
    facts = [("payment now", f"{known.line(line).pays[found.coin - 1]} coins")]
    if least is None:
        facts.append(("least payment", f"none up to 500000 coins, where the return is {percent(found.rtp(500000))} %"))
    else:
        facts.append(("least payment", f"{least} coins for the whole bet, {decimal(Fraction(least, found.coin), 2)} for each coin"))
        if denom:
            facts.append(("in money", decimal(least * options.fraction(denom), 2)))
        facts.append(("return there", f"{percent(found.rtp(least), 6)} %"))
        if least:
            facts.append(("return at one coin less", f"{percent(found.rtp(least - 1), 6)} %"))
    data = {"line": line, "coins": found.coin, "target": exact(aim), "least": least,
            "rtp": exact(None if least is None else found.rtp(least)), "searched": [0, 500000]}
    title = f"{line} of {known.name}, a bet of {found.coin}: the return reaches {decimal(100 * aim, 4)} %"
    options.finish(Report(title, facts, [], [], data), form, as_json)


@click.command()
@click.argument("table")
@click.option("--bankroll", metavar="BETS", help="The bankroll, in bets: 800 bets of five coins are 4000 coins.")
@options.coins
@options.output
def ruin(table: str, bankroll: str | None, coins: int | None, form: str, as_json: bool) -> None:
    """The chance of ruin of one-hand best play, and the bankroll for a chance.

    \b
    Examples:
      vp ruin deuces-full --bankroll 4000
      vp ruin deuces-full
    """
    known = PayTable.read(table)
    hits = runs.hits(known, coins)
    bets = options.fraction(bankroll) if bankroll else None
    if bets is not None and bets < 1:
        raise click.BadParameter("a bankroll is at least one bet")
    title = f"{known.name}, a bet of {hits.coin}, best play of one hand, for ever"
    options.finish(ruin_report(title, hits, bets), form, as_json)


def ruin_report(title: str, hits: Any, bets: Fraction | None) -> Report:
    """The chance of ruin, with its method."""
    facts, r = [("RTP", f"{percent(hits.rtp)} %")], ruins.ratio(hits)
    data: dict[str, Any] = {"rtp": exact(hits.rtp), "certain": r is None, "bankroll": str(bets) if bets else None}
    if r is None:
        return Report(title, facts + [("ruin", "certain: the game returns no more than is bet")], [], [], data)
    if r == 0:
        return Report(title, facts + [("ruin", "never: each game pays at least the bet")], [], [], data)
    exactly = ruins.whole_bets(hits)
    data.update(r=f"{r:.20f}", exact_for_whole_bets=exactly)
    if bets is not None:
        low = ruins.of_bankroll(r, bets)
        high = low if exactly and bets.denominator == 1 else ruins.of_bankroll(r, bets - 1)
        said = f"{100 * low:.6f} %" if low == high else f"{100 * low:.6f} % to {100 * high:.6f} %"
        facts.append((f"ruin from {bets} bets", said))
        data["ruin"] = [f"{low:.20f}", f"{high:.20f}"]
    rows: list[list[str | int]] = []
    for chance in (Fraction(1, 2), Fraction(1, 10), Fraction(1, 20), Fraction(1, 100), Fraction(1, 1000)):
        need = ruins.bankroll_for(r, chance) + (0 if exactly else 1)
        rows.append([decimal(100 * chance, 1), need, need * hits.coin])
    data["bankrolls"] = [{"chance_percent": row[0], "bets": row[1]} for row in rows]
    grid = Grid(["chance of ruin at most, %", "bets", "coins"], rows)
    method = ("Method: r = %.12f is the one number below 1 with E[r^X] = 1, X being what a game wins in bets, from the exact "
              "chances of all lines; ruin from B bets has the chance r^B" % r)
    method += "." if exactly else " at least, and r^(B-1) at most, as some payments are no whole number of bets."
    return Report(title, facts, [grid], [method + " Of play by the least mask of equally good holds, without end, and without any cash back."], data)
