"""`vp card` and `vp compile`: what a strategy card costs, and a card made from a pool of rules."""
from __future__ import annotations

from collections import defaultdict
from dataclasses import dataclass, field
from fractions import Fraction
from typing import Any

import click

from .. import runs
from ..answers import Audit, CardError, CardErrors, Compiled, RuleLoss
from ..cards import JOKERS, RANKS, held, hold_text
from ..errors import UnknownCommand, Unsuitable
from ..program import find_program, raise_failure
from ..show import Grid, Report, exact, percent
from ..tables import PayTable
from ..texts import Input, Source, words_of
from ..workers import Job, progress, run_all
from . import options


def rule_lines(source: Source) -> list[tuple[int, str]]:
    """Each rule of a list or a pool with the line it stands on, from 1; the word `rule` is left out."""
    found = [(number, words_of(line)) for number, line in enumerate(source.lines, 1)]
    return [(number, " ".join(words[1:])) for number, words in found if words[:1] == ["rule"]]


def errors_of(table: PayTable, card: Source, coins: int | None) -> CardErrors | None:
    """All classes on which a card loses; None if the program has no command `errors`."""
    try:
        return runs.card_errors(table, card, coin=coins)
    except UnknownCommand:
        return None


@click.command()
@click.argument("table")
@click.argument("card", required=False)
@click.option("--without", is_flag=True, help="Also what the card loses without each rule: a run a rule, on all cores.")
@options.coins
@options.cluster
@options.output
def card(table: str, card: str | None, without: bool, coins: int | None, cluster: str | None, form: str, as_json: bool) -> None:
    """What the strategy CARD costs against best play, rule by rule.

    \b
    Examples:
      vp card jacks-9-6 my-card.txt
      vp card examples/jacks-card.txt --without
    """
    known, source = options.table_and("list", table, card)
    found, errors = runs.audit(known, source, coins), errors_of(known, source, coins)
    lost = losses_without(known, source, coins, cluster) if without else None
    options.finish(card_report(known, source, found, errors, lost, known.coin(coins)), form, as_json)


def losses_without(table: PayTable, source: Source, coins: int | None, cluster: str | None) -> list[Fraction]:
    """The loss of the card without its first rule, without its second, and so on."""
    program, jobs = find_program(), []
    words = ("audit", str(table.coin(coins)))
    for key, (number, _) in enumerate(rule_lines(source)):
        lines = source.lines
        lines[number - 1] = ""
        less = Source(source.name, "".join(line + "\n" for line in lines).encode())
        jobs.append(Job(key, words, Input((table.source, less)).data))
    found: dict[int, Fraction] = {}
    with progress("cards without a rule", len(jobs)) as count:
        for job, answer in run_all(program, jobs, cluster):
            raise_failure(answer, list(words), None)
            found[job.key] = runs.read_audit(answer).loss
            count(1)
    return [found[key] for key in range(len(jobs))]


def dearest(errors: CardErrors | None, what: str, number: int) -> CardError | None:
    """The class on which a rule loses most."""
    return next((error for error in errors.errors if (error.what, error.number) == (what, number)), None) if errors else None


def card_report(table: PayTable, source: Source, found: Audit, errors: CardErrors | None, lost: list[Fraction] | None,
                coin: int) -> Report:
    """The card's figures."""
    head = ["", "rule", "deals", "loss %"] + (["adds to loss if left out %"] if lost else [])
    head += ["dearest class", "takes", "best", "its loss %"] if errors else []
    rows: list[list[str | int]] = []
    data = []
    for number, ((_, text), rule) in enumerate(zip(rule_lines(source), found.rules), 1):
        worst = dearest(errors, "rule", number)
        more = lost[number - 1] - found.loss if lost else None
        rows.append(card_row(number, text, rule, more, worst, errors is not None))
        data.append({"rule": number, "text": text, "deals": rule.deals, "loss": exact(rule.loss, 10), "reached": rule.deals > 0,
                     "loss_without": exact(lost[number - 1], 10) if lost else None, "dearest": error_data(worst)})
    for name, part in (("(exceptions)", found.exceptions), ("(no rule: draw five)", found.none)):
        if part.deals:
            worst = dearest(errors, "none", 0) if part is found.none else None
            rows.append(card_row("", name, part, Fraction(0) if lost else None, worst, errors is not None))
    facts = [("best play returns", percent(found.optimum, 5) + " %"), ("the card returns", percent(found.least, 5) + " %"),
             ("it loses", percent(found.loss, 5) + " %"),
             ("deals with a choice that matters", f"{found.ambiguous} (with the best choice it returns {percent(found.greatest, 5)} %)")]
    notes = ["Losses are in percent of the bet. If a rule leaves a choice, the worst hold that it allows is charged."]
    if not errors:
        notes.append("this program has no command `errors`: the deals on which the card loses are not known")
    everything = {"table": table.name, "coins": coin, "optimum": exact(found.optimum), "least": exact(found.least),
                  "greatest": exact(found.greatest), "loss": exact(found.loss, 10), "ambiguous": found.ambiguous, "rules": data}
    return Report(f"{source.name} on {table.name}, a bet of {coin}", facts, [Grid(head, rows)], notes, everything)


def card_row(number: int | str, text: str, part: RuleLoss, more: Fraction | None, worst: CardError | None,
             with_errors: bool) -> list[str | int]:
    """One row of the card: `unreached` marks a rule that no deal reaches."""
    row: list[str | int] = [number, text, part.deals if part.deals else "unreached", percent(part.loss, 5) if part.deals else ""]
    if more is not None:
        row.append(percent(more, 5))
    if with_errors and worst:
        row += [" ".join(worst.cards), hold_text(worst.cards, worst.charged), hold_text(worst.cards, worst.best), percent(worst.loss, 5)]
    elif with_errors:
        row += [""] * 4
    return row


def error_data(error: CardError | None) -> dict[str, Any] | None:
    """A class on which a card loses, for another program."""
    if error is None:
        return None
    return {"cards": list(error.cards), "deals": error.weight, "takes": list(held(error.cards, error.charged)),
            "best": list(held(error.cards, error.best)), "loss": exact(error.loss, 10)}


@dataclass
class Group:
    """Exceptions that fall under one rule and hold the same ranks: `cost` is what they would lose without them."""

    rule: int | None
    held: str
    classes: int = 0
    deals: int = 0
    cost: Fraction = field(default_factory=Fraction)
    example: str = ""


@click.command("compile")
@click.argument("table")
@click.argument("pool", required=False)
@click.option("--loss", required=True, metavar="PERCENT", help="The most that the card may lose, in percent of the bet: 0.01.")
@click.option("-o", "--output", "path", type=click.Path(dir_okay=False), help="Write the list to this file, for `vp card`.")
@click.option("--groups", type=click.IntRange(0), default=20, show_default=True, help="Show so many groups of exceptions.")
@options.coins
@options.output
def compile_command(table: str, pool: str | None, loss: str, path: str | None, groups: int, coins: int | None, form: str,
                    as_json: bool) -> None:
    """A card of the rules of POOL that loses at most --loss, and what its exceptions have in common.

    \b
    Examples:
      vp compile jacks-9-6 my-pool.txt --loss 0.01 -o my-card.txt
      vp compile examples/jacks-pool.txt --loss 0
    """
    known, source = options.table_and("pool", table, pool)
    made = runs.compile_pool(known, source, options.fraction(loss) / 100, coins)
    if path:
        write_list(path, made.text)
    bare = "".join(line + "\n" for line in made.text.splitlines() if not line.startswith("except "))
    found = grouped(made, errors_of(known, Source("the list without exceptions", bare.encode()), coins))
    options.finish(compile_report(known, source, made, found, groups, known.coin(coins)), form, as_json)


def write_list(path: str, text: str) -> None:
    """Writes the list to a file."""
    try:
        with open(path, "w", encoding="ascii") as file:
            file.write(text)
    except OSError as fault:
        raise Unsuitable(f"{path}: {fault.strerror}") from fault


def ranks_held(cards: tuple[str, ...]) -> str:
    """The ranks of held cards, high to low, and whether they have one suit: `KT suited`."""
    natural = sorted((card for card in cards if card not in JOKERS), key=lambda card: -RANKS.index(card[0]))
    name = "joker " * (len(cards) - len(natural)) + "".join(card[0] for card in natural)
    one_suit = len(natural) > 1 and len({card[1] for card in natural}) == 1
    return (name.strip() or "nothing") + (" suited" if one_suit else "")


def grouped(made: Compiled, errors: CardErrors | None) -> list[Group]:
    """The exceptions by the rule that would decide and the ranks that are held, dearest first."""
    by_cards = {error.cards: error for error in errors.errors} if errors else {}
    groups: dict[tuple[int | None, str], Group] = defaultdict(lambda: Group(None, ""))
    for cards, mask in made.exceptions:
        error = by_cards.get(cards)
        key = (error.number if error else None, ranks_held(held(cards, mask)))
        group = groups[key]
        group.rule, group.held = key
        group.classes += 1
        if error:
            group.deals += error.weight
            group.cost += error.loss
        group.example = group.example or " ".join(cards)
    return sorted(groups.values(), key=lambda group: (-group.cost, -group.classes))


def compile_report(table: PayTable, source: Source, made: Compiled, groups: list[Group], most: int, coin: int) -> Report:
    """The list, how its rules moved, and its exceptions in groups."""
    old = [text for _, text in rule_lines(source)]
    places: dict[str, list[int]] = defaultdict(list)
    for number, text in enumerate(old, 1):
        places[text].append(number)
    rows: list[list[str | int]] = []
    for number, text in enumerate(made.rules, 1):
        was = places[text].pop(0)
        moved = number - was
        rows.append([number, was, "" if not moved else f"{'down' if moved > 0 else 'up'} {abs(moved)}", text])
    costs = any(group.cost for group in groups)
    head = (["under rule"] if costs else []) + ["holds", "classes"] + (["deals", "cost %"] if costs else []) + ["as"]
    shown: list[list[str | int]] = [
        ([group.rule or "none"] if costs else []) + [group.held, group.classes]
        + ([group.deals, percent(group.cost, 5)] if costs else []) + [group.example] for group in groups[:most]]
    facts = [("best play returns", percent(made.optimum, 5) + " %"), ("the pool's order loses", percent(made.start, 5) + " %"),
             ("the settled order loses", percent(made.settled, 5) + " %"), ("the list loses", percent(made.loss, 5) + " %"),
             ("exceptions", str(len(made.exceptions)))]
    grids = [Grid(["place", "was", "moved", "rule"], rows, "Rules")]
    if shown:
        grids.append(Grid(head, shown, f"Exceptions: the {len(shown)} largest of {len(groups)} groups"))
    notes = ["A rule that says what a large group has in common is the line to write next: put it into the pool and compile again."] if shown else []
    if shown and not costs:
        notes.append("this program has no command `errors`: the rule and the cost of a group are not known")
    data = {"table": table.name, "coins": coin, "optimum": exact(made.optimum), "start": exact(made.start, 10),
            "settled": exact(made.settled, 10), "loss": exact(made.loss, 10), "list": made.text,
            "rules": [{"place": row[0], "was": row[1], "text": row[3]} for row in rows],
            "groups": [{"rule": group.rule, "holds": group.held, "classes": group.classes, "deals": group.deals if costs else None,
                        "cost": exact(group.cost, 10) if costs else None, "example": group.example} for group in groups]}
    return Report(f"{source.name} on {table.name}, a bet of {coin}", facts, grids, notes, data)
