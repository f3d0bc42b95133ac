"""Options and arguments that several commands share."""
from __future__ import annotations

import re
import sys
from fractions import Fraction
from typing import Any, Callable, TypeVar

import click

from ..errors import Unsuitable
from ..show import FORMATS, Report
from ..tables import PayTable
from ..texts import Source

F = TypeVar("F", bound=Callable[..., Any])
CLUSTER = "Address of a running Dask scheduler, as tcp://HOST:8786: the runs are shared out over its machines."


def coins(function: F) -> F:
    """`--coins N`: the bet."""
    return click.option("-c", "--coins", type=click.IntRange(1, 5), help="The bet in coins; by default the table's greatest.")(function)


def output(function: F) -> F:
    """`--format` and `--json`: how the report is written."""
    function = click.option("--json", "as_json", is_flag=True, help="The same as --format json.")(function)
    return click.option("--format", "form", type=click.Choice(FORMATS), default="text", show_default=True,
                        help="How the report is written.")(function)


def cluster(function: F) -> F:
    """`--cluster ADDRESS`."""
    return click.option("--cluster", metavar="ADDRESS", help=CLUSTER)(function)


def finish(report: Report, form: str, as_json: bool) -> None:
    """Writes the report."""
    report.show("json" if as_json else form)


def table_and(section: str, first: str, second: str | None) -> tuple[PayTable, Source]:
    """The pay table and the section of a command: two files, or one that has both.

    If the second file has a table of its own, the first file's is used, and a note on standard error says so.
    """
    if second is None:
        source = Source.read(first)
        if not source.has(section):
            raise Unsuitable(f"{first} has no section `{section}`: name the pay table and the file with it")
        return PayTable.of_source(source.without(section)), source.without("table")
    table, given = PayTable.read(first), Source.read(second)
    if not given.has("table"):
        return table, given
    try:
        same = PayTable.of_source(given.without(section)).text == table.text
    except Exception:
        same = False
    if not same:
        print(f"vp: {second} has a pay table of its own; that of {first} is used", file=sys.stderr)
    return table, given.without("table")


def fraction(text: str) -> Fraction:
    """The number that a person wrote: `97.5`, `97.5%` without its sign, `4000/5`."""
    try:
        return Fraction(text.strip().removesuffix("%").replace(" ", ""))
    except (ValueError, ZeroDivisionError):
        raise click.BadParameter(f"{text!r} is no number") from None


def setting(text: str) -> tuple[str, list[Fraction]]:
    """A pay line with the payments to try: `full-house=6..9`, `flush=5,6`, `royal=4740/5`."""
    name, equals, numbers = text.partition("=")
    found: list[Fraction] = []
    for part in numbers.split(",") if equals and numbers else []:
        ends = re.fullmatch(r"(\d+)\.\.(\d+)(?::(\d+))?", part)
        if ends:
            low, high, step = int(ends[1]), int(ends[2]), int(ends[3] or 1)
            if low > high or step < 1:
                raise click.BadParameter(f"{part!r}: a range rises, as 6..9")
            found += [Fraction(number) for number in range(low, high + 1, step)]
        else:
            found.append(fraction(part))
    if not found:
        raise click.BadParameter(f"{text!r} is no setting: LINE=PAY, LINE=PAY,PAY or LINE=LOW..HIGH, in coins for each coin bet")
    return name, found
