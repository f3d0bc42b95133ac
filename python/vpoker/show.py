"""Rounding for the eye, and one small report as text, CSV, HTML or JSON. Nothing is rounded anywhere else."""
from __future__ import annotations

import csv
import html
import io
import json
import os
import sys
from dataclasses import dataclass, field
from fractions import Fraction
from math import isqrt
from typing import Any

import rich.box
from rich.console import Console
from rich.table import Table

FORMATS = ("text", "csv", "json", "html")


def decimal(value: Fraction, places: int = 4) -> str:
    """The fraction rounded to so many decimal places, half to even."""
    scaled = round(value * 10**places)
    digits = f"{abs(scaled):0{places + 1}d}"
    whole, part = (digits[:-places], "." + digits[-places:]) if places else (digits, "")
    return ("-" if scaled < 0 else "") + whole + part


def percent(value: Fraction, places: int = 4) -> str:
    """The fraction in percent, without the sign."""
    return decimal(100 * value, places)


def root(value: Fraction) -> Fraction:
    """The square root, rounded down at the thirtieth decimal place."""
    return Fraction(isqrt(value.numerator * 10**60 // value.denominator), 10**30)


def exact(value: Fraction | None, places: int = 8) -> Any:
    """A fraction for JSON: exact, as text, and rounded."""
    return None if value is None else {"exact": f"{value.numerator}/{value.denominator}", "decimal": decimal(value, places)}


@dataclass
class Grid:
    """A table: its columns, and rows of texts and numbers that are ready to be shown."""

    head: list[str]
    rows: list[list[str | int]]
    title: str = ""


@dataclass
class Report:
    """What a command shows: a title, named figures, tables, notes; and the same for a program, in `data`."""

    title: str
    facts: list[tuple[str, str]] = field(default_factory=list)
    grids: list[Grid] = field(default_factory=list)
    notes: list[str] = field(default_factory=list)
    data: Any = None

    def show(self, form: str) -> None:
        """Writes it to standard output in one of `FORMATS`."""
        try:
            if form == "text":
                write_text(self)
            else:
                sys.stdout.write({"csv": as_csv, "json": as_json, "html": as_html}[form](self))
            sys.stdout.flush()
        except BrokenPipeError:
            # click would end with 1, which is a finding here
            os.dup2(os.open(os.devnull, os.O_WRONLY), 1)
            sys.exit(141)


def number_column(grid: Grid, place: int) -> bool:
    """Whether a column is set to the right: its cells are numbers."""
    cells = [str(row[place]) for row in grid.rows]
    return any(cells) and all(not cell or cell == "never" or cell.lstrip("-+")[:1].isdigit() and " " not in cell for cell in cells)


def write_text(report: Report) -> None:
    """The report for a terminal, or as plain text of any width for a pipe."""
    wide = Console() if sys.stdout.isatty() else None
    out = io.StringIO()
    console = Console(file=out, width=wide.width if wide else 200, color_system="standard" if wide and wide.color_system else None,
                      force_terminal=bool(wide and wide.color_system), highlight=False, emoji=False, markup=False, soft_wrap=True)
    if report.title:
        console.print(report.title, style="bold")
    _write_facts(console, report.facts)
    for grid in report.grids:
        _write_grid(console, grid)
    for note in report.notes:
        console.print("\nNote: " + note, style="dim", soft_wrap=wide is None)
    print("\n".join(line.rstrip() for line in out.getvalue().strip("\n").splitlines()))


def _write_facts(console: Console, facts: list[tuple[str, str]]) -> None:
    width = max((len(name) for name, _ in facts), default=0)
    for name, value in facts:
        console.print(f"{name:{width}}  {value}")


def _write_grid(console: Console, grid: Grid) -> None:
    console.print("\n" + grid.title if grid.title else "", style="bold")
    table = Table(box=rich.box.SIMPLE_HEAD, pad_edge=False, show_edge=False)
    for place, name in enumerate(grid.head):
        table.add_column(name, justify="right" if number_column(grid, place) else "left", overflow="fold")
    for row in grid.rows:
        table.add_row(*map(str, row))
    console.print(table, soft_wrap=False)


def as_csv(report: Report) -> str:
    """The tables, one after the other with an empty line between, then the named figures."""
    out = io.StringIO()
    writer = csv.writer(out, lineterminator="\n")
    for number, grid in enumerate(report.grids):
        if number:
            out.write("\n")
        writer.writerow(grid.head)
        writer.writerows(grid.rows)
    if report.facts:
        out.write("\n" if report.grids else "")
        writer.writerows(report.facts)
    return out.getvalue()


def as_json(report: Report) -> str:
    """The report's data."""
    return json.dumps(report.data, indent=2, ensure_ascii=False) + "\n"


STYLE = ("body{font:15px sans-serif;margin:2em;max-width:60em}table{border-collapse:collapse;margin:1em 0}"
         "td,th{padding:.2em .8em;border-bottom:1px solid #ccc;text-align:right}td:first-child,th:first-child{text-align:left}"
         "p.note{color:#555}")


def as_html(report: Report) -> str:
    """A page that needs no other file."""
    def row(cells: list[Any], tag: str) -> str:
        return "<tr>" + "".join(f"<{tag}>{html.escape(str(cell))}</{tag}>" for cell in cells) + "</tr>"

    parts = [f"<h1>{html.escape(report.title)}</h1>"]
    if report.facts:
        parts.append("<table>" + "".join(row(list(fact), "td") for fact in report.facts) + "</table>")
    for grid in report.grids:
        if grid.title:
            parts.append(f"<h2>{html.escape(grid.title)}</h2>")
        parts.append("<table>" + row(grid.head, "th") + "".join(row(cells, "td") for cells in grid.rows) + "</table>")
    parts += [f'<p class="note">{html.escape(note)}</p>' for note in report.notes]
    head = f'<meta charset="utf-8"><title>{html.escape(report.title)}</title><style>{STYLE}</style>'
    return f"<!doctype html>\n<html><head>{head}</head>\n<body>\n" + "\n".join(parts) + "\n</body></html>\n"
