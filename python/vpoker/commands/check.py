"""`vp check`: a certificate checked, with a report for the file."""
from __future__ import annotations

import sys
from datetime import datetime, timezone
from fractions import Fraction
from pathlib import Path

import click

from .. import __version__
from ..answers import Finding
from ..checking import Kept, Text, all_parts, first_finding, sampled, settled, walk, walked
from ..errors import Unsuitable
from ..program import Program, find_program
from ..runs import read_certificate, read_check
from ..show import Report, exact, percent
from ..tables import PayTable
from ..texts import Input, Source
from ..workers import progress
from . import options

RULES = {
    "order": "the cards are not the representative of their class, or not in rising order of classes",
    "weight": "the number of deals in the class is wrong", "value": "the value is not the greatest of the 32 holds",
    "mask": "the hold is worth less than the best one", "cover": "the class lines do not cover all deals",
    "sum": "the sum of the return is not that of the lines", "denominator": "the denominator of the return is wrong",
}


@click.command()
@click.argument("certificate", type=click.Path(exists=True, dir_okay=False))
@click.option("--table", metavar="TABLE", help="Also ask that it is a certificate of this pay table.")
@click.option("--sample", type=click.IntRange(1), help="Enumerate so many class lines drawn at random, in place of all.")
@click.option("--seed", type=int, default=1, show_default=True, help="The seed of the sample.")
@click.option("--fresh", is_flag=True, help="Forget what an earlier check of this certificate has done.")
@click.option("--report", "path", type=click.Path(dir_okay=False), help="Write the report to this file, as Markdown.")
@options.cluster
@options.output
def check(certificate: str, table: str | None, sample: int | None, seed: int, fresh: bool, path: str | None, cluster: str | None,
          form: str, as_json: bool) -> None:
    """Check CERTIFICATE: against `certify`, and by enumerating all draws of all class lines.

    All lines take a minute or two of processor time, shared out over all cores. A check that is stopped goes on when it is
    started again: what is done is kept in CERTIFICATE.vp-check.

    \b
    Examples:
      vp check jacks.cert --report report.md
      vp check jacks.cert --sample 200 --seed 7
    """
    program = find_program()
    text = Text.read(Source.read(certificate), program)
    if table and PayTable.read(table).text != text.table.text:
        raise Unsuitable(f"{certificate} is no certificate of {table}: its pay table is another")
    difference = text.difference(program)
    print_difference(difference)
    classes = len(text.class_lines)
    parts = sampled(classes, sample, seed) if sample else all_parts(classes)
    kept = Kept(Path(certificate + ".vp-check"), {"certificate": text.sha256, "program": program.sha256})
    if not fresh:
        kept.load()
    before = walked(parts, kept)
    if before:
        print(f"vp: {before} class lines were done by an earlier run", file=sys.stderr)
    run_parts(text, program, parts, kept, cluster, before)
    first = first_finding(kept) or without_lines(text, program)
    report = check_report(text, program, difference, first, walked(parts, kept), before, (sample, seed))
    if path:
        write_report(path, report)
    options.finish(report, form, as_json)
    if first:
        sys.exit(1)


def without_lines(text: Text, program: Program) -> Finding | None:
    """What is wrong before any class line is enumerated; it is all that there is in a certificate without class lines."""
    said = read_check(program.run(["check", "1", "0"], Input((text.source,))))
    return said if isinstance(said, Finding) else None


def print_difference(difference: tuple[int, str | None, str | None] | None) -> None:
    """Says at once whether the bytes are those of `certify`."""
    if difference:
        line, theirs, ours = difference
        print(f"vp: line {line} is not what certify prints\n    here     {theirs}\n    certify  {ours}", file=sys.stderr)


def run_parts(text: Text, program: Program, parts: list[tuple[int, int]], kept: Kept, cluster: str | None, before: int) -> None:
    """Enumerates the parts, with a bar."""
    if settled(text, parts, kept):
        return
    try:
        with progress("class lines", sum(count for _, count in parts), before) as count:
            for lines in walk(text, program, parts, kept, cluster):
                count(lines)
    except KeyboardInterrupt:
        print(f"vp: what is done is kept in {kept.path}; the same command goes on", file=sys.stderr)
        raise


def check_report(text: Text, program: Program, difference: tuple[int, str | None, str | None] | None, first: Finding | None,
                 lines: int, before: int, sample: tuple[int | None, int]) -> Report:
    """The report for the file."""
    classes, made = len(text.class_lines), read_certificate(text.source.data)
    facts = [
        ("certificate", text.source.name), ("its SHA-256", text.sha256),
        ("pay table", f"{text.table.name}, a bet of {text.coin}"), ("SHA-256 of the table", text.table_sha256),
        ("program", str(program.path)), ("SHA-256 of the program", program.sha256),
        ("checked by", f"vp {__version__}, {datetime.now(timezone.utc):%Y-%m-%d %H:%M} UTC"),
        ("bytes of certify", "the same" if difference is None else f"another from line {difference[0]} on"),
        ("class lines", str(classes)),
        ("enumerated", f"{lines}" + (f", drawn at random by seed {sample[1]}" if sample[0] else "")
         + (f"; {before} of them by an earlier run" if before else "")),
        ("return", f"{made.sum} / {made.denominator} ({percent(made.rtp, 6)} %)"),
        ("verdict", verdict(first, lines, classes)),
    ]
    data = {
        "certificate": text.source.name, "certificate_sha256": text.sha256, "table": text.table.name, "coins": text.coin,
        "table_sha256": text.table_sha256, "program": str(program.path), "program_sha256": program.sha256,
        "same_as_certify": difference is None, "first_difference": difference and {
            "line": difference[0], "here": difference[1], "certify": difference[2]},
        "classes": classes, "enumerated": lines, "sample": sample[0], "seed": sample[1] if sample[0] else None,
        "return": exact(made.rtp), "true": first is None and lines == classes,
        "finding": first and {"line": first.line, "rule": first.rule, "found": first.said, "expected": first.due}}
    return Report("Check of a certificate", facts, [], [sentence(text, first, lines, made.rtp)], data)


def verdict(first: Finding | None, lines: int, classes: int) -> str:
    """One line."""
    if first:
        return f"FALSE: line {first.line}, rule {first.rule}: found {first.said}, expected {first.due} ({RULES.get(first.rule, '')})"
    return "true: no rule is broken" if lines == classes else f"no rule is broken in what was tested ({lines} of {classes} lines enumerated)"


def sentence(text: Text, first: Finding | None, lines: int, rtp: Fraction) -> str:
    """What may be written of the check."""
    named = f"the certificate with SHA-256 {text.sha256}"
    if first:
        return f"What may be written of it: {named} is false: line {first.line} breaks the rule `{first.rule}`."
    classes = len(text.class_lines)
    if lines == classes:
        return (f"What may be written of it: all {classes} class lines of {named} were enumerated by `vpoker check`, and no rule is "
                f"broken. For a bet of {text.coin} the pay table {text.table.name} returns {percent(rtp, 6)} % with best play, if each set "
                "of replacement cards is equally likely. This says nothing of a real machine: not that it pays by this table, "
                "nor that its random numbers are fair.")
    return (f"What may be written of it: of {classes} class lines of {named}, {lines} were enumerated by `vpoker check`; of the others "
            "class, number of deals, order and sum were tested, not the values. No rule is broken in what was tested. That does not "
            "show the return to be right: a value changed in a line that was not enumerated goes unnoticed.")


def write_report(path: str, report: Report) -> None:
    """The report as Markdown."""
    lines = [f"# {report.title}", ""] + ["| | |", "|---|---|"] + [f"| {name} | {value} |" for name, value in report.facts]
    try:
        Path(path).write_text("\n".join([*lines, "", *report.notes]) + "\n")
    except OSError as fault:
        raise Unsuitable(f"{path}: {fault.strerror}") from fault
