"""`vp`: its commands, and how it ends."""
from __future__ import annotations

import os
import sys

import click

from .. import __version__
from ..errors import VpokerError
from ..why import explained
from . import card, check, log, payments, sheet

HELP = """Figures of five-card draw video poker, by the proved program vpoker.

vp proves nothing and computes no figure of a game itself: it runs the program, keeps what it prints as exact fractions, and
rounds only to show. TABLE is a file, the name of a built-in table (jacks-9-6, bonus-8-5, deuces-full, joker-kings), or - for
standard input."""


class Vp(click.Group):
    """A group whose help tells each command with an example."""

    def list_commands(self, ctx: click.Context) -> list[str]:
        return list(self.commands)

    def format_commands(self, ctx: click.Context, formatter: click.HelpFormatter) -> None:
        with formatter.section("Commands"):
            formatter.write_dl([(name, command.get_short_help_str(90)) for name, command in self.commands.items()])
        with formatter.section("Examples"):
            for command in self.commands.values():
                text = (command.help or "").split("Example", 1)[-1].split("\n", 1)[-1].strip("\n")
                formatter.write(f"  {text.splitlines()[0].strip()}\n")


@click.group(cls=Vp, help=HELP)
@click.version_option(__version__)
def vp() -> None:
    pass


for command in (sheet.par, sheet.hand, card.card, card.compile_command, sheet.compare, sheet.cross, payments.vary, payments.meter, payments.break_even, payments.ruin, check.check, log.replay, log.why):
    vp.add_command(command)


def main() -> None:
    """Runs `vp`. The exit status is that of the program: 0 done, 1 a finding, 2 wrong words, 3 a refused input, 4 to 8 as it says."""
    try:
        vp.main(standalone_mode=False)
        sys.stdout.flush()
    except VpokerError as fault:
        click.echo(f"vp: {explained(fault)}", err=True)
        sys.exit(fault.status)
    except click.ClickException as fault:
        fault.show()
        sys.exit(fault.exit_code)
    except (click.Abort, KeyboardInterrupt):
        click.echo("vp: stopped", err=True)
        sys.exit(130)
    except BrokenPipeError:
        os.dup2(os.open(os.devnull, os.O_WRONLY), 1)
        sys.exit(141)
