"""`vpoker`: exact figures of five-card draw video poker, by the proved program `vpoker`.

This package proves nothing and computes no figure of a game itself: it runs the program, keeps what it prints as
`fractions.Fraction`, and rounds only to show.

    >>> import vpoker
    >>> table = vpoker.PayTable.read("jacks-9-6")
    >>> vpoker.certify(table).rtp
    Fraction(1653526326983, 1661102543100)
    >>> vpoker.deal(table, "As Ks Qs Js 4s").mask
    30
"""
from .cards import Hand
from .errors import (Place, ProgramMissing, Refused, RunFailed, UnexpectedOutput, UnknownCommand, Unsuitable, VpokerError)
from .program import Program, find_program
from .runs import (audit, card_errors, certify, check, compile_pool, cross, deal, hits, holds, meter, multi, replay, values)
from .tables import PayLine, PayTable
from .texts import Input, Source

__version__ = "0.1.0"
__all__ = [
    "Hand", "Input", "PayLine", "PayTable", "Place", "Program", "ProgramMissing", "Refused", "RunFailed", "Source",
    "UnexpectedOutput", "UnknownCommand", "Unsuitable", "VpokerError", "audit", "card_errors", "certify", "check",
    "compile_pool", "cross", "deal", "find_program", "hits", "holds", "meter", "multi", "replay", "values",
]
