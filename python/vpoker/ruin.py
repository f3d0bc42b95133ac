"""The chance of ruin of one-hand play, from exact line chances.

A player with a bankroll bets the same coins each game until the bankroll is less than one bet, or for ever. Let X be what a
game wins, in bets (its payment less the bet). If the return is at most 1, ruin is certain. Else there is one number r
between 0 and 1 with E[r^X] = 1, and r^bankroll is a martingale: ruin from B bets has the chance r^B if each payment is a
whole number of bets (a bankroll then ends at nothing exactly), and else at least r^B and at most r^(B - 1).
"""
from __future__ import annotations

from decimal import Decimal, localcontext
from fractions import Fraction

from .answers import Hits

DIGITS = 60


def chances(hits: Hits) -> dict[int, Fraction]:
    """The chance of each payment of the bet, in coins."""
    found: dict[int, Fraction] = {0: Fraction(hits.none, hits.cycle)}
    for line in hits.lines:
        found[line.pay] = found.get(line.pay, Fraction(0)) + line.chance
    return found


def whole_bets(hits: Hits) -> bool:
    """Whether each payment that can come is a whole number of bets."""
    return all(pay % hits.coin == 0 for pay, chance in chances(hits).items() if chance)


def ratio(hits: Hits) -> Decimal | None:
    """The number r, to some fifty digits; None if ruin is certain, as the return is at most 1. 0 if no game loses."""
    if hits.rtp <= 1:
        return None
    found = [(Fraction(pay, hits.coin), chance) for pay, chance in chances(hits).items() if chance]
    if all(pay >= 1 for pay, _ in found):
        return Decimal(0)
    with localcontext() as context:
        context.prec = DIGITS
        terms = [(_decimal(pay), _decimal(chance)) for pay, chance in found]
        # E[r^pay] - r is convex, above 0 before the root and below 0 between the root and 1.
        low, high = Decimal(0), Decimal(1)
        for _ in range(180):
            middle = (low + high) / 2
            if sum(chance * middle**pay for pay, chance in terms) > middle:
                low = middle
            else:
                high = middle
        return high


def _decimal(value: Fraction) -> Decimal:
    return Decimal(value.numerator) / Decimal(value.denominator)


def of_bankroll(r: Decimal, bets: Fraction) -> Decimal:
    """r to the power of the bankroll, in bets."""
    with localcontext() as context:
        context.prec = DIGITS
        return r ** _decimal(bets)


def bankroll_for(r: Decimal, chance: Fraction) -> int:
    """The least whole number of bets with which the chance of ruin is at most `chance`."""
    with localcontext() as context:
        context.prec = DIGITS
        bets = int((_decimal(chance).ln() / r.ln()).to_integral_value(rounding="ROUND_CEILING"))
        return max(bets, 1)
