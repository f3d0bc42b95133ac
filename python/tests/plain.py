"""Video poker in plain Python, written from docs/FORMATS.md alone: every draw of a hold is dealt, ranked and counted.

It shares nothing with the program or the package, and is slow: it serves to compare.
"""
from __future__ import annotations

from fractions import Fraction
from itertools import combinations

RANKS = "23456789TJQKA"
WINDOWS = ["A2345"] + [RANKS[low:low + 5] for low in range(9)]


def deck(cards: int) -> list[str]:
    return [rank + suit for rank in RANKS for suit in "cdhs"] + ["Jo", "Jk"][:cards - 52]


def split(hand: list[str], wild: str) -> tuple[list[str], int]:
    natural = [card for card in hand if card not in ("Jo", "Jk") and card[0] != wild]
    return natural, len(hand) - len(natural)


def ranks(word: str) -> str:
    return RANKS if word == "any" else word


def meets(pattern: list[str], hand: list[str], wild: str) -> bool:
    """Whether the faces of the hand can be chosen so that they meet the pattern."""
    natural, free = split(hand, wild)
    have = [card[0] for card in natural]
    suits = {card[1] for card in natural}
    most = {rank: have.count(rank) for rank in RANKS}
    name = pattern[0]

    def straight(windows: list[str]) -> bool:
        return len(set(have)) == len(have) and any(set(have) <= set(window) for window in windows)

    if name == "royal":
        return len(suits) <= 1 and straight(["TJQKA"])
    if name == "straight-flush":
        return len(suits) <= 1 and straight(WINDOWS)
    if name == "straight":
        return straight(WINDOWS)
    if name == "flush":
        return len(suits) <= 1
    if name == "five-kind":
        return any(most[rank] + free >= 5 for rank in ranks(pattern[1]))
    if name == "trips":
        return any(most[rank] + free >= 3 for rank in RANKS)
    if name == "pair":
        return any(most[rank] + free >= 2 for rank in ranks(pattern[1]))
    if name == "wilds":
        if free != int(pattern[1]):
            return False
        return len(pattern) == 2 or have[0] in ranks(pattern[3])
    if name == "quads" and len(pattern) == 2:
        return any(most[rank] + free >= 4 for rank in ranks(pattern[1]))
    if name == "quads":
        return any(
            all(face in (rank, other) for face in have) and most[rank] <= 4 and most[other] <= 1
            for rank in ranks(pattern[1]) for other in ranks(pattern[3]) if other != rank
        )
    if name in ("full-house", "two-pair"):
        needs = (3, 2) if name == "full-house" else (2, 2)
        return any(
            max(0, needs[0] - most[one]) + max(0, needs[1] - most[two]) <= free
            for one in RANKS for two in RANKS if one != two
        )
    raise ValueError(name)


def line_of(lines: list[tuple[str, list[str], str, int]], hand: list[str], wild: str) -> str | None:
    """The name of the first line that the hand matches."""
    free = split(hand, wild)[1]
    for name, pattern, qualifier, _ in lines:
        if (qualifier == "either" or (free > 0) == (qualifier == "wild")) and meets(pattern, hand, wild):
            return name
    return None


def hold(table: object, coin: int, hand: list[str], mask: int) -> tuple[Fraction, dict[str | None, int]]:
    """The mean payment of a hold, and how many draws end on each line (None: on no line)."""
    lines = [(line.name, line.pattern.split(), line.qualifier, line.pays[coin - 1]) for line in table.lines]
    pays = {line[0]: line[3] for line in lines}
    kept = [card for place, card in enumerate(hand) if mask >> place & 1]
    rest = [card for card in deck(table.deck) if card not in hand]
    counts: dict[str | None, int] = {name: 0 for name in [*pays, None]}
    for drawn in combinations(rest, 5 - len(kept)):
        counts[line_of(lines, kept + list(drawn), table.wild)] += 1
    total = sum(counts.values())
    return Fraction(sum(pays[name] * count for name, count in counts.items() if name), total), counts
