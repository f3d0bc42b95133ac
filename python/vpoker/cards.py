"""Cards, hands and classes, as docs/FORMATS.md names and numbers them."""
from __future__ import annotations

import re
from dataclasses import dataclass
from itertools import permutations
from math import comb

from .errors import Unsuitable

RANKS = "23456789TJQKA"
SUITS = "cdhs"
JOKERS = ("Jo", "Jk")
NAMES = tuple(rank + suit for rank in RANKS for suit in SUITS) + JOKERS
NUMBERS = {name: number for number, name in enumerate(NAMES)}

#: the number of deals and the common denominator L of expected payments, by the number of cards in the deck
DECKS = {52: (2598960, 7669695), 53: (2869685, 8561520), 54: (3162510, 3813768)}
#: the number of classes, by the number of cards in the deck
CLASSES = {52: 134459, 53: 150891, 54: 169078}


def card(text: str) -> str:
    """The program's name of a card that a person wrote: `10d`, `TD`, `td` and `10♦` are all `Td`."""
    word = text.strip().translate(str.maketrans("♣♦♥♠♧♢♡♤", "cdhscdhs"))
    if word.lower() in ("jo", "joker", "jk"):
        return "Jk" if word.lower() == "jk" else "Jo"
    word = re.sub(r"^10", "T", word)
    name = word[:1].upper() + word[1:].lower()
    if name not in NUMBERS:
        raise Unsuitable(f"{text!r} is no card: a rank of {RANKS} (or 10) and a suit of {SUITS}, or Jo, Jk")
    return name


def cards(text: str) -> tuple[str, ...]:
    """The cards of a text: apart by spaces or commas, or written together as in `AsKsQsJs4s`."""
    words = re.split(r"[\s,;/|-]+", text.strip())
    if len(words) == 1 and len(words[0]) > 3:
        words = re.findall(r"10.|..", words[0])
    return tuple(card(word) for word in words if word)


def held(hand: tuple[str, ...], mask: int) -> tuple[str, ...]:
    """The cards of a hand that a mask holds: bit 0 is the first card, bit 4 the last."""
    return tuple(name for place, name in enumerate(hand) if mask >> place & 1)


def hold_text(hand: tuple[str, ...], mask: int) -> str:
    """The held cards, or `nothing`."""
    return " ".join(held(hand, mask)) or "nothing"


def index(numbers: tuple[int, ...]) -> int:
    """The index of five rising card numbers."""
    return sum(comb(number, place) for place, number in enumerate(numbers, 1))


@dataclass(frozen=True)
class Hand:
    """Five different cards in rising order."""

    cards: tuple[str, ...]

    @staticmethod
    def of(text: str) -> Hand:
        """The hand of a text, in any order and any of the spellings of `cards`."""
        names = cards(text)
        if len(names) != 5:
            raise Unsuitable(f"a deal has five cards, and {text!r} has {len(names)}")
        if len(set(names)) != 5:
            raise Unsuitable(f"a card stands twice in {text!r}")
        return Hand(tuple(sorted(names, key=NUMBERS.__getitem__)))

    @property
    def index(self) -> int:
        """Its place among all deals, as in a certificate."""
        return index(tuple(NUMBERS[name] for name in self.cards))

    def representative(self) -> Hand:
        """The deal of least index that a permutation of the suits makes of it: the name of its class."""
        return min((self.permuted(order) for order in permutations(SUITS)), key=lambda hand: hand.index)

    def permuted(self, order: tuple[str, ...]) -> Hand:
        """The deal with its suits c, d, h, s exchanged for those of `order`."""
        named = dict(zip(SUITS, order))
        changed = [name if name in JOKERS else name[0] + named[name[1]] for name in self.cards]
        return Hand(tuple(sorted(changed, key=NUMBERS.__getitem__)))

    def __str__(self) -> str:
        return " ".join(self.cards)
