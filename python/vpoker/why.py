"""Why an input is refused: the word that is wrong, what may stand there, and the usual causes.

The program alone decides that a line is refused. What is said here of the line is a hint, read from docs/FORMATS.md.
"""
from __future__ import annotations

import difflib
import re
from dataclasses import dataclass, field

from .cards import NAMES, RANKS, SUITS, Hand
from .errors import Refused, VpokerError
from .texts import Input, Source, words_of

#: the number of arguments of each test of a rule: `r` a set of ranks, `n` a number, `l` the name of a line
TESTS = {"hold": "n", "wilds": "n", "suited": "", "mixed": "", "royal": "", "windows": "nn", "count": "rnn", "equal": "n",
         "ranks": "n", "made": "l", "left": "rn", "leftsuit": "n"}
#: what stands behind each pattern; words in brackets may be left out
PATTERNS = {"royal": "", "straight-flush": "", "five-kind": "r", "wilds": "n", "quads": "r", "full-house": "", "flush": "",
            "straight": "", "trips": "", "two-pair": "", "pair": "r"}
QUALIFIERS = ("either", "natural", "wild")
SECTION_OF = {"deal": "deal", "holds": "deal", "audit": "list", "errors": "list", "compile": "pool", "replay": "log",
              "check": "cert", "cross": "table"}


class Wrong(Exception):
    """A word that is wrong: its place in the line from 0 (one more than the last for a word that is missing)."""

    def __init__(self, place: int, message: str):
        super().__init__(message)
        self.place, self.message = place, message


@dataclass(frozen=True)
class Why:
    """A refused line: file and line, its text, the column of the caret from 0 (None without one), and what is known of it."""

    where: str
    text: str | None
    column: int | None
    hints: list[str] = field(default_factory=list)

    def __str__(self) -> str:
        shown = [] if self.text is None else ["    " + self.text.replace("\t", " ")]
        if self.column is not None and self.text is not None:
            shown.append("    " + " " * self.column + "^")
        return "\n".join([self.where, *shown, *("  " + hint for hint in self.hints)])


def explain(refused: Refused, words: list[str], given: Input) -> Why:
    """What can be said of a refusal of `vpoker WORDS`."""
    place = refused.place
    if place is None:
        return Why("record %s" % refused.record, None, None, record_hints(refused.record or 0, given))
    raw = b"".join(source.data for source in given.sources if source.name == place.file)
    hints = encoding_hints(raw) if place.line == 1 else []
    if hints:
        text = None if b"\0" in raw else place.text and place.text.lstrip("\ufeff")
        return Why(f"{place.file}, line {place.line}", text, None, hints)
    before = lines_before(given, refused.line or 1)
    if place.text is None:
        return Why(f"{place.file}, line {place.line}: the input ends here", None, None, ended(before, words))
    try:
        look(place.text, before, words)
    except Wrong as wrong:
        return Why(f"{place.file}, line {place.line}", place.text.removesuffix("\r"), column(place.text, wrong.place),
                   [wrong.message])
    return Why(f"{place.file}, line {place.line}", place.text.removesuffix("\r"), None,
               ["no usual cause is found; docs/FORMATS.md has the rules of this line"])


def column(text: str, place: int) -> int:
    """Where the word of that place begins, or where the words end."""
    starts = [found.start() for found in re.finditer(r"[^ \t]+", text.removesuffix("\r").split("#", 1)[0])]
    if place < len(starts):
        return starts[place]
    return len(text.removesuffix("\r").split("#", 1)[0].rstrip()) + 1


def encoding_hints(raw: bytes) -> list[str]:
    """Bytes in front that editors write and nobody sees."""
    if raw.startswith((b"\xff\xfe", b"\xfe\xff")) or b"\0" in raw[:40]:
        return ["the file is in UTF-16: save it as plain text, ANSI or UTF-8 without a byte order mark"]
    if raw.startswith(b"\xef\xbb\xbf"):
        return ["the file begins with a byte order mark, which an editor does not show: save it as UTF-8 without one"]
    return []


def lines_before(given: Input, line: int) -> list[list[str]]:
    """The words of all lines before that line, without empty lines."""
    return [words for words in map(words_of, Source("", given.data).lines[:line - 1]) if words]


@dataclass
class Section:
    """Where a line stands: the section, the lines of it before, and the tables before."""

    name: str
    lines: list[list[str]]
    tables: list[list[list[str]]]
    closed: list[str]


def section_at(before: list[list[str]]) -> Section:
    """The section in which the next line stands; the name is empty between sections."""
    here = Section("", [], [], [])
    for words in before:
        if not here.name:
            here.name, here.lines = words[0], []
        here.lines.append(words)
        if words == ["end"] or here.name == "deal":
            here.closed.append(here.name)
            if here.name == "table":
                here.tables.append(here.lines)
            here.name, here.lines = "", []
    return here


def ended(before: list[list[str]], words: list[str]) -> list[str]:
    """Why an input that ends is not whole."""
    here = section_at(before)
    if here.name:
        return [f"the section `{here.name}` has no line `end`"]
    wanted = SECTION_OF.get(words[0] if words else "", "")
    if not here.closed:
        return ["the input is empty: a pay table begins with `table NAME`"]
    return [f"behind the pay table a section `{wanted}` is wanted"] if wanted else ["more lines are wanted"]


def look(text: str, before: list[list[str]], command: list[str]) -> None:
    """Raises `Wrong` for the first word of the line that is wrong as far as is known."""
    words, here = words_of(text), section_at(before)
    strange(text, words)
    if not here.name:
        first_line(words, here, command)
    elif here.name == "table":
        table_line(words, here, command)
    elif here.name in ("list", "pool"):
        rule_line(words, here)
    elif here.name == "log":
        log_line(words)
    elif here.name == "cert":
        cert_line(words)


def strange(text: str, words: list[str]) -> None:
    """Characters that look like others."""
    for place, word in enumerate(words):
        glued = re.fullmatch(r"end(table|list|pool|log|deal|cert|session.*)", word)
        if glued:
            raise Wrong(place, f"two files are joined without a line feed between: `end` and `{glued[1]}` are one word")
        if "\ufeff" in word:
            raise Wrong(place, "a byte order mark stands here: a file with one was joined behind another; save it without")
        other = next((sign for sign in word if ord(sign) > 126), None)
        if other:
            raise Wrong(place, f"{other!r} is no plain letter, digit or sign; a word processor may have put it in place of `-`, a space or a quote")


def first_line(words: list[str], here: Section, command: list[str]) -> None:
    """The first line of a section."""
    name = command[0] if command else ""
    wanted = "table" if not here.tables else SECTION_OF.get(name, "")
    if not wanted or (here.closed and here.closed[-1] == wanted and wanted != "table") or len(here.closed) > 1:
        raise Wrong(0, f"`{name}` reads nothing behind here: take this line and those behind it away")
    if wanted == "deal" and words[0] == "deal":
        deal_line(words, here)
    if words[0] != wanted:
        raise Wrong(0, f"`{wanted}` is wanted here, as `{name}` reads {'a pay table' if wanted == 'table' else f'a pay table and a section `{wanted}`'}")
    if wanted in ("list", "pool"):
        raise Wrong(1, f"`{wanted}` stands alone, or as `{wanted} 2` for version 2 of the language")
    if wanted == "log":
        number(words, 1, 0, 1000000000000, "the credits before the first game")
        nothing_behind(words, 2)
    if wanted == "cert":
        raise Wrong(1, "`cert COIN`: a bet of the table's columns, 1 to 5")
    named(words, 1)
    nothing_behind(words, 2)


def named(words: list[str], place: int) -> None:
    """A name."""
    word = at(words, place, "a name")
    if not re.fullmatch(r"[a-z][a-z0-9-]{0,23}", word):
        raise Wrong(place, f"{word!r} is no name: a lower-case letter, then up to 23 lower-case letters, digits and `-`")


def at(words: list[str], place: int, what: str) -> str:
    """The word of that place."""
    if place >= len(words):
        raise Wrong(place, f"{what} is missing")
    return words[place]


def nothing_behind(words: list[str], place: int) -> None:
    """No word stands there."""
    if len(words) > place:
        raise Wrong(place, f"nothing may stand here: the line ends before {words[place]!r}")


def number(words: list[str], place: int, low: int, high: int, what: str) -> int:
    """A number in its range."""
    word = at(words, place, what)
    if not re.fullmatch(r"\d+", word):
        other = " (whole, without sign, decimal point, comma or currency)" if re.search(r"\d", word) else ""
        raise Wrong(place, f"{word!r} is no number{other}; {what} is wanted, {low} to {high}")
    if len(word) > 1 and word[0] == "0":
        raise Wrong(place, f"{word!r}: a number has no zeros in front")
    if not low <= int(word) <= high:
        raise Wrong(place, f"{what} is {low} to {high}")
    return int(word)


def rank_set(words: list[str], place: int) -> None:
    """A set of ranks."""
    word = at(words, place, "a set of ranks, as JQKA or any,")
    if word == "any":
        return
    if word == RANKS:
        raise Wrong(place, "all thirteen ranks are written `any`")
    upper = word.upper().replace("10", "T")
    if set(upper) <= set(RANKS):
        due = "".join(rank for rank in RANKS if rank in upper)
        if due != word:
            raise Wrong(place, f"ranks rise and do not repeat: write `{'any' if due == RANKS else due}`")
        return
    raise Wrong(place, f"{word!r} is no set of ranks: `any`, or letters of {RANKS} in this order")


def near(word: str, known: list[str]) -> str:
    """`: did you mean ..` if a known word is near."""
    close = difflib.get_close_matches(word.lower(), known, 1)
    return f": is `{close[0]}` meant?" if close else f"; there are {', '.join(known)}"


def table_line(words: list[str], here: Section, command: list[str]) -> None:
    """A line of a pay table."""
    place = len(here.lines)
    wanted = ("table", "deck", "wild", "coins")[place] if place < 4 else ""
    if wanted and words[0] != wanted:
        raise Wrong(0, f"`{wanted}` is wanted here: a table begins with `table`, `deck`, `wild`, `coins`, in this order")
    if wanted == "deck":
        number(words, 1, 52, 54, "the number of cards")
    if wanted == "wild" and at(words, 1, "`none` or a rank") not in ("none", *RANKS):
        raise Wrong(1, f"`none`, or one rank of {RANKS}")
    if wanted == "coins":
        number(words, 1, 1, 5, "the number of columns")
    if wanted:
        nothing_behind(words, 2)
    if words == ["end"]:
        table_end(here, command)
    if words[0] != "line":
        raise Wrong(0, "`line NAME PATTERN QUALIFIER PAY ..` or `end` is wanted here")
    pay_line(words, here)


def table_end(here: Section, command: list[str]) -> None:
    """A table that is whole and yet does not fit."""
    coins, names = int(here.lines[3][1]), [line[1] for line in here.lines[4:]]
    name = command[0] if command else ""
    if not names:
        raise Wrong(0, "the table has no pay line")
    bet = command[1] if len(command) > 1 and name != "check" else ""
    if bet.isdigit() and int(bet) > coins:
        raise Wrong(0, f"the table has no column for a bet of {bet}: `coins {coins}`")
    if name == "meter" and len(command) > 2 and command[2] not in names:
        raise Wrong(0, f"the table has no pay line {command[2]!r}{near(command[2], names)}")
    if name == "cross" and here.tables:
        raise Wrong(0, f"the tables have different decks: {here.tables[0][1][1]} and {here.lines[1][1]} cards")


def pay_line(words: list[str], here: Section) -> None:
    """`line NAME PATTERN QUALIFIER PAY ..`"""
    named(words, 1)
    if any(line[1] == words[1] for line in here.lines[4:]):
        raise Wrong(1, f"a pay line of the name {words[1]!r} stands above")
    if len(here.lines) >= 36:
        raise Wrong(0, "a table has at most 32 pay lines")
    pattern = at(words, 2, "a pattern")
    if pattern not in PATTERNS:
        raise Wrong(2, f"{pattern!r} is no pattern{near(pattern, list(PATTERNS))}")
    place = 3
    if PATTERNS[pattern] == "r":
        rank_set(words, place)
        place += 1
    if PATTERNS[pattern] == "n":
        number(words, place, 1, 5, "the number of wild cards")
        place += 1
    if at(words, place, "a qualifier") == "kicker":
        if pattern != "quads" and words[2:4] != ["wilds", "4"]:
            raise Wrong(place, "a kicker stands behind `quads R` or `wilds 4` alone")
        rank_set(words, place + 1)
        place += 2
    if at(words, place, "a qualifier (either, natural, wild)") not in QUALIFIERS:
        raise Wrong(place, f"{words[place]!r} is no qualifier: `either`, `natural` or `wild`")
    coins, pays = int(here.lines[3][1]), words[place + 1:]
    for offset in range(min(coins, len(pays))):
        number(words, place + 1 + offset, 0, 500000, "a payment in coins")
    if len(pays) != coins:
        raise Wrong(place + 1 + min(coins, len(pays)), f"{coins} payments are wanted, one for each bet (`coins {coins}`); here are {len(pays)}")


def rule_line(words: list[str], here: Section) -> None:
    """A line of a list or a pool."""
    lines, version = here.lines, here.lines[0][1:] or ["1"]
    if words == ["end"]:
        raise Wrong(0, "a pool has at least one rule")
    if words[0] == "except" and here.name == "list":
        except_line(words, lines, 54 if not here.tables else int(here.tables[0][1][1]))
        return
    if words[0] != "rule":
        raise Wrong(0, f"`rule TEST ..`{', `except CARDS MASK`' if here.name == 'list' else ''} or `end` is wanted here")
    most = 128 if here.name == "list" else 64
    if sum(line[0] == "rule" for line in lines) >= most:
        raise Wrong(0, f"a {here.name} has at most {most} rules")
    names = [line[1] for table in here.tables for line in table[4:-1]]
    place, tests = 1, 0
    at(words, 1, "a test")
    while place < len(words):
        place = test(words, place, version, names, here.name)
        tests += 1
        if tests > 8:
            raise Wrong(place - 1, "a rule has at most 8 tests")


def test(words: list[str], place: int, version: list[str], names: list[str], section: str) -> int:
    """One test of a rule; the place behind it."""
    name = words[place]
    if name not in TESTS:
        raise Wrong(place, f"{name!r} is no test{near(name, list(TESTS))}")
    if name in ("left", "leftsuit") and version == ["1"]:
        raise Wrong(place, f"`{name}` is of version 2 of the language: begin with `{section} 2`")
    most, numbers = 10 if name == "windows" else 5, []
    for kind in TESTS[name]:
        place += 1
        if kind == "r":
            rank_set(words, place)
        elif kind == "l" and at(words, place, "the name of a pay line") not in names:
            raise Wrong(place, f"the table has no pay line {words[place]!r}{near(words[place], names)}")
        elif kind == "n":
            numbers.append(number(words, place, 0, most, "a number"))
    if len(numbers) == 2 and numbers[0] > numbers[1]:
        raise Wrong(place - 1, f"the least number stands first: `{name}` goes from {numbers[1]} to {numbers[0]}")
    return place + 1


def five_cards(words: list[str], place: int, deck: int) -> Hand:
    """Five different cards of the deck."""
    for offset in range(5):
        card_at(words, place + offset, deck)
    if len(set(words[place:place + 5])) < 5:
        twice = next(offset for offset in range(5) if words[place + offset] in words[place:place + offset])
        raise Wrong(place + twice, f"{words[place + twice]} stands twice")
    return Hand.of(" ".join(words[place:place + 5]))


def card_at(words: list[str], place: int, deck: int) -> None:
    """A card of the deck."""
    word = at(words, place, "a card")
    if word in NAMES[:deck]:
        return
    if word in NAMES:
        raise Wrong(place, f"{word} is no card of a deck of {deck}")
    likely = re.sub("^10", "T", word)
    likely = likely[:1].upper() + likely[1:].lower()
    hint = f": write `{likely}`" if likely in NAMES else f": a rank of {RANKS} and a suit of {SUITS}, as `Td`"
    raise Wrong(place, f"{word!r} is no card{hint}")


def deal_line(words: list[str], here: Section) -> None:
    """`deal C C C C C`"""
    five_cards(words, 1, int(here.tables[0][1][1]))
    nothing_behind(words, 6)


def except_line(words: list[str], lines: list[list[str]], deck: int) -> None:
    """`except C C C C C MASK`"""
    if any(line[0] == "rule" for line in lines):
        raise Wrong(0, "exceptions stand before all rules")
    hand = five_cards(words, 1, deck)
    number(words, 6, 0, 31, "a mask (1, 2, 4, 8, 16 for the first to the fifth card, added up)")
    nothing_behind(words, 7)
    if tuple(words[1:6]) != hand.cards:
        raise Wrong(1, f"the cards stand in rising order: {hand}")
    first = hand.representative()
    if first != hand:
        raise Wrong(1, f"this deal is not the representative of its class; {first} is, and the mask is for its cards")
    before = [line for line in lines if line[0] == "except"]
    if before and Hand(tuple(before[-1][1:6])).index >= hand.index:
        raise Wrong(1, "exceptions stand in the order of a certificate's class lines; this one belongs before the one above, or stands twice")


def log_line(words: list[str]) -> None:
    """A game of a log."""
    if words[0] != "game":
        raise Wrong(0, "`game BET deal C C C C C hold C .. draw C .. pay P credits Q` or `end` is wanted here")
    place = 1
    number(words, 1, 0, 2**64 - 1, "the bet")
    for name, least in (("deal", 5), ("hold", 0), ("draw", 0)):
        place += 1
        if at(words, place, f"`{name}`") != name:
            raise Wrong(place, f"`{name}` is wanted here")
        count = 0
        while place + 1 < len(words) and words[place + 1] not in ("hold", "draw", "pay"):
            place, count = place + 1, count + 1
            if count > 5:
                raise Wrong(place, f"at most five cards stand behind `{name}`")
            card_at(words, place, 54)
        if count < least:
            raise Wrong(place + 1, "five cards stand behind `deal`")
    for name in ("pay", "credits"):
        place += 2 if name == "credits" else 1
        if at(words, place, f"`{name}`") != name:
            raise Wrong(place, f"`{name}` is wanted here")
        number(words, place + 1, 0, 2**64 - 1, f"the number behind `{name}`")
    nothing_behind(words, place + 2)


def cert_line(words: list[str]) -> None:
    """A line of a certificate."""
    if words[0] == "class":
        five_cards(words, 1, 54)
        number(words, 6, 1, 24, "the number of deals in the class")
        number(words, 7, 0, 31, "a mask")
        number(words, 8, 0, 2**64 - 1, "a value")
        nothing_behind(words, 9)
    elif words[0] == "return":
        number(words, 1, 0, 2**64 - 1, "the sum")
        if at(words, 2, "`/`") != "/":
            raise Wrong(2, "`/` stands between the two numbers, with spaces around")
        number(words, 3, 0, 2**64 - 1, "the denominator")
        nothing_behind(words, 4)
    else:
        raise Wrong(0, "`class ..`, `return SUM / DENOMINATOR` or `end` is wanted here")


def record_hints(record: int, given: Input) -> list[str]:
    """What a refused record of a CSV text may be."""
    if record == 1:
        return ["the first record is `session,bet,deal,hold,draw,pay,credits`, without blanks; it is missing, or is another"]
    return ["records are counted from 1, with the header; empty lines are none",
            "seven fields; an opening has its name and the credits alone; a game has bet, five dealt cards, held and drawn cards with one blank "
            "between, pay and credits; no blank stands behind a comma"]


def explained(fault: VpokerError) -> str:
    """The text for a person."""
    if isinstance(fault, Refused) and fault.given:
        return f"refused: {explain(fault, fault.words, fault.given)}"
    return str(fault)
