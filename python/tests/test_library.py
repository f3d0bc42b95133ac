"""The library over real runs of the program."""
from __future__ import annotations

import random
from fractions import Fraction

import plain
import pytest
from conftest import EXAMPLES, needs

import vpoker
from vpoker import answers, cards, runs

DEALS = [
    ("jacks-9-6.txt", "4s Js Qs Ks As"), ("jacks-9-6.txt", "8c 8d 9h Th Jc"), ("joker-kings.txt", "Ts Js Qs Ks Jo"),
    ("deuces-full.txt", "2c 2d 2h 2s 3c"), ("deuces-full.txt", "2c 3d 4d 5d 9h"), ("bonus-8-5.txt", "2c Ac Ad Ah As"),
]


def table_of(name: str) -> vpoker.PayTable:
    return vpoker.PayTable.read(EXAMPLES / name)


def test_certificate(jacks):
    made = vpoker.certify(jacks)
    assert made.rtp == Fraction(99211579618980, 99666152586000)
    assert len(made.classes) == cards.CLASSES[52] and sum(line.weight for line in made.classes) == cards.DECKS[52][0]
    assert sum(line.weight * line.scaled for line in made.classes) == made.sum
    assert made.classes[-1].held == ("Ac", "Ad", "Ah", "As")
    for coin in (1, 4):
        assert vpoker.certify(jacks, coin).rtp < made.rtp


def test_figures_agree(jacks):
    hits, moments, made = vpoker.hits(jacks), vpoker.multi(jacks, 10), vpoker.certify(jacks)
    assert hits.rtp == moments.rtp == made.rtp == sum(line.contribution for line in hits.lines)
    assert sum(line.combinations for line in hits.lines) + hits.none == hits.cycle
    second = sum(line.pay**2 * line.chance for line in hits.lines)
    assert moments.variance(1) == second / 25 - made.rtp**2
    assert moments.second == 25 * moments.variance(10) + moments.mean**2


@pytest.mark.parametrize("name, deal", DEALS)
def test_deal_against_plain_python(program, name, deal):
    table = table_of(name)
    found = vpoker.deal(table, deal)
    if found.mask.bit_count() >= 2:
        assert found.value == plain.hold(table, table.coins, list(found.cards), found.mask)[0]
    assert found.pat == plain.hold(table, table.coins, list(found.cards), 31)[0]


@pytest.mark.parametrize("name, deal", DEALS)
def test_holds_against_plain_python(program, name, deal):
    needs(program, "holds", ["1"])
    table = table_of(name)
    found = vpoker.holds(table, deal)
    best = vpoker.deal(table, deal)
    assert (found.holds[0].mask, found.holds[0].value, found.ties) == (best.mask, best.value, best.ties)
    assert sorted(hold.mask for hold in found.holds) == list(range(32))
    assert list(found.holds) == sorted(found.holds, key=lambda hold: (-hold.value, hold.mask))
    for hold in found.holds:
        assert hold.cards == cards.held(found.cards, hold.mask)
        if hold.mask.bit_count() >= 2:
            value, counts = plain.hold(table, table.coins, list(found.cards), hold.mask)
            assert (hold.value, {**hold.draws, None: hold.none}) == (value, counts)


@pytest.mark.slow
def test_holds_of_few_cards_against_plain_python(program, jacks):
    needs(program, "holds", ["1"])
    for hold in vpoker.holds(jacks, "4s Js Qs Ks As").holds:
        if hold.mask in (0, 8):
            value, counts = plain.hold(jacks, 5, ["4s", "Js", "Qs", "Ks", "As"], hold.mask)
            assert (hold.value, {**hold.draws, None: hold.none}) == (value, counts)


def test_values_find_the_certificate_again(program, jacks):
    needs(program, "values", ["1"])
    lines = vpoker.certify(jacks).classes
    for line, found in zip(lines, vpoker.values(jacks), strict=True):
        assert (line.cards, line.weight, line.scaled) == (found.cards, found.weight, max(found.scaled))
        assert found.scaled.index(line.scaled) == line.mask


@pytest.mark.parametrize("name", ["jacks-card.txt", "deuces-card.txt", "jacks-penalty-card.txt"])
def test_errors_add_up(program, name):
    needs(program, "errors", ["1", "0"])
    source = vpoker.Source.read(EXAMPLES / name)
    table, card = vpoker.PayTable.of_source(source.only("table")), source.only("list")
    whole, found = vpoker.audit(table, card), vpoker.card_errors(table, card)
    assert found.rest_classes == 0 and sum(error.loss for error in found.errors) == whole.loss == found.loss
    for number, rule in enumerate(whole.rules, 1):
        assert rule.loss == sum(error.loss for error in found.errors if (error.what, error.number) == ("rule", number))
    few = vpoker.card_errors(table, card, 10)
    assert few.errors == found.errors[:10]
    assert few.rest_loss + sum(error.loss for error in few.errors) == whole.loss


def test_audit_adds_up(program, jacks):
    found = vpoker.audit(jacks, vpoker.Source.read(EXAMPLES / "jacks-card.txt").only("list"))
    assert found.optimum - found.least == found.loss == sum(rule.loss for rule in found.rules)
    assert sum(rule.deals for rule in found.rules) == cards.DECKS[52][0]


def test_compile_loses_what_it_says(program, jacks):
    pool = vpoker.Source.read(EXAMPLES / "jacks-pool.txt").only("pool")
    made = vpoker.compile_pool(jacks, pool, Fraction(1, 10000))
    assert made.loss <= Fraction(1, 10000) < made.settled < made.start
    assert vpoker.audit(jacks, vpoker.Source("made", made.text.encode())).loss == made.loss
    assert len(made.exceptions) == 1577 and len(made.rules) == 26


def test_meter_is_the_table_with_that_payment(program, jacks):
    found = vpoker.meter(jacks, "royal", 4000, 12500)
    assert len(found.pieces) == 202 and found.least() == 4880
    for payment in (4000, 4006, 4880, 12500):
        changed = jacks.with_payment("royal", 5, Fraction(payment, 5))
        assert found.rtp(payment) == vpoker.certify(changed).rtp
    assert found.rtp(4879) < 1 <= found.rtp(4880)


def test_cross(program, jacks):
    found = vpoker.cross(jacks, table_of("bonus-8-5.txt"))
    assert (found.optimum - found.cross, found.classes, found.deals) == (found.loss, 721, 13728)


def test_replay(program, jacks):
    log = vpoker.Source.read(EXAMPLES / "jacks-log.txt").only("log")
    found = vpoker.replay(jacks, log)
    assert isinstance(found, answers.Replay)
    assert (found.games, found.credits, found.costs[0].game, found.loss) == (4, 240, 3, Fraction(476500200, 7669695))
    wrong = vpoker.Source("log", log.data.replace(b"credits 220", b"credits 225", 1))
    assert vpoker.replay(jacks, wrong) == answers.Finding(1, "credits", 225, 220)


def test_check(program, jacks):
    made = vpoker.certify(jacks)
    assert vpoker.check(made.data, 1, 3) == answers.Checked(134459, 3, made.rtp)
    wrong = made.data.replace(b"class 2c 2d 2h 2s 3c 4 15 958711875", b"class 2c 2d 2h 2s 3c 4 15 958711876")
    assert vpoker.check(wrong, 1, 3) == answers.Finding(16, "value", 958711876, 958711875)


def test_refusals_name_the_file_and_the_line(program, jacks, tmp_path):
    text = jacks.text.replace("JQKA", "AKQJ")
    with pytest.raises(vpoker.Refused) as refused:
        vpoker.certify(vpoker.PayTable.parse(text, "mine.txt"))
    assert (refused.value.status, refused.value.line, str(refused.value.place)) == (3, 13, "mine.txt:13")
    card = tmp_path / "card.txt"
    card.write_bytes(b"list\r\nrule hold 6\r\nend\r\n")
    with pytest.raises(vpoker.Refused) as refused:
        vpoker.audit(jacks, vpoker.Source.read(card))
    assert (refused.value.line, refused.value.place) == (16, vpoker.Place(str(card), 2, "rule hold 6\r"))
    with pytest.raises(vpoker.Refused) as refused:
        vpoker.audit(jacks, vpoker.Source("card", b"list\nrule hold 0\n"))
    assert refused.value.place == vpoker.Place("card", 3, None)
    with pytest.raises(vpoker.Refused):
        vpoker.PayTable.parse("table x\ndeck 52\n")


def test_windows_line_ends(program, jacks):
    other = vpoker.PayTable.parse(jacks.text.replace("\n", "\r\n"))
    assert other.lines == jacks.lines and vpoker.multi(other).rtp == vpoker.multi(jacks).rtp


def test_program_missing(monkeypatch):
    monkeypatch.setenv("VPOKER", "/nonexistent/vpoker")
    with pytest.raises(vpoker.ProgramMissing, match="VPOKER"):
        vpoker.find_program()


def test_what_the_program_does_not_know(program, jacks):
    with pytest.raises(vpoker.UnknownCommand):
        program.run(["certify", "05"])
    with pytest.raises(vpoker.Unsuitable):
        vpoker.certify(jacks, 6)


@pytest.mark.parametrize("text", ["as ks qs js 4s", "As,Ks,Qs,Js,4s", "AsKsQsJs4s", "A♠ K♠ Q♠ J♠ 4♠", "AS KS QS JS 4S"])
def test_spellings_of_a_hand(text):
    assert vpoker.Hand.of(text).cards == ("4s", "Js", "Qs", "Ks", "As")


@pytest.mark.parametrize("text", ["As Ks Qs Js", "As As Qs Js 4s", "1s Ks Qs Js 4s", "As Ks Qs Js 4x", ""])
def test_no_hand(text):
    with pytest.raises(vpoker.Unsuitable):
        vpoker.Hand.of(text)


def test_classes_are_named_by_their_representatives(program, jacks):
    lines = vpoker.certify(jacks).classes
    draw = random.Random(1)
    for line in draw.sample(lines, 200):
        hand = vpoker.Hand(line.cards)
        assert hand.representative() == hand
        assert hand.permuted(tuple(draw.sample("cdhs", 4))).representative() == hand


def test_form_of_holds_that_is_read(jacks):
    rows = ["deal 4s Js Qs Ks As"] + [f"hold {mask} {' '.join(cards.held(('4s', 'Js', 'Qs', 'Ks', 'As'), mask))} "
                                      f"{5 * mask} / 10 draws 1 2 3 4 5 6 7 8 9 10" for mask in range(32)]
    found = runs.read_holds(jacks, [row.split() for row in rows])
    assert found.holds[30].cards == ("Js", "Qs", "Ks", "As") and found.holds[0].cards == ()
    assert (found.holds[31].value, found.holds[31].draws["royal"], found.holds[31].none) == (Fraction(31, 2), 1, 10)


def test_form_of_errors_that_is_read():
    rows = ["optimum 9 / 10", "loss 3 / 10", "error 2c 3c 4h 7d Jc 12 rule 4 16 0 1", "error 2c 3c 4h 7d Qc 24 none 16 0 1",
            "rest 1 4 1"]
    found = runs.read_errors([row.split() for row in rows])
    assert (found.errors[0].what, found.errors[0].number, found.errors[1].what, found.errors[1].number) == ("rule", 4, "none", 0)
    assert (found.errors[0].best, found.errors[0].charged, found.rest_loss) == (16, 0, Fraction(1, 10))
