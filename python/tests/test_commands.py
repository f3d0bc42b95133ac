"""Each command of `vp` as a user runs it: a process, its output, its exit status."""
from __future__ import annotations

import csv
import io
import json
import os
import random
import signal
import subprocess
import sys
import time
from fractions import Fraction
from pathlib import Path

import pytest
from conftest import EXAMPLES, needs

import vpoker
from vpoker import why

VP = [sys.executable, str(Path(__file__).resolve().parents[1] / "vp")]
JACKS = str(EXAMPLES / "jacks-9-6.txt")


def vp(*words: object, given: str = "", status: int = 0) -> str:
    done = subprocess.run([*VP, *map(str, words)], input=given.encode(), capture_output=True, check=False)
    assert done.returncode == status, done.stderr.decode()
    return done.stdout.decode() if status in (0, 1) or words[0] == "why" else done.stderr.decode()


def as_json(*words: object, status: int = 0) -> object:
    return json.loads(vp(*words, "--json", status=status))


def exact(value: dict[str, str]) -> Fraction:
    return Fraction(value["exact"])


def rows(text: str) -> list[list[str]]:
    return list(csv.reader(io.StringIO(text)))


def test_help_tells_every_command_with_an_example(program):
    text = vp("--help")
    for name in ("par", "hand", "card", "compile", "compare", "cross", "vary", "meter", "break-even", "ruin", "check", "replay", "why"):
        assert f"\n  {name} " in text and f"\n  vp {name} " in text
        assert "Example" in vp(name, "--help")


def test_par(program):
    text = vp("par", JACKS)
    assert "RTP                         99.5439 %" in text and "40390.55" in text and "19.514676" in text
    assert "least mask" in text and "7.266856 (90 %)" in text
    data = as_json("par", JACKS)
    assert exact(data["rtp"]) == Fraction(99211579618980, 99666152586000)
    assert sum(exact(line["contribution"]) for line in data["lines"]) == exact(data["rtp"])
    table = rows(vp("par", JACKS, "--format", "csv"))
    assert table[0][0] == "line" and table[1][:3] == ["royal", "4000", "493512264"]
    page = vp("par", JACKS, "--format", "html")
    assert page.startswith("<!doctype html>") and "<td>493512264</td>" in page
    assert "a bet of 1 coin\n" in vp("par", "jacks-9-6", "--coins", 1)
    assert vp("par", "-", given=Path(JACKS).read_text()) == text


def test_par_counts_tied_deals(program, jacks):
    needs(program, "values", ["1"])
    tied = as_json("par", JACKS)["tied_deals"]
    assert tied == sum(line.weight for line in vpoker.values(jacks) if line.ties > 1) > 0


def test_hand(program):
    data = as_json("hand", JACKS, "As", "Ks", "Qs", "Js", "4s")
    assert data["holds"][0]["cards"] == ["Js", "Qs", "Ks", "As"] and exact(data["holds"][0]["value"]) == Fraction(706591050, 7669695)
    assert "92.1277" in vp("hand", JACKS, "As,Ks,Qs,Js,4s")
    assert "five cards" in vp("hand", JACKS, "As", status=2)


def test_hand_shows_all_holds(program):
    needs(program, "holds", ["1"])
    data = as_json("hand", JACKS, "AsKsQsJs4s")
    assert len(data["holds"]) == 32 and data["holds"][0]["draws"]["royal"] == 1


def test_compare(program):
    table = rows(vp("compare", JACKS, "bonus-8-5", EXAMPLES / "deuces-nsud.txt", "--format", "csv"))
    assert [row[2] for row in table[1:]] == ["99.5439", "99.1660", "99.7283"]


def test_cross(program):
    data = as_json("cross", JACKS, "bonus-8-5")
    assert exact(data["loss"]) == Fraction(7698787080, 99666152586000) and data["worst"]["best"] == ["Tc", "Jc", "Ac"]
    assert "0.00772 %" in vp("cross", JACKS, "bonus-8-5")
    assert "different decks" in vp("cross", JACKS, "joker-kings", status=3)


def test_vary(program):
    table = rows(vp("vary", JACKS, "full-house=6..9", "flush=5,6", "--target", "97.3", "--format", "csv"))
    assert len(table) == 9 and table[1][:3] == ["8", "5", "97.2984"]
    data = as_json("vary", JACKS, "royal=4880/5,800")
    assert exact(data[0]["rtp"]) > 1 > exact(data[1]["rtp"])
    assert "no pay line" in vp("vary", JACKS, "house=6", status=2)
    assert "range rises" in vp("vary", JACKS, "flush=6..5", status=2)
    assert "whole number" in vp("vary", JACKS, "flush=1/2", status=2)


def test_meter(program, tmp_path):
    data = as_json("meter", JACKS, "royal", 4000, 12500)
    assert len(data["pieces"]) == 202 and data["least_fair"] == 4880
    assert "201" in vp("meter", JACKS, "royal", 4000, 12500)
    pytest.importorskip("matplotlib")
    vp("meter", JACKS, "royal", 4000, 5000, "--plot", tmp_path / "m.png")
    assert (tmp_path / "m.png").read_bytes().startswith(b"\x89PNG")


def test_break_even(program):
    assert as_json("break-even", JACKS, "royal")["least"] == 4880
    assert as_json("break-even", JACKS, "royal", "--coins", 1)["least"] == 976
    assert as_json("break-even", EXAMPLES / "deuces-full.txt", "natural-royal")["least"] < 4000
    assert "1220.00" in vp("break-even", JACKS, "royal", "--denom", "0.25")
    found = as_json("break-even", JACKS, "high-pair")
    table = vpoker.PayTable.read(JACKS)
    for less, fair in ((0, True), (1, False)):
        changed = table.with_payment("high-pair", 5, Fraction(found["least"] - less, 5))
        assert (vpoker.multi(changed).rtp >= 1) == fair


def test_ruin(program):
    assert "certain" in vp("ruin", JACKS)
    data = as_json("ruin", EXAMPLES / "deuces-full.txt", "--bankroll", 4000)
    r = float(data["r"])
    hits = vpoker.hits(vpoker.PayTable.read(EXAMPLES / "deuces-full.txt"))
    mean = sum(float(line.chance) * r ** (line.pay / 5 - 1) for line in hits.lines) + hits.none / hits.cycle / r
    assert abs(mean - 1) < 1e-12 and abs(float(data["ruin"][0]) - r**4000) < 1e-9


def test_ruin_of_a_game_that_is_known(program):
    """A table on which any line pays by one half or so: the chance of ruin against the recursion of a long play."""
    text = "table even\ndeck 52\nwild none\ncoins 1\nline all pair any either 3\nend\n"
    hits = vpoker.hits(vpoker.PayTable.parse(text))
    p = float(hits.lines[0].chance)
    from vpoker import ruin

    r = float(ruin.ratio(hits))
    # from one bet: q + p (r)^3 = r, as three bets come in place of one
    assert abs((1 - p) + p * r**3 - r) < 1e-12


def test_card(program):
    data = as_json("card", EXAMPLES / "jacks-card.txt")
    assert exact(data["loss"]) == Fraction(85269706920, 99666152586000) and len(data["rules"]) == 26
    text = vp("card", JACKS, EXAMPLES / "jacks-card.txt")
    assert "0.08556 %" in text and "hold 3 suited windows 1 10" in text


def test_card_marks_rules_that_no_deal_reaches(program, tmp_path):
    card = tmp_path / "card.txt"
    card.write_bytes(b"list\r\nrule hold 5 made royal\r\nrule hold 0\r\nrule hold 1\r\nend\r\n")
    data = as_json("card", JACKS, card, "--without")
    assert [rule["reached"] for rule in data["rules"]] == [True, True, False]
    assert exact(data["rules"][2]["loss_without"]) == exact(data["loss"]) < exact(data["rules"][0]["loss_without"])
    assert "unreached" in vp("card", JACKS, card)


def test_compile(program, tmp_path):
    made = tmp_path / "made.txt"
    data = as_json("compile", EXAMPLES / "jacks-pool.txt", "--loss", "0.01", "-o", made)
    assert exact(data["loss"]) == Fraction(9951361860, 99666152586000)
    assert sum(group["classes"] for group in data["groups"]) == 1577
    assert exact(as_json("card", JACKS, made)["loss"]) == exact(data["loss"])
    assert [(rule["place"], rule["was"]) for rule in data["rules"][15:17]] == [(16, 17), (17, 16)]
    assert "millionths" in vp("compile", EXAMPLES / "jacks-pool.txt", "--loss", "0.00001", status=2)


def test_replay(program, tmp_path):
    data = as_json("replay", EXAMPLES / "jacks-log.txt")
    assert (data["games"], data["slips"], data["costs"][0]["line"]) == (4, 1, 19)
    assert "Js Qs Ks As" in vp("replay", EXAMPLES / "jacks-log.txt")
    log = tmp_path / "log.txt"
    log.write_text("log 100\ngame 5 deal As Ks Qs Js 4s hold As Ks draw 2c 2d As pay 0 credits 95\nend\n")
    assert "drawn card 3, As, was dealt" in vp("replay", JACKS, log, status=1)


@pytest.fixture(scope="module")
def certificate(program, jacks, tmp_path_factory):
    path = tmp_path_factory.mktemp("check") / "jacks.cert"
    path.write_bytes(vpoker.certify(jacks).data)
    return path


def test_check_of_a_sample(certificate, tmp_path):
    report = tmp_path / "report.md"
    data = as_json("check", certificate, "--table", JACKS, "--sample", 5, "--seed", 3, "--report", report)
    assert data["same_as_certify"] and data["enumerated"] == 5 and not data["true"] and data["finding"] is None
    assert data["certificate_sha256"] in report.read_text() and "What may be written" in report.read_text()
    assert "no certificate of" in vp("check", certificate, "--table", "bonus-8-5", status=2)


def test_check_finds_what_was_changed(certificate):
    wrong = certificate.with_name("wrong.cert")
    wrong.write_bytes(certificate.read_bytes().replace(b"class 2c 2d 2h 2s 3c 4 15 958711875", b"class 2c 2d 2h 2s 3c 4 15 958711876"))
    data = as_json("check", wrong, status=1)
    assert data["finding"] == {"line": 16, "rule": "value", "found": 958711876, "expected": 958711875}
    assert data["first_difference"]["line"] == 16 and not data["true"]


def test_check_of_a_small_certificate_that_is_true_of_nothing(program, tmp_path):
    small = tmp_path / "small.cert"
    small.write_bytes((EXAMPLES / "certificate-without-classes.txt").read_bytes())
    assert "cover" in vp("check", small, status=1)


def test_a_stopped_check_goes_on(certificate):
    copy = certificate.with_name("stopped.cert")
    copy.write_bytes(certificate.read_bytes())
    kept = copy.with_name("stopped.cert.vp-check")
    run = subprocess.Popen([*VP, "check", str(copy)], stdout=subprocess.PIPE, stderr=subprocess.PIPE)
    until = time.monotonic() + 120
    while time.monotonic() < until and not (kept.exists() and kept.read_text().count("\n") > 2):
        time.sleep(0.2)
    assert "another check" in vp("check", copy, status=2)
    run.send_signal(signal.SIGINT)
    run.communicate(timeout=60)
    assert run.returncode == 130
    lines = kept.read_text().splitlines()
    assert len(lines) > 2 and all(json.loads(line) for line in lines)
    again = subprocess.Popen([*VP, "check", str(copy)], stdout=subprocess.PIPE, stderr=subprocess.PIPE)
    first = again.stderr.readline().decode()
    again.send_signal(signal.SIGINT)
    again.communicate(timeout=60)
    assert "were done by an earlier run" in first


@pytest.mark.slow
def test_check_of_all_lines(certificate):
    assert as_json("check", certificate)["true"]


REFUSALS = [
    (lambda text: text.replace("JQKA", "AKQJ"), "certify 5", "write `JQKA`", 13),
    (lambda text: text.replace("quads any", "quads 23456789TJQKA"), "certify 5", "written `any`", 7),
    (lambda text: text.replace(" 4000", ""), "certify 5", "5 payments are wanted", 5),
    (lambda text: text.replace(" 4000", " 04000"), "certify 5", "no zeros in front", 5),
    (lambda text: text.replace("250 500", "250,500"), "certify 5", "no number", 5),
    (lambda text: text.replace("line flush", "line quads"), "certify 5", "stands above", 9),
    (lambda text: text.replace("quads any either", "quads any"), "certify 5", "qualifier", 7),
    (lambda text: text.replace("deck 52", "deck 51"), "certify 5", "52 to 54", 2),
    (lambda text: text.replace("coins 5\n", ""), "certify 5", "`coins` is wanted", 4),
    (lambda text: text.replace("line two-pair two-pair", "line two-pair two-pairs"), "certify 5", "is `two-pair` meant", 12),
    (lambda text: text.replace("coins 5", "coins 6"), "certify 5", "1 to 5", 4),
    (lambda text: "\ufeff" + text, "certify 5", "byte order mark", 1),
    (lambda text: text.replace("end\n", ""), "certify 5", "no line `end`", 14),
    (lambda text: text.replace("high-pair pair", "high–pair pair"), "certify 5", "no plain letter", 13),
    (lambda text: text, "meter 5 royl 0 10", "is `royal` meant", 14),
    (lambda text: text + "deal As Ks Qs Js 10s\n", "deal 5", "write `Ts`", 15),
    (lambda text: text + "deal As Ks Qs Js Js\n", "deal 5", "stands twice", 15),
    (lambda text: text + "deal As Ks Qs Js Jo\n", "deal 5", "deck of 52", 15),
    (lambda text: text + "deal As Ks Qs Js\n", "deal 5", "is missing", 15),
    (lambda text: text, "deal 5", "a section `deal` is wanted", 15),
    (lambda text: text + "list\nrule hold 0\nend\n", "certify 5", "reads nothing behind here", 15),
    (lambda text: text[:-1] + "list\nrule hold 0\nend\n", "audit 5", "without a line feed", 14),
    (lambda text: text + "list 1\nend\n", "audit 5", "list 2", 15),
    (lambda text: text + "list\nrule hold 2 leftsuit 0\nend\n", "audit 5", "version 2", 16),
    (lambda text: text + "list\nrule hold 5 made flash\nend\n", "audit 5", "is `flush` meant", 16),
    (lambda text: text + "list\nrule hold 2 count AK 2 2\nend\n", "audit 5", "write `KA`", 16),
    (lambda text: text + "list\nrule hold 2 windows 3 1\nend\n", "audit 5", "least number", 16),
    (lambda text: text + "list\nexcept 2c 3d 4h 7s Jd 16\nend\n", "audit 5", "representative", 16),
    (lambda text: text + "list\nexcept 2s 3c 4h 7d Jc 32\nend\n", "audit 5", "0 to 31", 16),
    (lambda text: text + "list\nrule hold 0\nexcept 2s 3c 4h 7d Jc 16\nend\n", "audit 5", "before all rules", 17),
    (lambda text: text + "pool\nend\n", "compile 5 0", "at least one rule", 16),
    (lambda text: text + "log 10\ngame 5 deal As Ks Qs Js hold draw pay 0 credits 5\nend\n", "replay", "five cards", 16),
    (lambda text: text + "log 10\ngame 5 deal As Ks Qs Js 4s hold draw pay 0.5 credits 5\nend\n", "replay", "no number", 16),
]


@pytest.mark.parametrize("change, words, hint, line", REFUSALS)
def test_why(program, change, words, hint, line):
    given = change(Path(JACKS).read_text())
    text = vp("why", *words.split(), given=given, status=3)
    assert text.startswith(f"refused: standard input, line {line}") and hint in text


def test_why_of_what_is_not_refused(program):
    assert vp("why", "certify", 5, given=Path(JACKS).read_text()) == "nothing is refused\n"


def test_why_has_a_word_for_every_input(program):
    """Inputs with words that are taken away, doubled or exchanged: a refusal is explained, and nothing fails."""
    draw = random.Random(40)
    unexplained, refused = [], 0
    names = [("jacks-card.txt", "audit 5"), ("jacks-penalty-card.txt", "audit 5"), ("jacks-pool.txt", "compile 5 1000000"),
             ("jacks-log.txt", "replay"), ("deuces-four-deuces.txt", "deal 5"), ("certificate-without-classes.txt", "check 1 0")]
    for turn in range(120):
        name, words = names[turn % len(names)]
        lines = (EXAMPLES / name).read_text().splitlines()
        place = draw.randrange(len(lines))
        parts = lines[place].split(" ")
        spot = draw.randrange(len(parts))
        new = {0: [], 1: [parts[spot]] * 2, 2: [draw.choice(draw.choice(lines).split() or ["x"])], 3: ["7x"]}[draw.randrange(4)]
        parts[spot:spot + 1] = new
        lines[place] = " ".join(parts)
        given = vpoker.Input((vpoker.Source("input", ("\n".join(lines) + "\n").encode()),))
        try:
            program.run(words.split(), given)
        except vpoker.Refused as fault:
            refused += 1
            reason = why.explain(fault, words.split(), given)
            if any("no usual cause" in hint for hint in reason.hints) or not reason.hints:
                unexplained.append(str(reason))
    assert refused > 30 and unexplained == []


def test_refused_files_are_named(program, tmp_path):
    card = tmp_path / "card.txt"
    card.write_text("list\nrule hold 6\nend\n")
    text = vp("card", JACKS, card, status=3)
    assert f"{card}, line 2" in text and text.splitlines()[2].endswith("^") and "0 to 5" in text


def test_no_program(monkeypatch):
    monkeypatch.setenv("VPOKER", "/nonexistent/vpoker")
    assert "rt run" in vp("par", JACKS, status=127)


def test_wrong_words(program):
    two = "table two\ndeck 52\nwild none\ncoins 2\nline all pair any either 1 2\nend\n"
    assert "no file" in vp("par", "nonesuch", status=2)
    assert "bets of 1 to 2 coins, not of 3" in vp("par", "-", "-c", 3, given=two, status=2)
    assert "0<=x<=500000" in vp("meter", JACKS, "royal", 0, 600000, status=2)
    assert "deck" in vp("why", "cross", 5, given=Path(JACKS).read_text() + (EXAMPLES / "joker-kings.txt").read_text(), status=3)


@pytest.mark.parametrize("form", ["text", "json"])
def test_a_closed_pipe_is_no_fault(program, form):
    reading, writing = os.pipe()
    os.close(reading)
    run = subprocess.run([*VP, "compare", JACKS, "--format", form], stdout=writing, stderr=subprocess.PIPE, check=False)
    os.close(writing)
    assert (run.returncode, run.stderr) == (141, b"")


def test_windows_line_ends(program, tmp_path):
    for name in ("jacks-card.txt", "jacks-log.txt"):
        (tmp_path / name).write_bytes((EXAMPLES / name).read_bytes().replace(b"\n", b"\r\n"))
    assert vp("card", tmp_path / "jacks-card.txt").splitlines()[1:] == vp("card", EXAMPLES / "jacks-card.txt").splitlines()[1:]
    assert as_json("replay", tmp_path / "jacks-log.txt")["slips"] == 1


def test_python_minus_m(program):
    done = subprocess.run([sys.executable, "-m", "vpoker", "--version"], cwd=Path(VP[1]).parent, capture_output=True, check=True)
    assert vpoker.__version__ in done.stdout.decode() and os.environ


STAND_IN = """#!/bin/sh
# answers as a program that finds a small certificate true
case "$1" in
    certify) cat "$(dirname "$0")/small.cert" ;;
    check) cat > /dev/null
        count=$3; last=$((250 - $2 + 1)); [ "$count" -gt "$last" ] && count=$last
        echo "checked 250 $count"; echo "return 1 / 2" ;;
esac
"""


def test_check_of_all_lines_of_a_stand_in(program, certificate, tmp_path, monkeypatch):
    """The way to the verdict `true`, with a stand-in for the program that is quick: parts, counts, report."""
    lines = certificate.read_bytes().splitlines(keepends=True)
    small = tmp_path / "small.cert"
    small.write_bytes(b"".join(lines[:15 + 250] + lines[-2:]))
    stand_in = tmp_path / "vpoker"
    stand_in.write_text(STAND_IN)
    stand_in.chmod(0o755)
    monkeypatch.setenv("VPOKER", str(stand_in))
    data = as_json("check", small)
    assert (data["true"], data["enumerated"], data["classes"], data["same_as_certify"]) == (True, 250, 250, True)
    kept = (tmp_path / "small.cert.vp-check").read_text().splitlines()
    assert [json.loads(line)["count"] for line in kept[1:]].count(100) == 2 and len(kept) == 4
    assert "were enumerated by `vpoker check`, and no rule is broken" in vp("check", small)
