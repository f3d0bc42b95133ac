"""What the tests share: the program, the examples, and a word where there is none."""
from __future__ import annotations

from pathlib import Path

import pytest

import vpoker

EXAMPLES = Path(__file__).resolve().parents[2] / "examples"


def pytest_addoption(parser: pytest.Parser) -> None:
    parser.addoption("--slow", action="store_true", help="run the tests that take minutes, too")


def pytest_collection_modifyitems(config: pytest.Config, items: list[pytest.Item]) -> None:
    if not config.getoption("--slow"):
        for item in items:
            if "slow" in item.keywords:
                item.add_marker(pytest.mark.skip(reason="takes minutes: --slow runs it"))


@pytest.fixture(scope="session")
def program() -> vpoker.Program:
    try:
        return vpoker.find_program()
    except vpoker.ProgramMissing as missing:
        pytest.skip(str(missing))


@pytest.fixture(scope="session")
def jacks(program: vpoker.Program) -> vpoker.PayTable:
    return vpoker.PayTable.read(EXAMPLES / "jacks-9-6.txt")


def needs(program: vpoker.Program, command: str, words: list[str]) -> None:
    """Skips a test, and says so, if the program does not know a command yet."""
    if program.answer([command, *words]).status == 2:
        pytest.skip(f"the program {program.path} has no command `{command}` yet")
