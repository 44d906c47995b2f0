"""What docs/PYTHON.md shows stands in examples/python, and each program there prints what it says."""

from __future__ import annotations

import re
from pathlib import Path

import pytest
from conftest import TOP, slower_clock
from fulwethi.can import Station

PAGE = (TOP / "docs" / "PYTHON.md").read_text()

BLOCKS = re.findall(r"^```python\n(.*?)^```$", PAGE, re.M | re.S)

# (./test python runs the two others)
EXAMPLES = [it for it in sorted((TOP / "examples" / "python").glob("*.py")) if it.stem not in ("request_vin", "vehicle")]

PRINTED = re.compile(r"It prints `([^`]*)`")


def without_indents(text: str) -> str:
    return "".join(f"{line.strip()}\n" for line in text.splitlines())


def test_blocks_are_there() -> None:
    assert len(BLOCKS) == 3 and len(EXAMPLES) == 6
    assert PRINTED.findall(PAGE) == PRINTED.findall((TOP / "examples" / "python" / "two_stations.py").read_text()) != []


@pytest.mark.parametrize("block", BLOCKS, ids=[str(number) for number in range(1, len(BLOCKS) + 1)])
def test_blocks(block: str) -> None:
    assert any(without_indents(block) in without_indents(it.read_text()) for it in EXAMPLES)


@pytest.mark.parametrize("example", EXAMPLES, ids=[it.stem for it in EXAMPLES])
def test_examples(example: Path, monkeypatch: pytest.MonkeyPatch, capsys: pytest.CaptureFixture[str]) -> None:
    text = example.read_text()
    printed = PRINTED.search(text)
    monkeypatch.chdir(TOP)
    monkeypatch.setitem(Station.__init__.__kwdefaults__, "clock", slower_clock)
    exec(compile(text, str(example), "exec"), {"__name__": "shown"})
    said = capsys.readouterr().out
    assert not printed or said.splitlines() == [printed[1]]


def test_the_page_names_each_call() -> None:
    for name in vars(Station):
        assert name.startswith("_") or name == "is_open" or f"`{name}(" in PAGE, name
