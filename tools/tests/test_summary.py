"""The summary of the examples' reports and of a made one."""

from __future__ import annotations

import json
from pathlib import Path

import pytest
from conftest import EXAMPLES
from gateway_tools.summary import main

# Three whole sessions of 4, 1 and 3 ticks, one that overflowed; two buffers, both taken for a time.
MADE = """report 2
clock 5000000 500
session 0 0 20 0 20 4 0/0/1 whole
session 0 1 2 6 2 7 1/1/2 whole
session 0 2 20 8 20 11 2/0/4 whole
session 1 0 9 9 0 9 - overflow 4 00000000 9
dest 0 0 0 0 20 6 sent
dest 0 0 1 6 2 6 sent
dest 0 0 2 8 13 40 cs-timeout 13
dest 0 1 0 0 20 9 sent
iface 0 0 3 sent
iface 0 4 5 flushed
iface 0 6 6 sent
iface 0 7 7 boxed
iface 0 8 10 left
iface 2 0 0 sent
iface 2 1 4 refused
move 0 1 take 0
move 0 2 take 1
move 0 3 free 0
move 0 4 take 0
move 0 5 free 1
move 0 6 free 0
pool 0 2 6 00000003
pool 1 3 0 00000007
"""


def row(longest: int, median: float, tick: float) -> dict[str, float]:
    """Times in ticks, and in seconds by the length of a tick."""
    return {
        "longest_ticks": longest,
        "longest_seconds": pytest.approx(longest * tick),
        "median_ticks": median,
        "median_seconds": pytest.approx(median * tick),
    }


def test_made(tmp_path: Path, capsys: pytest.CaptureFixture[str]) -> None:
    """Every figure of the summary, counted by hand."""
    (tmp_path / "gw.report").write_text(MADE)
    assert main([str(tmp_path / "gw.report"), "--json"]) == 0
    assert json.loads(capsys.readouterr().out) == {
        "start_seconds": 5.0,
        "tick_seconds": 0.0005,
        "received": [
            {"channel": 0, "result": "whole", "messages": 3, "bytes": 42} | row(4, 3, 0.0005),
            {"channel": 1, "result": "overflow", "messages": 1, "bytes": 0} | row(0, 0, 0.0005),
        ],
        "sent": [
            {"path": 0, "destination": 0, "result": "cs-timeout", "messages": 1, "bytes": 13} | row(32, 32, 0.0005),
            {"path": 0, "destination": 0, "result": "sent", "messages": 2, "bytes": 22} | row(6, 3, 0.0005),
            {"path": 0, "destination": 1, "result": "sent", "messages": 1, "bytes": 20} | row(9, 9, 0.0005),
        ],
        "interfaces": [
            {"interface": 0, "sent": 5, "boxed": 1, "flushed": 2, "refused": 0, "left": 3},
            {"interface": 2, "sent": 1, "boxed": 0, "flushed": 0, "refused": 4, "left": 0},
        ],
        "pools": [
            {"group": 0, "buffers": 2, "most_in_use": 2},
            {"group": 1, "buffers": 3, "most_in_use": 0},
        ],
    }


# An example's report, and lines of its summary, with one space between the columns.
EXAMPLES_SUMMARIES = [
    ("single-frame/expected/gw.report", ["0 whole 1 2 0 0.000000 0 0.000000", "0 0 sent 1 2 0 0.000000 0 0.000000"]),
    ("segmented/expected/gw.report", ["0 whole 1 20 3 0.003000 3 0.003000", "0 0 sent 1 20 3 0.003000 3 0.003000"]),
    (
        "other-names/expected/bridge.report",
        [
            "start 10.000000 s, ticks of 0.000500 s",
            "0 whole 1 20 6 0.003000 6 0.003000",
            "0 0 run-end fc 1 6 6 0.003000 6 0.003000",
            "0 1 1",
        ],
    ),
]


@pytest.mark.parametrize(("report", "lines"), EXAMPLES_SUMMARIES)
def test_examples(report: str, lines: list[str], capsys: pytest.CaptureFixture[str]) -> None:
    """The text has the examples' figures."""
    assert main([str(EXAMPLES / report)]) == 0
    said = [" ".join(line.split()) for line in capsys.readouterr().out.splitlines()]
    assert [line for line in lines if line not in said] == []


def test_without_records(tmp_path: Path, capsys: pytest.CaptureFixture[str]) -> None:
    """A run without frames has nothing in its tables but the buffers."""
    (tmp_path / "gw.report").write_text("report 1\nclock 0 1000\npool 1 0 00000001\n")
    assert main([str(tmp_path / "gw.report")]) == 0
    assert capsys.readouterr().out.split("\n") == [
        "start 0.000000 s, ticks of 0.001000 s",
        *("", "received, by channel and result", "none"),
        *("", "sent, by path, destination and result", "none"),
        *("", "units of interface paths", "none"),
        *("", "buffers", "group  buffers  most in use", "    0        1            0", ""),
    ]
