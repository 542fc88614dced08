"""The report is read as docs/FORMATS.md has it: each result word once, and lines that can't stand there."""

from __future__ import annotations

from pathlib import Path

import pytest
from gateway_tools.command import Refusal
from gateway_tools.records import Destination, InterfaceUnits, Move, Opened, Pool, Result, Session
from gateway_tools.report import read_report

# A result as the report has it, and without its numbers.
SESSION_RESULTS = [
    ("whole", "whole"),
    ("overflow 7 0000000A 3", "overflow"),
    ("wrong-sn 2 15", "wrong-sn"),
    ("rx-timeout box", "rx-timeout box"),
    ("rx-timeout cf", "rx-timeout cf"),
    ("restarted", "restarted"),
    ("wait-over", "wait-over"),
    ("no-readers", "no-readers"),
    ("no-room 2 7", "no-room"),
    ("cancelled", "cancelled"),
    ("run-end box 4", "run-end box"),
    ("run-end room 5", "run-end room"),
    ("run-end cf 6", "run-end cf"),
]
DESTINATION_RESULTS = [
    ("sent", "sent"),
    ("source-ended", "source-ended"),
    ("bs-timeout", "bs-timeout"),
    ("as-timeout", "as-timeout"),
    ("cs-timeout 13", "cs-timeout"),
    ("fc-overflow", "fc-overflow"),
    ("invalid-fs 5", "invalid-fs"),
    ("cancelled", "cancelled"),
    ("run-end start 1", "run-end start"),
    ("run-end turn 2", "run-end turn"),
    ("run-end fc 3", "run-end fc"),
    ("run-end gap 4", "run-end gap"),
    ("run-end bytes 5", "run-end bytes"),
    ("run-end bus 6", "run-end bus"),
]


def written(tmp_path: Path, text: str) -> Path:
    """A file with this text."""
    (tmp_path / "gw.report").write_text(text)
    return tmp_path / "gw.report"


def test_each_result(tmp_path: Path) -> None:
    """Every result that a report can say."""
    lines = ["report 1", "clock 0 1000"]
    lines += [f"session 0 {at} 20 0 6 3 - {text}" for at, (text, _) in enumerate(SESSION_RESULTS)]
    lines += [f"dest 0 0 {at} 0 6 3 {text}" for at, (text, _) in enumerate(DESTINATION_RESULTS)]
    report = read_report(written(tmp_path, "\n".join([*lines, "pool 1 0 00000001", ""])))
    assert [(item.result.text, item.result.kind) for item in report.sessions] == SESSION_RESULTS
    assert [(item.result.text, item.result.kind) for item in report.destinations] == DESTINATION_RESULTS


def test_each_field(tmp_path: Path) -> None:
    """Every field of version 1 stands where it belongs."""
    text = "report 1\nclock 1000000 500\nsession 2 3 20 4 6 5 7/1/9 restarted\ndest 1 2 7 4 6 8 invalid-fs 5\n"
    text += "iface 3 0 4 flushed\niface 3 5 5 left\nmove 1 take 1\nmove 2 free 1\npool 2 2 00000003\n"
    report = read_report(written(tmp_path, text))
    assert (report.version, report.start, report.period) == (1, 1_000_000, 500)
    assert report.sessions == (Session(2, 3, 20, 4, 6, 5, Opened(7, 1, 9), Result("restarted")),)
    assert report.destinations == (Destination(1, 2, 7, 4, 6, 8, Result("invalid-fs", ("5",))),)
    assert report.interfaces == (InterfaceUnits(3, 0, 4, "flushed"), InterfaceUnits(3, 5, 5, "left"))
    assert report.moves == (Move(0, 1, True, 1), Move(0, 2, False, 1))
    assert report.pools == (Pool(0, 2, 2, 3),)


def test_version_two(tmp_path: Path) -> None:
    """Version 2 has groups of buffers, and units that a queue refused."""
    text = "report 2\nclock 0 1000\niface 0 2 2 refused\nmove 0 1 take 0\nmove 0 2 free 0\nmove 1 1 take 1\n"
    text += "move 1 2 free 1\npool 0 1 2 00000001\npool 1 1 2 00000001\n"
    report = read_report(written(tmp_path, text))
    assert report.interfaces == (InterfaceUnits(0, 2, 2, "refused"),)
    assert report.moves[2:] == (Move(1, 1, True, 1), Move(1, 2, False, 1))
    assert report.pools == (Pool(0, 1, 2, 1), Pool(1, 1, 2, 1))


HEAD = "report 1\nclock 0 1000\n"
# A text that is no report, and the first line that can't stand there.
FAULTS = [
    ("", "line 1 "),
    ("report 3\n", "line 1 "),
    ("report 1\r\nclock 0 1000\r\n", "line 1 "),
    ("report 1\npool 1 0 00000001\n", "line 2 "),
    ("report 1\nclock 0 0\npool 1 0 00000001\n", "line 2 "),
    (HEAD + "clock 0 1000\n", "line 3 "),
    (HEAD + "session 0 0 2 0 2 0 0/0/1\n", "line 3 "),
    (HEAD + "session 0 0 2 0 2 0 0/0/1 sent\n", "line 3 "),
    (HEAD + "session 0 0 2 0 2 0 0/0/1 whole 1\n", "line 3 "),
    (HEAD + "session 0 0 2 0 2 0 0/0 whole\n", "line 3 "),
    (HEAD + "session 0 0 2 0 2 00 0/0/1 whole\n", "line 3 "),
    (HEAD + "session 0 0 2 0  2 0 0/0/1 whole\n", "line 3 "),
    (HEAD + "session 0 0 2 0 2 0 - rx-timeout room\n", "line 3 "),
    (HEAD + "session 0 1 2 0 2 0 - whole\nsession 0 1 2 0 2 0 - whole\n", "line 4 "),
    (HEAD + "dest 0 0 0 0 2 0 sent\ndest 0 0 0 0 2 0 sent\n", "line 4 "),
    (HEAD + "dest 0 0 0 0 2 0 sent\nsession 0 0 2 0 2 0 - whole\n", "line 4 "),
    (HEAD + "iface 0 0 0 refused\n", "line 3 "),
    (HEAD + "iface 0 2 1 sent\n", "line 3 "),
    (HEAD + "iface 0 0 2 sent\niface 0 2 3 left\n", "line 4 "),
    (HEAD + "move 2 take 0\n", "line 3 "),
    (HEAD + "move 1 take 0\nmove 3 free 0\n", "line 4 "),
    (HEAD + "move 0 1 take 0\n", "line 3 "),
    (HEAD + "pool 1 0 0000000a\n", "line 3 "),
    (HEAD + "pool 1 0 00000001\npool 1 0 00000001\n", "line 4 "),
    (HEAD + "wrong\n", "line 3 "),
    (HEAD, "before its last line"),
    (HEAD + "pool 1 0 00000001", "before its last line"),
]


@pytest.mark.parametrize(("text", "place"), FAULTS)
def test_faults(tmp_path: Path, text: str, place: str) -> None:
    """The first line that can't stand in a report is told, in one line."""
    with pytest.raises(Refusal) as refusal:
        read_report(written(tmp_path, text))
    assert place in str(refusal.value) and "\n" not in str(refusal.value)
