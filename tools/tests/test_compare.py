"""The comparison on the examples, and on made runs of which most are wrong in one place."""

from __future__ import annotations

import shutil
from collections.abc import Callable
from pathlib import Path

import pytest
from conftest import BASE
from gateway_tools import wireshark
from gateway_tools.compare import main

needs_tshark = pytest.mark.skipif(not wireshark.is_installed(), reason="tshark isn't installed")

# An example, its configuration and report, and what is said of its one destination record.
EXAMPLES_FOUND = [
    ("single-frame", "gw.toml", "gw.report", "path p to B unit 0: 2 of 2 bytes, sent: the same (scapy, tshark)"),
    ("segmented", "gw.toml", "gw.report", "path p to B unit 0: 20 of 20 bytes, sent: the same (scapy, tshark)"),
    (
        *("other-names", "bridge.toml", "bridge.report"),
        "path requests to engine unit 0: 6 of 20 bytes, run-end fc 0: the same (scapy)",
    ),
]


@pytest.mark.parametrize(("name", "config", "report", "found"), EXAMPLES_FOUND)
@pytest.mark.parametrize("tshark", [False, pytest.param(True, marks=needs_tshark)])
def test_examples(
    name: str, config: str, report: str, found: str, tshark: bool,
    example: Callable[[str], Path], capsys: pytest.CaptureFixture[str],
) -> None:  # fmt: skip
    """In the examples the destinations got what the sources sent."""
    folder = example(name)
    words = [str(folder / config), str(folder / report)]
    assert main(words if tshark else [*words, "--without-tshark"]) == 0
    found = found if tshark else found.replace(", tshark)", ")")
    assert capsys.readouterr().out == f"{found}\ndestination records 1, differences 0\n"


# ReadDataByIdentifier of the identification number: an answer of 20 bytes.
SENT = [(0, "7E0#101462F190574456"), (2, "7E0#215A5A5A314B5A41"), (3, "7E0#2257303030303031")]
LEFT = [(1, "641#101462F190574456"), (3, "641#215A5A5A314B5A41"), (4, "641#2257303030303031")]
HEAD = "report 1\nclock 1000000 1000\n"
SESSION = "session 0 0 20 0 20 3 0/0/1 whole\n"
DEST = "dest 0 0 0 0 20 3 sent\n"
TAIL = "move 1 take 0\nmove 2 free 0\npool 1 2 00000001\n"
RIGHT = HEAD + SESSION + DEST + TAIL
NAME = "path requests to engine unit 0: "


def changed(lines: list[tuple[float, str]], at: int, frame: str) -> list[tuple[float, str]]:
    """The lines with another frame in one of them."""
    return [*lines[:at], (lines[at][0], frame), *lines[at + 1 :]]


# What is wrong: the report, the source's log, the destination's output, and what is said, line by line.
WRONG = {
    "nothing": (RIGHT, SENT, LEFT, [f"{NAME}20 of 20 bytes, sent: the same (scapy)"]),
    "a byte of the first frame": (
        *(RIGHT, SENT, changed(LEFT, 0, "641#101462F190574457")),
        [f"{NAME}20 of 20 bytes, sent: byte 5 was 56 at the source and is 57 (scapy)"],
    ),
    "a byte of the last frame": (
        *(RIGHT, SENT, changed(LEFT, 2, "641#2257303030303032")),
        [f"{NAME}20 of 20 bytes, sent: byte 19 was 31 at the source and is 32 (scapy)"],
    ),
    "a frame isn't there": (
        *(RIGHT, SENT, LEFT[:2]),
        [f"{NAME}20 of 20 bytes, sent: the report says 20 bytes, and the destination got 13 (scapy)"],
    ),
    "two frames changed places": (
        *(RIGHT, SENT, [LEFT[0], (3, LEFT[2][1]), (4, LEFT[1][1])]),
        [f"{NAME}20 of 20 bytes, sent: the report says 20 bytes, and the destination got 13 (scapy)"],
    ),
    "nothing left": (
        *(RIGHT, SENT, []),
        [f"{NAME}20 of 20 bytes, sent: the report says 20 bytes, and nothing was sent (scapy)"],
    ),
    "another length": (
        *(RIGHT, SENT, changed(LEFT, 0, "641#101562F190574456")),
        [f"{NAME}20 of 20 bytes, sent: the source announced 20 bytes, and the destination 21 (scapy)"],
    ),
    "the report says more": (
        *(HEAD + SESSION + "dest 0 0 0 0 20 3 sent\n" + TAIL, SENT[:2], LEFT),
        [f"{NAME}20 of 20 bytes, sent: the report says 20 bytes, and the source sent 13 (scapy)"],
    ),
    "the report says less": (
        *(HEAD + SESSION + "dest 0 0 0 0 13 3 run-end gap 3\n" + TAIL, SENT, LEFT),
        [f"{NAME}13 of 20 bytes, run-end gap 3: the report says 13 bytes, and the destination got 20 (scapy)"],
    ),
    "sent too early": (
        *(HEAD + SESSION + "dest 0 0 0 0 13 3 sent\n" + TAIL, SENT, LEFT[:2]),
        [f"{NAME}13 of 20 bytes, sent: the report says `sent` of 13 bytes of 20 (scapy)"],
    ),
    "a message that no record names": (
        *(RIGHT, SENT, [*LEFT, (9, "641#03221234")]),
        [
            f"{NAME}20 of 20 bytes, sent: the same (scapy)",
            "channel engine: no record names the message of can1.out line 4",
        ],
    ),
    "a start that no session names": (
        *(RIGHT, [*SENT, (9, "7E0#03221234")], LEFT),
        [
            "channel tester: no session is that of the start in can0.log line 4",
            f"{NAME}20 of 20 bytes, sent: the same (scapy)",
        ],
    ),
    "another tick": (
        *(RIGHT, SENT, [(at + 9, frame) for at, frame in LEFT]),
        [
            f"{NAME}20 of 20 bytes, sent: the report says 20 bytes, and nothing was sent (scapy)",
            "channel engine: no record names the message of can1.out line 1",
        ],
    ),
    "a session without a start": (
        *(RIGHT.replace("session 0 0 20 0 20 3", "session 0 0 20 1 20 3"), SENT, LEFT),
        [
            "channel tester: no session is that of the start in can0.log line 1",
            f"{NAME}no start in can0.log is that of its session",
        ],
    ),
}


# Two single frames in one tick, the second with an earlier stamp, and their sessions in two orders.
TWO_SENT = [(5, "7E0#023E00"), (1, "7E0#0322F190")]
TWO_LEFT = [(6, "641#023E00"), (7, "641#0322F190")]
TWO_DESTS = "dest 0 0 0 5 {} 5 sent\ndest 0 0 1 6 {} 6 sent\n"
TWO_TAIL = "move 1 take 0\nmove 2 take 1\nmove 3 free 0\nmove 4 free 1\npool 2 4 00000003\n"


def two(first: int, second: int) -> str:
    """A report of two whole messages of these lengths, both of tick 5."""
    sessions = f"session 0 0 {first} 5 {first} 5 0/0/1 whole\nsession 0 1 {second} 5 {second} 5 1/1/2 whole\n"
    return HEAD + sessions + TWO_DESTS.format(first, second) + TWO_TAIL


@pytest.mark.parametrize(
    ("report", "lines"),
    [
        (
            two(2, 3),
            [
                "path requests to engine unit 0: 2 of 2 bytes, sent: the same (scapy)",
                "path requests to engine unit 1: 3 of 3 bytes, sent: the same (scapy)",
                "destination records 2, differences 0",
            ],
        ),
        (
            two(3, 2),
            [
                "channel tester: no session is that of the start in can0.log line 1",
                "path requests to engine unit 0: 3 of 3 bytes, sent: the source announced 3 bytes, and the destination 2 (scapy)",
                "path requests to engine unit 1: no start in can0.log is that of its session",
                "destination records 2, differences 3",
            ],
        ),
    ],
)
def test_order(
    report: str, lines: list[str], made: Callable[..., list[str]], capsys: pytest.CaptureFixture[str]
) -> None:
    """A log's ticks never fall, and its sessions come in the order of their starts."""
    assert main([*made(report, can0_log=TWO_SENT, can1_out=TWO_LEFT), "--without-tshark"]) == (len(lines) > 3)
    assert capsys.readouterr().out.splitlines() == lines


@pytest.mark.parametrize("name", WRONG)
def test_wrong(name: str, made: Callable[..., list[str]], capsys: pytest.CaptureFixture[str]) -> None:
    """Each wrong place is told, and makes the status 1."""
    report, log, out, lines = WRONG[name]
    differing = sum("the same" not in line for line in lines)
    assert main([*made(report, can0_log=log, can1_out=out), "--without-tshark"]) == (1 if differing else 0)
    assert capsys.readouterr().out.splitlines() == [*lines, f"destination records 1, differences {differing}"]


@needs_tshark
def test_tshark_finds_it_too(made: Callable[..., list[str]], capsys: pytest.CaptureFixture[str]) -> None:
    """With tshark the message is compared twice."""
    words = made(RIGHT, can0_log=SENT, can1_out=changed(LEFT, 2, "641#2257303030303032"))
    assert main(words) == 1
    assert "byte 19 was 31 at the source and is 32 (scapy, tshark)" in capsys.readouterr().out


def test_several(made: Callable[..., list[str]], capsys: pytest.CaptureFixture[str]) -> None:
    """Sessions that were broken off, refused or restarted: each record belongs to its own start.

    Ignored by ISO 15765-2, and so no starts: a length of 0, one above 7, a first frame of a message that a single
    frame can carry. A consecutive frame that is too short is passed over.
    """
    log = [
        *[(0, "7E0#00"), (0, "7E0#0811223344556677"), (0, "7E0#1007010203040506")],
        *[(0, "7E0#1014AABBCCDDEEFF"), (2, "7E0#2311"), (2, "7E0#2311223344556677")],
        *[(5, "7E0#1014010203040506"), (6, "7E0#2107"), (7, "7E0#2107080910111213")],
        *[(9, "7E0#023E00"), (9, "7E0#023E01")],
    ]
    out = [
        *[(1, "641#1014AABBCCDDEEFF"), (6, "641#1014010203040506")],
        *[(8, "641#2107080910111213"), (10, "641#023E00")],
    ]
    report = HEAD + "session 0 0 20 0 6 2 0/0/1 wrong-sn 1 3\nsession 0 1 20 5 13 9 1/0/3 restarted\n"
    report += "session 0 2 2 9 2 9 2/0/5 whole\nsession 0 3 2 9 0 9 - overflow 5 00000000 1\n"
    report += "dest 0 0 0 0 6 2 source-ended\ndest 0 0 1 5 13 9 source-ended\ndest 0 0 2 9 2 9 sent\n"
    moves = "".join(f"move {at} {'take' if at % 2 else 'free'} 0\n" for at in range(1, 7))
    report += moves + "pool 1 6 00000001\n"
    assert main([*made(report, can0_log=log, can1_out=out), "--without-tshark"]) == 0
    assert capsys.readouterr().out.splitlines() == [
        "path requests to engine unit 0: 6 of 20 bytes, source-ended: the same (scapy)",
        "path requests to engine unit 1: 13 of 20 bytes, source-ended: the same (scapy)",
        "path requests to engine unit 2: 2 of 2 bytes, sent: the same (scapy)",
        "destination records 3, differences 0",
    ]


ADDRESSED = BASE.replace('rx = "7E0"\ntx = "7E8"', 'rx = "18DA10F1"\ntx = "18DAF110"').replace(
    'tx = "641"', 'tx = "641"\naddressing = "extended"\nrx_address = 0xF1\ntx_address = 0x12'
)


@pytest.mark.parametrize("tshark", [False, pytest.param(True, marks=needs_tshark)])
def test_address_bytes(tshark: bool, made: Callable[..., list[str]], capsys: pytest.CaptureFixture[str]) -> None:
    """Extended addressing takes a byte of each frame; frames of another address byte belong to nobody here."""
    log = [(at, f"18DA10F1{frame[3:]}") for at, frame in SENT]
    out = [
        *[(1, "641#12101462F1905744"), (1, "641#34023E00"), (3, "641#1221565A5A5A314B")],
        *[(4, "641#12225A4157303030"), (5, "641#1223303031")],
    ]
    words = made(RIGHT.replace("20 3 sent", "20 4 sent"), ADDRESSED, can0_log=log, can1_out=out)
    assert main(words if tshark else [*words, "--without-tshark"]) == 0
    assert f"{NAME}20 of 20 bytes, sent: the same (scapy{', tshark' if tshark else ''})" in capsys.readouterr().out


FAST = BASE.replace('out = "can0.out"', 'out = "can0.out"\nfd = true')
FAST_REPORT = RIGHT.replace("session 0 0 20 0 20 3", "session 0 0 10 0 10 0").replace("0 20 3 sent", "0 10 1 sent")
FAST_LOG = [(0, "7E0##1000A62F1905744565A5A5A31")]
FAST_OUT = [(1, "641#100A62F190574456"), (2, "641#215A5A5A31")]
UNKNOWN = "not compared, since scapy knows no single frames of CAN FD; install tshark"


@pytest.mark.parametrize(
    ("tshark", "status", "found"),
    [(False, 1, UNKNOWN), pytest.param(True, 0, "the same (tshark)", marks=needs_tshark)],
)
def test_can_fd(
    tshark: bool, status: int, found: str, made: Callable[..., list[str]], capsys: pytest.CaptureFixture[str]
) -> None:
    """A single frame of CAN FD is read by tshark alone; without it that is said."""
    words = made(FAST_REPORT, FAST, can0_log=FAST_LOG, can1_out=FAST_OUT)
    assert main(words if tshark else [*words, "--without-tshark"]) == status
    assert f"{NAME}10 of 10 bytes, sent: {found}" in capsys.readouterr().out


# Lines of a log that are passed over, or read like the frame beside them, among those of a right run.
PASSED = [
    "(0000000001.000000) vcan9 7E0#023E00",
    "(0000000001.000000) can0 20000080#0000000000000000",
    "(0000000001.000000) can0 7E0#R",
    "(0000000001.000000) can0 7E0##0023E00",
    "(0000000001.000000) can0 000007E0#023E00",
    "",
]
READ = [
    "(0000000001.000000999) can0 7e0#101462f190574456_9 R\r",
    "(1.002000)  can0 7E0#215A5A5A314B5A41",
    "(0000000001.001000) can0 7E0#2257303030303031 T",
]


def test_lines_of_logs(made: Callable[..., list[str]], capsys: pytest.CaptureFixture[str]) -> None:
    """A log's lines are read as the gateway reads them."""
    words = made(RIGHT.replace(" 20 3 0/0/1", " 20 2 0/0/1"), can1_out=LEFT)
    (Path(words[0]).parent / "can0.log").write_text("\n".join(PASSED + READ))
    assert main([*words, "--without-tshark"]) == 0
    assert f"{NAME}20 of 20 bytes, sent: the same (scapy)" in capsys.readouterr().out


def test_without_tshark_installed(
    made: Callable[..., list[str]], capsys: pytest.CaptureFixture[str], monkeypatch: pytest.MonkeyPatch
) -> None:
    """Where tshark isn't installed scapy compares alone."""
    monkeypatch.setattr(shutil, "which", lambda name: None)
    assert main(made(RIGHT, can0_log=SENT, can1_out=LEFT)) == 0
    assert "the same (scapy)" in capsys.readouterr().out
