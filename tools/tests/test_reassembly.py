"""Messages from frames, by the rules of ISO 15765-2 on what a receiver takes and what it ignores."""

from __future__ import annotations

import pytest
from gateway_tools.logs import LoggedFrame
from gateway_tools.reassembly import messages

FIRST = "101462F190574456"
MESSAGE = "62F1905744565A5A5A314B5A4122573030303030"

# What a row shows: the frames, the address byte, whether the channel is functional, and the length and the bytes of
# each message.
ROWS: dict[str, tuple[list[str], int | None, bool, list[tuple[int, str]]]] = {
    "a single frame": (["023E00"], None, False, [(2, "3E00")]),
    "a filled one": (["023E00CCCCCCCCCC"], None, False, [(2, "3E00")]),
    "one of the most bytes": (["0722F190F18CF187"], None, False, [(7, "22F190F18CF187")]),
    "ignored single frames": (["00", "0000", "0322F1", "0801020304050607", ""], None, False, []),
    "a short form in a longer frame": (["023E00CCCCCCCCCCCCCCCCCC"], None, False, []),
    "a first frame": ([FIRST], None, False, [(20, MESSAGE[:12])]),
    "ignored first frames": (["1007010203040506", "10140102030405", "100000000FFF0102"], None, False, []),
    "the least first frames": (
        *(["1008010203040506", "1000000010000102"], None, False),
        [(8, "010203040506"), (4096, "0102")],
    ),
    "a whole message": ([FIRST, "215A5A5A314B5A41", "2222573030303030"], None, False, [(20, MESSAGE)]),
    "a filled last frame": (["1008010203040506", "210708CCCCCCCCCC"], None, False, [(8, "0102030405060708")]),
    "a wrong number": ([FIRST, "225A5A5A314B5A41"], None, False, [(20, MESSAGE[:12])]),
    "a short frame": ([FIRST, "215A5A", "215A5A5A314B5A41"], None, False, [(20, MESSAGE[:26])]),
    "a longer frame": ([FIRST, "215A5A5A314B5A41CCCCCCCC"], None, False, [(20, MESSAGE[:12])]),
    "a second start": ([FIRST, "023E00", "215A5A5A314B5A41"], None, False, [(20, MESSAGE[:12]), (2, "3E00")]),
    "flow controls between": ([FIRST, "300000", "215A5A5A314B5A41"], None, False, [(20, MESSAGE[:26])]),
    "a consecutive frame alone": (["215A5A5A314B5A41"], None, False, []),
    "numbers go from 15 to 0": (
        *(["1070" + "11" * 6] + [f"{0x20 + number % 16:X}" + "22" * 7 for number in range(1, 17)], None, False),
        [(112, "11" * 6 + "22" * 106)],
    ),
    "a functional channel": ([FIRST, "023E00"], None, True, [(2, "3E00")]),
    "an address byte": (["12101462F1905744", "1221565A5A5A314B"], 0x12, False, [(20, MESSAGE[:22])]),
    "the least with an address byte": (["1210070102030405", "12100601020304"], 0x12, False, [(7, "0102030405")]),
    "CAN FD": (
        *(["1040" + "11" * 62, "21" + "22" * 2], None, False),
        [(64, "11" * 62 + "22" * 2)],
    ),
    "the least in CAN FD": (["103E" + "11" * 62, "103F" + "11" * 62], None, False, [(63, "11" * 62)]),
}


@pytest.mark.parametrize("name", ROWS)
def test_messages(name: str) -> None:
    """The messages of each row."""
    frames, address, functional, expected = ROWS[name]
    logged = [
        LoggedFrame(line, 0, 0, 0x7E0, False, len(digits) > 16, bytes.fromhex(digits))
        for line, digits in enumerate(frames, 1)
    ]
    found = messages(logged, address, functional)
    assert [(message.length, message.data.hex().upper()) for message in found] == expected


def test_unknown() -> None:
    """A single frame of more than 8 bytes has its length, and no bytes by scapy; with a wrong length it is ignored."""
    rows = [("000A" + "11" * 10, True), ("0007" + "11" * 10, False), ("000B" + "11" * 10, False)]
    for digits, is_single in rows:
        found = messages([LoggedFrame(1, 0, 0, 0x7E0, False, True, bytes.fromhex(digits))], None, False)
        assert [(message.length, message.known) for message in found] == ([(10, False)] if is_single else [])
