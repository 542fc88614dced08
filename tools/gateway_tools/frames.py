"""What a frame of a channel is by ISO 15765-2, in words for readers."""

from __future__ import annotations

from enum import Enum


class Kind(Enum):
    """The kinds of protocol units."""

    SINGLE = "single frame"
    FIRST = "first frame"
    CONSECUTIVE = "consecutive frame"
    FLOW_CONTROL = "flow control"
    OTHER = "no protocol unit"


KINDS = (Kind.SINGLE, Kind.FIRST, Kind.CONSECUTIVE, Kind.FLOW_CONTROL)
STATUS = ("continue", "wait", "overflow")


def kind_of(data: bytes, address: int | None) -> Kind:
    """The kind of the frame with these bytes, after its address byte, where it has one."""
    unit = data if address is None else data[1:]
    return KINDS[unit[0] >> 4] if unit and unit[0] >> 4 < len(KINDS) else Kind.OTHER


def words_of(data: bytes, address: int | None) -> str:
    """The kind with the fields that it carries: lengths in bytes, the block size in frames."""
    unit = data if address is None else data[1:]
    kind = kind_of(data, address)
    if kind is Kind.SINGLE:
        return f"single frame of {single_length(unit)} bytes"
    if kind is Kind.FIRST and len(unit) >= 2:
        length = int.from_bytes(unit[:2], "big") & 0xFFF
        return f"first frame of a message of {length or int.from_bytes(unit[2:6], 'big')} bytes"
    if kind is Kind.CONSECUTIVE:
        return f"consecutive frame {unit[0] & 0xF}"
    if kind is Kind.FLOW_CONTROL and len(unit) >= 3:
        status = unit[0] & 0xF
        name = STATUS[status] if status < len(STATUS) else f"status {status}"
        return f"flow control: {name}, block size {unit[1]}, separation time {separation(unit[2])}"
    return str(kind.value)


def single_length(unit: bytes) -> int:
    """The length of a single frame: in the lower half of its first byte, or where that is 0 in its second byte."""
    return unit[0] & 0xF or (unit[1] if len(unit) > 8 else 0)


def separation(code: int) -> str:
    """A separation time in words: 0 to 7F are milliseconds, F1 to F9 hundreds of microseconds."""
    if code <= 0x7F:
        return f"{code} ms"
    return f"{(code - 0xF0) * 100} us" if 0xF1 <= code <= 0xF9 else f"{code:02X} (reserved)"
