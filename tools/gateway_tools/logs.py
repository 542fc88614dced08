"""Logs and outputs of buses as frames with their ticks, read by python-can."""

from __future__ import annotations

import io
import re
from collections.abc import Iterator
from dataclasses import dataclass
from functools import cache
from pathlib import Path

from can.io.canutils import CanutilsLogReader
from can.message import Message

from .command import Refusal, text_of
from .configuration import Address, Bus


@dataclass(frozen=True)
class LoggedFrame:
    """A frame of a log or an output: its line, from 1, its stamp in microseconds, its tick and its content."""

    line: int
    stamp: int
    tick: int
    identifier: int
    extended: bool
    fd: bool
    data: bytes


STAMP = re.compile(r"\((\d{1,10})\.(\d{6})(?:\d{3})?\)")
# A length code after eight bytes, which python-can doesn't know.
LENGTH_CODE = re.compile(r"_[9A-Fa-f](?=\s|$)")
ERROR_FRAME = 0x20000000


@dataclass(frozen=True)
class Line:
    """A line of a log that is meant for the bus: its number, from 1, its stamp in microseconds, its text."""

    number: int
    stamp: int
    text: str


def lines_of(path: Path, interface: str) -> Iterator[Line]:
    """The lines of the log at `path` of this interface, without those of error frames."""
    for number, text in enumerate(text_of(path).split("\n"), 1):
        if not text.strip():
            continue
        fields = text.split()
        stamp = STAMP.fullmatch(fields[0])
        if stamp is None or len(fields) < 3:
            raise not_a_line(path, number)
        identifier = fields[2].partition("#")[0]
        is_error = len(identifier) == 8 and is_hex(identifier) and int(identifier, 16) & ERROR_FRAME
        if fields[1] == interface and not is_error:
            yield Line(number, int(stamp[1]) * 1_000_000 + int(stamp[2]), LENGTH_CODE.sub("", text))


def is_hex(text: str) -> bool:
    """The text consists of hexadecimal digits."""
    return re.fullmatch("[0-9A-Fa-f]+", text) is not None


def not_a_line(path: Path, number: int) -> Refusal:
    """A refusal of a line that candump wouldn't have written."""
    return Refusal(f"{path} line {number} isn't a line of candump: log with `candump -l`, or see that the file is a log")


def messages_of(path: Path, lines: list[Line]) -> Iterator[tuple[Line, Message]]:
    """Each line with its frame, as python-can reads it."""
    reader = iter(CanutilsLogReader(io.StringIO("\n".join(line.text for line in lines))))
    for line in lines:
        try:
            yield line, next(reader)
        except (ValueError, IndexError, StopIteration) as fault:
            raise not_a_line(path, line.number) from fault


@cache
def read_log(bus: Bus, start: int, period: int) -> list[LoggedFrame]:
    """The frames of the bus's log. A frame's tick is the greatest of the stamps up to it."""
    frames: list[LoggedFrame] = []
    tick = 0
    for line, message in messages_of(bus.log, list(lines_of(bus.log, bus.name))):
        tick = max(tick, (line.stamp - start) // period)
        if not message.is_remote_frame and (bus.fd or not message.is_fd):
            frames.append(logged(line, tick, message))
    return frames


@cache
def read_output(bus: Bus, start: int, period: int) -> list[LoggedFrame]:
    """The frames that left on the bus. Each has the stamp of its tick's end."""
    return [
        logged(line, (line.stamp - start) // period - 1, message)
        for line, message in messages_of(bus.out, list(lines_of(bus.out, bus.name)))
    ]


def logged(line: Line, tick: int, message: Message) -> LoggedFrame:
    """The line's frame with its tick."""
    return LoggedFrame(
        line.number, line.stamp, tick, message.arbitration_id, message.is_extended_id, message.is_fd,
        bytes(message.data or b""),
    )


def frames_of(frames: list[LoggedFrame], address: Address) -> list[LoggedFrame]:
    """Those of the frames that bear the address."""
    return [
        frame
        for frame in frames
        if (frame.identifier, frame.extended) == (address.identifier, address.extended)
        and (address.byte is None or frame.data[:1] == bytes([address.byte]))
    ]
