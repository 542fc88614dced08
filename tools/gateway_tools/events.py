"""What a picture of a run shows, as marks and bars in time. Times are microseconds from the run's start."""

from __future__ import annotations

from bisect import bisect_left, bisect_right
from collections.abc import Iterator
from dataclasses import dataclass

from .configuration import Address, Configuration, check_belongs
from .frames import Kind, kind_of, words_of
from .logs import LoggedFrame, frames_of, read_log, read_output
from .records import Destination, Report, Session


@dataclass(frozen=True)
class Mark:
    """A frame on a channel's lane; `tip` is what the reader sees who points at it."""

    channel: int
    time: int
    kind: Kind
    is_sent: bool
    tip: str


@dataclass(frozen=True)
class Bar:
    """A stretch of time: a session or destination with its result, a wait, a gap, or a buffer that was taken."""

    row: int
    begin: int
    end: int
    word: str
    label: str
    tip: str


@dataclass(frozen=True)
class Run:
    """All that a picture shows. `start` is the run's start in microseconds, `lanes` the names of the channels' lanes."""

    start: int
    lanes: list[str]
    marks: list[Mark]
    waits: list[Bar]
    sessions: list[Bar]
    destinations: list[Bar]
    buffers: list[Bar]


def run_of(configuration: Configuration, report: Report) -> Run:
    """What a picture of this run shows."""
    check_belongs(configuration, report)
    frames = marks(configuration, report)
    received = [session_bar(session, report) for session in report.sessions]
    sent = [destination_bar(configuration, record, report) for record in report.destinations]
    return Run(
        report.start, [f"{channel.name}\n({channel.bus})" for channel in configuration.channels], frames,
        list(waits(frames, received + sent)), received, sent, buffers(configuration, report),
    )


def span(report: Report, begin: int, end: int) -> tuple[int, int]:
    """From the beginning of the tick `begin` to the end of the tick `end`."""
    return begin * report.period, (end + 1) * report.period


def milliseconds(time: int) -> str:
    """A time in milliseconds, without zeros that say nothing."""
    return f"{time / 1000:.3f}".rstrip("0").rstrip(".") + " ms"


def mark(at: int, frame: LoggedFrame, address: Address, is_sent: bool, report: Report) -> Mark:
    """The mark of a frame that the channel number `at` received or sent."""
    verb = "sent" if is_sent else "received"
    digits = f"{frame.identifier:08X}" if frame.extended else f"{frame.identifier:03X}"
    tip = f"{words_of(frame.data, address.byte)}\n{verb} with {digits}: {frame.data.hex(' ').upper()}\n"
    tip += f"tick {frame.tick}, {milliseconds(frame.stamp - report.start)} after the start"
    return Mark(at, frame.stamp - report.start, kind_of(frame.data, address.byte), is_sent, tip)


def marks(configuration: Configuration, report: Report) -> list[Mark]:
    """All frames of all channels, those that came and those that left, in the order of their stamps on each lane."""
    found: list[Mark] = []
    for at, channel in enumerate(configuration.channels):
        bus = configuration.bus(channel.bus)
        sides = ((read_log, channel.rx, False), (read_output, channel.tx, True))
        lane = [
            mark(at, frame, address, is_sent, report)
            for read, address, is_sent in sides
            for frame in frames_of(read(bus, report.start, report.period), address)
        ]
        found += sorted(lane, key=lambda item: item.time)
    return found


def session_bar(session: Session, report: Report) -> Bar:
    """The bar of one session."""
    place = "no buffer" if session.opened is None else f"unit {session.opened.unit} in buffer {session.opened.buffer}"
    tip = f"session {session.number}: {session.result.text}\n{session.received} of {session.length} bytes received, {place}\n"
    tip += f"ticks {session.begin} to {session.end}"
    return Bar(session.channel, *span(report, session.begin, session.end), session.result.word,
               f"session {session.number}: {session.result.text}", tip)


def destination_bar(configuration: Configuration, record: Destination, report: Report) -> Bar:
    """The bar of one destination record."""
    route = configuration.paths[record.path]
    channel = configuration.channels.index(configuration.channel(route.destinations[record.destination]))
    tip = f"path {route.name}, unit {record.unit}: {record.result.text}\n{record.sent} bytes sent\n"
    tip += f"ticks {record.begin} to {record.end}"
    return Bar(channel, *span(report, record.begin, record.end), record.result.word,
               f"unit {record.unit}: {record.result.text}", tip)


def waits(found: list[Mark], bars: list[Bar]) -> Iterator[Bar]:
    """The time between successive frames of a bar's lane, and from the last of them to an end for want of more."""
    lanes: dict[int, list[Mark]] = {}
    for item in found:
        lanes.setdefault(item.channel, []).append(item)
    for bar in bars:
        lane = lanes.get(bar.row, [])
        first = bisect_left(lane, bar.begin, key=lambda item: item.time)
        inside = lane[first : bisect_right(lane, bar.end, key=lambda item: item.time)]
        for before, after in zip(inside, inside[1:]):
            if before.time < after.time:
                yield wait(bar.row, before, after.time, after)
        if inside and inside[-1].time < bar.end and bar.word not in ("whole", "sent"):
            yield wait(bar.row, inside[-1], bar.end, None)


def wait(row: int, before: Mark, end: int, after: Mark | None) -> Bar:
    """The time after a frame: a wait for a flow control or for something that didn't come, or a gap between frames."""
    length = milliseconds(end - before.time)
    if after is None:
        return Bar(row, before.time, end, "wait", "", f"{length} without a frame after the {before.kind.value}")
    word = "wait" if after.kind is Kind.FLOW_CONTROL else "gap"
    tip = f"{length} from the {before.kind.value} to the {after.kind.value}"
    return Bar(row, before.time, end, word, "", tip)


def buffers(configuration: Configuration, report: Report) -> list[Bar]:
    """A bar for each time that a buffer was taken: from its session's begin to the last end of the unit's records."""
    ends: dict[tuple[str, int], int] = {}
    for record in report.destinations:
        key = (configuration.paths[record.path].source, record.unit)
        ends[key] = max(record.end, ends.get(key, 0))
    found = []
    for session in report.sessions:
        if session.opened:
            source = configuration.channels[session.channel].name
            begin, end = span(report, session.begin, max(session.end, ends.get((source, session.opened.unit), 0)))
            label = f"{source} session {session.number}"
            tip = f"buffer {session.opened.buffer} taken by change {session.opened.change} of the pool\n"
            tip += f"for session {session.number} of channel {source}, {milliseconds(end - begin)}"
            found.append(Bar(session.opened.buffer, begin, end, "buffer", label, tip))
    return found
