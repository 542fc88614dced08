"""An outside comparison of what a run's destinations got with what its sources sent."""

from __future__ import annotations

from collections import deque
from collections.abc import Iterator, Sequence
from dataclasses import dataclass
from pathlib import Path

from . import wireshark
from .command import words
from .configuration import Address, Channel, Configuration, Route, check_belongs, read_configuration
from .logs import frames_of, read_log, read_output
from .reassembly import Message, messages
from .records import Destination, Report, Session
from .report import read_report

EXAMPLE = """  tools/compare gw.toml gw.report
The status is 0 where all is the same, 1 where something differs, 2 where it can't be compared."""


@dataclass
class Seen:
    """The messages that one channel received or sent, by scapy and, where it is used, the whole ones by tshark."""

    channel: Channel
    file: Path
    by_scapy: list[Message]
    by_tshark: list[bytes | None] | None


@dataclass
class Finding:
    """One line of the answer."""

    text: str
    differs: bool


def seen(channel: Channel, address: Address, file: Path, found: list[Message], tshark: bool) -> Seen:
    """The messages with what tshark makes of the same frames."""
    whole = wireshark.whole_messages(found, address.byte is not None) if tshark else None
    return Seen(channel, file, found, whole)


def received(configuration: Configuration, channel: Channel, report: Report, tshark: bool) -> Seen:
    """What came for a source channel in its bus's log."""
    bus = configuration.bus(channel.bus)
    frames = frames_of(read_log(bus, report.start, report.period), channel.rx)
    return seen(channel, channel.rx, bus.log, messages(frames, channel.rx.byte, channel.functional), tshark)


def sent(configuration: Configuration, channel: Channel, report: Report, tshark: bool) -> Seen:
    """What left for a destination channel in its bus's output."""
    bus = configuration.bus(channel.bus)
    frames = frames_of(read_output(bus, report.start, report.period), channel.tx)
    return seen(channel, channel.tx, bus.out, messages(frames, channel.tx.byte, False), tshark)


def named_starts(source: Seen, sessions: list[Session]) -> tuple[dict[int, int], list[int]]:
    """For each session's number the place of the message with its tick and length, and the places that are left."""
    starts: dict[tuple[int, int], deque[int]] = {}
    for place, message in enumerate(source.by_scapy):
        starts.setdefault((message.start.tick, message.length), deque()).append(place)
    places: dict[int, int] = {}
    last = -1
    for session in sessions:
        same = starts.get((session.begin, session.length), deque())
        if same and same[0] > last:
            last = places[session.number] = same.popleft()
    return places, sorted(place for same in starts.values() for place in same)


def named_copies(target: Seen, records: list[Destination]) -> tuple[dict[int, int], list[int]]:
    """For each record's unit the place of the message that began to leave in the record's ticks, and the rest."""
    places: dict[int, int] = {}
    left: list[int] = []
    due = deque(record for record in records if record.sent)
    for place, message in enumerate(target.by_scapy):
        while due and due[0].end < message.start.tick:
            due.popleft()
        if due and due[0].begin <= message.start.tick:
            places[due.popleft().unit] = place
        else:
            left.append(place)
    return places, left


def first_difference(wanted: bytes, got: bytes, sent_bytes: int) -> str:
    """Where the first `sent_bytes` bytes of the source and what the destination got differ; empty where they don't."""
    if len(wanted) < sent_bytes:
        return f"the report says {sent_bytes} bytes, and the source sent {len(wanted)}"
    for at, (byte, other) in enumerate(zip(wanted[:sent_bytes], got)):
        if byte != other:
            return f"byte {at} was {byte:02X} at the source and is {other:02X}"
    return "" if len(got) == sent_bytes else f"the report says {sent_bytes} bytes, and the destination got {len(got)}"


def difference(record: Destination, source: Seen, at: int, target: Seen, to: int | None) -> tuple[str, list[str]]:
    """How the record's message differs from its source's, and by which programs that was seen."""
    message = source.by_scapy[at]
    if to is None:
        return (f"the report says {record.sent} bytes, and nothing was sent" if record.sent else ""), ["scapy"]
    copy = target.by_scapy[to]
    if copy.length != message.length:
        return f"the source announced {message.length} bytes, and the destination {copy.length}", ["scapy"]
    if (record.result.word == "sent") != (record.sent == message.length):
        return f"the report says `{record.result.text}` of {record.sent} bytes of {message.length}", ["scapy"]
    programs: list[str] = []
    found = ""
    if message.known and copy.known:
        programs.append("scapy")
        found = first_difference(message.data, copy.data, record.sent)
    wanted, got = (side.by_tshark[place] if side.by_tshark else None for side, place in ((source, at), (target, to)))
    if wanted is not None and (got is not None or record.result.word == "sent"):
        programs.append("tshark")
        found = found or first_difference(wanted, got or b"", record.sent)
    return found, programs


def compare_destination(
    route: Route, records: list[Destination], source: Seen, opened: dict[int, int], target: Seen
) -> Iterator[Finding]:
    """The findings on one destination of a path. `opened` has the source's message of each of the path's units."""
    copies, unnamed = named_copies(target, records)
    for record in records:
        name = f"path {route.name} to {target.channel.name} unit {record.unit}"
        to = copies.get(record.unit)
        if record.unit not in opened:
            yield Finding(f"{name}: no start in {source.file.name} is that of its session", True)
            continue
        found, programs = difference(record, source, opened[record.unit], target, to)
        length = source.by_scapy[opened[record.unit]].length
        said = f"{name}: {record.sent} of {length} bytes, {record.result.text}"
        if not programs:
            yield Finding(f"{said}: not compared, since scapy knows no single frames of CAN FD; install tshark", True)
        else:
            yield Finding(f"{said}: {found or 'the same'} ({', '.join(programs)})", bool(found))
    for place in unnamed:
        line = target.by_scapy[place].start.line
        yield Finding(f"channel {target.channel.name}: no record names the message of {target.file.name} line {line}", True)


def compare_path(configuration: Configuration, report: Report, number: int, tshark: bool) -> Iterator[Finding]:
    """The findings on the path with this number."""
    route = configuration.paths[number]
    channel = configuration.channel(route.source)
    at = configuration.channels.index(channel)
    sessions = [session for session in report.sessions if session.channel == at]
    source = received(configuration, channel, report, tshark)
    places, left = named_starts(source, sessions)
    opened = {session.opened.unit: places[session.number] for session in sessions
              if session.opened and session.number in places}
    for place in left:
        line = source.by_scapy[place].start.line
        yield Finding(f"channel {channel.name}: no session is that of the start in {source.file.name} line {line}", True)
    for destination, name in enumerate(route.destinations):
        target = sent(configuration, configuration.channel(name), report, tshark)
        records = [record for record in report.destinations if (record.path, record.destination) == (number, destination)]
        yield from compare_destination(route, records, source, opened, target)


def compare(configuration: Configuration, report: Report, tshark: bool) -> list[Finding]:
    """All findings, path by path."""
    check_belongs(configuration, report)
    return [finding for number in range(len(configuration.paths))
            for finding in compare_path(configuration, report, number, tshark)]


def main(arguments: Sequence[str]) -> int:
    """Print the findings and their sum."""
    parser = words("compare", "Puts logs and outputs together by scapy, and by tshark where it is installed, and says for each\n"
                   "destination record of the report whether the destination got what the source sent.", EXAMPLE)
    parser.add_argument("configuration", metavar="CONFIG", type=Path, help="the configuration of the run")
    parser.add_argument("report", metavar="REPORT", type=Path, help="the report that `gateway run` wrote")
    parser.add_argument("--without-tshark", action="store_true", help="use scapy alone")
    chosen = parser.parse_args(arguments)
    tshark = wireshark.is_installed() and not chosen.without_tshark
    report = read_report(chosen.report)
    findings = compare(read_configuration(chosen.configuration), report, tshark)
    for finding in findings:
        print(finding.text)
    differing = sum(finding.differs for finding in findings)
    print(f"destination records {len(report.destinations)}, differences {differing}")
    return 1 if differing else 0
