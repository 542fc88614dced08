"""How a report is read: versions 1 and 2, line by line."""

from __future__ import annotations

import re
from pathlib import Path

from .command import Refusal, text_of
from .records import Destination, InterfaceUnits, Move, Opened, Pool, Report, Result, Session


NUMBER = "0|[1-9][0-9]{0,19}"
FREE = "[0-9A-F]{8}"

SESSION_RESULTS: dict[str, tuple[str, ...]] = {
    "whole": (),
    "overflow": (NUMBER, FREE, NUMBER),
    "wrong-sn": (NUMBER, NUMBER),
    "rx-timeout": ("box|cf",),
    "restarted": (),
    "wait-over": (),
    "no-readers": (),
    "no-room": (NUMBER, NUMBER),
    "cancelled": (),
    "run-end": ("box|room|cf", NUMBER),
}
DESTINATION_RESULTS: dict[str, tuple[str, ...]] = {
    "sent": (),
    "source-ended": (),
    "bs-timeout": (),
    "as-timeout": (),
    "cs-timeout": (NUMBER,),
    "fc-overflow": (),
    "invalid-fs": (NUMBER,),
    "cancelled": (),
    "run-end": ("start|turn|fc|gap|bytes|bus", NUMBER),
}

# The fields of each line in each version, before the result, where there is one.
LINES: dict[str, dict[int, tuple[str, ...]]] = {
    "clock": {1: (NUMBER,) * 2, 2: (NUMBER,) * 2},
    "session": {version: (NUMBER,) * 6 + (f"-|(?:{NUMBER})/(?:{NUMBER})/(?:{NUMBER})",) for version in (1, 2)},
    "dest": {1: (NUMBER,) * 6, 2: (NUMBER,) * 6},
    "iface": {
        1: (NUMBER,) * 3 + ("sent|boxed|flushed|left",),
        2: (NUMBER,) * 3 + ("sent|boxed|flushed|refused|left",),
    },
    "move": {1: (NUMBER, "take|free", NUMBER), 2: (NUMBER, NUMBER, "take|free", NUMBER)},
    "pool": {1: (NUMBER, NUMBER, FREE), 2: (NUMBER,) * 3 + (FREE,)},
}
RESULTS = {"session": SESSION_RESULTS, "dest": DESTINATION_RESULTS}


class Reader:
    """Takes a report's lines one after the other, and refuses the first that can't stand where it stands."""

    def __init__(self, version: int) -> None:
        self.version = version
        self.clock: list[tuple[int, int]] = []
        self.sessions: list[Session] = []
        self.destinations: list[Destination] = []
        self.interfaces: list[InterfaceUnits] = []
        self.moves: list[Move] = []
        self.pools: list[Pool] = []
        self.kind = ""

    def take(self, line: str) -> bool:
        """Take one line; False where it can't stand here."""
        kind, *fields = line.split(" ")
        if kind not in LINES or not self.is_due(kind):
            return False
        shape = LINES[kind][self.version]
        values, rest = fields[: len(shape)], fields[len(shape) :]
        if not fit(shape, values) or not is_result(kind, rest):
            return False
        self.kind = kind
        return bool(getattr(self, f"take_{kind}")(values, Result(rest[0], tuple(rest[1:])) if rest else None))

    def is_due(self, kind: str) -> bool:
        """Kinds of lines come in their order, and `clock` comes once and first."""
        order = list(LINES)
        if not self.kind or kind == "clock":
            return kind == "clock" and not self.kind
        return order.index(kind) >= order.index(self.kind)

    def take_clock(self, values: list[str], _: Result | None) -> bool:
        self.clock.append((int(values[0]), int(values[1])))
        return self.clock[0][1] > 0

    def take_session(self, values: list[str], result: Result | None) -> bool:
        opened = None if values[6] == "-" else Opened(*map(int, values[6].split("/")))
        assert result is not None
        channel, number, length, begin, received, end = map(int, values[:6])
        self.sessions.append(Session(channel, number, length, begin, received, end, opened, result))
        return rises([(line.channel, line.number) for line in self.sessions[-2:]])

    def take_dest(self, values: list[str], result: Result | None) -> bool:
        assert result is not None
        path, destination, unit, begin, sent, end = map(int, values)
        self.destinations.append(Destination(path, destination, unit, begin, sent, end, result))
        return rises([(line.path, line.destination, line.unit) for line in self.destinations[-2:]])

    def take_iface(self, values: list[str], _: Result | None) -> bool:
        path, first, last = map(int, values[:3])
        units = InterfaceUnits(path, first, last, values[3])
        before = self.interfaces[-1] if self.interfaces else None
        self.interfaces.append(units)
        return units.first <= units.last and (not before or (before.path, before.last) < (units.path, units.first))

    def take_move(self, values: list[str], _: Result | None) -> bool:
        group = int(values.pop(0)) if self.version == 2 else 0
        before = self.moves[-1] if self.moves and self.moves[-1].group == group else None
        last_group = self.moves[-1].group if self.moves else 0
        self.moves.append(Move(group, int(values[0]), values[1] == "take", int(values[2])))
        return group >= last_group and self.moves[-1].change == (before.change if before else 0) + 1

    def take_pool(self, values: list[str], _: Result | None) -> bool:
        group = int(values.pop(0)) if self.version == 2 else 0
        self.pools.append(Pool(group, int(values[0]), int(values[1]), int(values[2], 16)))
        return group == len(self.pools) - 1


def fit(shape: tuple[str, ...], values: list[str]) -> bool:
    """As many values as the shape has, each of its form."""
    return len(shape) == len(values) and all(map(re.fullmatch, shape, values))


def is_result(kind: str, fields: list[str]) -> bool:
    """The fields after a line's numbers are a result that a line of this kind has; none where it has none."""
    results = RESULTS.get(kind)
    if results is None or not fields:
        return results is None and not fields
    return fields[0] in results and fit(results[fields[0]], fields[1:])


def rises(keys: list[tuple[int, ...]]) -> bool:
    """Each key is above the one before it."""
    return all(low < high for low, high in zip(keys, keys[1:]))


def read_report(path: Path) -> Report:
    """The report in the file at `path`."""
    lines = text_of(path).split("\n")
    versions = {"report 1": 1, "report 2": 2}
    if lines[0] not in versions:
        raise Refusal(f"{path} line 1 isn't `report 1` or `report 2`: give the file that `gateway run` was told to write")
    reader = Reader(versions[lines[0]])
    for number, line in enumerate(lines[1:-1], 2):
        if not reader.take(line):
            raise Refusal(f"{path} line {number} can't stand there in a report: run the gateway again")
    if lines[-1] or not reader.pools:
        raise Refusal(f"{path} ends before its last line, that of the pool: run the gateway again")
    start, period = reader.clock[0]
    return Report(
        reader.version, start, period, tuple(reader.sessions), tuple(reader.destinations),
        tuple(reader.interfaces), tuple(reader.moves), tuple(reader.pools),
    )
