"""The parts of a gateway's configuration that the tools need: buses, channels and paths."""

from __future__ import annotations

import tomllib
from collections.abc import Iterable
from dataclasses import dataclass
from pathlib import Path
from typing import Any, TypeVar

from .command import Refusal, text_of
from .records import Report


@dataclass(frozen=True)
class Bus:
    """A bus with the file that it is read from and the file that it writes."""

    name: str
    log: Path
    out: Path
    fd: bool


@dataclass(frozen=True)
class Address:
    """Which frames of a bus are meant: those of this identifier and, where it isn't None, with this first byte."""

    identifier: int
    extended: bool
    byte: int | None = None


@dataclass(frozen=True)
class Channel:
    """A channel receives the frames of `rx` and sends those of `tx`."""

    name: str
    bus: str
    rx: Address
    tx: Address
    functional: bool


@dataclass(frozen=True)
class Route:
    """A path from a source channel to destination channels, by their names."""

    name: str
    source: str
    destinations: tuple[str, ...]


@dataclass(frozen=True)
class Configuration:
    """A configuration. `period` is the length of a tick in microseconds."""

    period: int
    buses: tuple[Bus, ...]
    channels: tuple[Channel, ...]
    paths: tuple[Route, ...]

    def bus(self, name: str) -> Bus:
        """The bus with this name."""
        return named("bus", self.buses, name)

    def channel(self, name: str) -> Channel:
        """The channel with this name."""
        return named("channel", self.channels, name)


Entry = TypeVar("Entry", Bus, Channel)


def named(table: str, entries: Iterable[Entry], name: str) -> Entry:
    """The entry with this name."""
    for entry in entries:
        if entry.name == name:
            return entry
    raise Refusal(f"the configuration has no {table} {name}: see `gateway check`")


def check_belongs(configuration: Configuration, report: Report) -> None:
    """Refuse a report that another configuration gave, as far as that shows."""
    counts = [len(route.destinations) for route in configuration.paths]
    places = [(record.path, record.destination) for record in report.destinations]
    is_other = (
        report.period != configuration.period
        or any(path >= len(counts) or destination >= counts[path] for path, destination in places)
        or any(session.channel >= len(configuration.channels) for session in report.sessions)
    )
    if is_other:
        raise Refusal("the report is of another configuration: give the one that `gateway run` was given")


def address_of(table: dict[str, Any], side: str) -> Address:
    """The address of the side `rx` or `tx` of a channel's table."""
    digits = str(table[side])
    return Address(int(digits, 16), len(digits) == 8, table.get(f"{side}_address"))


def read_configuration(path: Path) -> Configuration:
    """The configuration in the file at `path`; logs and outputs lie in that file's folder, as in a run.

    What `gateway check` refuses isn't looked for here, save what the tools can't do without.
    """
    try:
        table = tomllib.loads(text_of(path))
        return Configuration(
            period=int(table.get("period", 1000)),
            buses=tuple(
                Bus(bus["name"], path.parent / bus["log"], path.parent / bus["out"], bus.get("fd", False))
                for bus in table["bus"]
            ),
            channels=tuple(
                Channel(
                    channel["name"], channel["bus"], address_of(channel, "rx"), address_of(channel, "tx"),
                    channel.get("functional", False),
                )
                for channel in table.get("channel", ())
            ),
            paths=tuple(Route(route["name"], route["from"], tuple(route["to"])) for route in table.get("path", ())),
        )
    except tomllib.TOMLDecodeError as fault:
        raise Refusal(f"{path} is no TOML ({fault}): see `gateway check`") from fault
    except KeyError as fault:
        raise Refusal(f"{path} lacks the key {fault.args[0]}: see `gateway check`") from fault
    except (TypeError, ValueError, AttributeError) as fault:
        raise Refusal(f"{path} has a value of the wrong kind: see `gateway check`") from fault
