"""What a gateway's report holds, as records."""

from __future__ import annotations

from dataclasses import dataclass

# What a result may say was awaited.
WAITS = {"box", "room", "cf", "start", "turn", "fc", "gap", "bytes", "bus"}


@dataclass(frozen=True)
class Result:
    """How a session or a destination ended: a word and its fields, as the report has them."""

    word: str
    fields: tuple[str, ...] = ()

    @property
    def text(self) -> str:
        """The result as it stands in the report."""
        return " ".join((self.word, *self.fields))

    @property
    def kind(self) -> str:
        """The result without its numbers: `rx-timeout cf`, `overflow`, `run-end fc`."""
        return " ".join((self.word, *(field for field in self.fields if field in WAITS)))


@dataclass(frozen=True)
class Opened:
    """The path's unit that a session opened, its buffer, and the pool's change that took the buffer."""

    unit: int
    buffer: int
    change: int


@dataclass(frozen=True)
class Session:
    """What a source channel received after one start. `begin` and `end` are ticks, lengths are bytes."""

    channel: int
    number: int
    length: int
    begin: int
    received: int
    end: int
    opened: Opened | None
    result: Result


@dataclass(frozen=True)
class Destination:
    """What one destination of a path sent of one unit. `begin` and `end` are ticks, `sent` is bytes."""

    path: int
    destination: int
    unit: int
    begin: int
    sent: int
    end: int
    result: Result


@dataclass(frozen=True)
class InterfaceUnits:
    """Units `first` to `last` of an interface path, which all came to one end."""

    path: int
    first: int
    last: int
    kind: str


@dataclass(frozen=True)
class Move:
    """A change of the pool: a buffer was taken, or is free again."""

    group: int
    change: int
    taken: bool
    buffer: int


@dataclass(frozen=True)
class Pool:
    """A group of buffers at the run's end. Bit i of `free` is set where the group's buffer i is free."""

    group: int
    buffers: int
    changes: int
    free: int


@dataclass(frozen=True)
class Report:
    """A whole report. `start` and `period`, the length of a tick, are microseconds."""

    version: int
    start: int
    period: int
    sessions: tuple[Session, ...]
    destinations: tuple[Destination, ...]
    interfaces: tuple[InterfaceUnits, ...]
    moves: tuple[Move, ...]
    pools: tuple[Pool, ...]
