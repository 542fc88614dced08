"""Messages of ISO 15765-2 from frames, put together by scapy's ISO-TP."""

from __future__ import annotations

from dataclasses import dataclass, field

from scapy.contrib.isotp import ISOTPMessageBuilder
from scapy.layers.can import CAN

from .logs import LoggedFrame

CLASSIC = 8  # bytes of the longest classic frame
LONG_LENGTH = 4096  # the least length that a first frame carries in 32 bits


@dataclass
class Message:
    """What scapy made of a start and the frames after it, up to the next start.

    `length` is what the start announced and `data` what came of it, in bytes; `frames` are those that scapy was
    given. `known` is False where scapy can't read the start: it knows no single frames of more than 8 bytes.
    """

    length: int
    data: bytes
    frames: list[LoggedFrame]
    known: bool = True
    builder: ISOTPMessageBuilder = field(default_factory=ISOTPMessageBuilder, repr=False)

    @property
    def start(self) -> LoggedFrame:
        """The single frame or first frame."""
        return self.frames[0]


def messages(frames: list[LoggedFrame], address: int | None, functional: bool) -> list[Message]:
    """The messages of the frames of one identifier and address byte, in their order.

    Frames that ISO 15765-2 tells a receiver to ignore aren't given to scapy, which is more lenient: starts with
    a length that can't be, consecutive frames that are too short or too long, and first frames of a functional
    channel.
    """
    found: list[Message] = []
    for frame in frames:
        message = started(frame, address)
        if message is not None:
            if not (functional and message.builder.buckets):
                found.append(message)
        elif found:
            follow(found[-1], frame, address)
    return found


def builder_of(frame: LoggedFrame, address: int | None) -> ISOTPMessageBuilder:
    """A new builder of scapy that was given this frame alone."""
    builder = ISOTPMessageBuilder(use_ext_address=address is not None)
    builder.feed(packet(frame))
    return builder


def packet(frame: LoggedFrame) -> CAN:
    """The frame as scapy has it."""
    return CAN(flags="extended" if frame.extended else 0, identifier=frame.identifier, data=frame.data)


def started(frame: LoggedFrame, address: int | None) -> Message | None:
    """The message that this frame starts, or None where it starts none that a receiver takes."""
    overhead = 0 if address is None else 1
    size = len(frame.data)
    builder = builder_of(frame, address)
    for bucket in builder.buckets.values():
        first = b"".join(bucket.pieces)
        has_long_length = len(first) == size - 6 - overhead
        least = LONG_LENGTH if has_long_length else CLASSIC - overhead if size == CLASSIC else size - 1 - overhead
        if size < CLASSIC or bucket.total_len < least:
            return None
        return Message(bucket.total_len, first[: bucket.total_len], [frame], builder=builder)
    if builder.count:
        data = bytes(builder.pop().data)
        if size <= CLASSIC:
            return Message(len(data), data, [frame], builder=builder) if data else None
        length = frame.data[overhead + 1]
        is_single = frame.data[overhead] == 0 and CLASSIC - overhead <= length <= size - 2 - overhead
        return Message(length, b"", [frame], known=False, builder=builder) if is_single else None
    return None


def follow(message: Message, frame: LoggedFrame, address: int | None) -> None:
    """Give scapy a further frame of a message that isn't whole."""
    overhead = 1 if address is None else 2
    for bucket in message.builder.buckets.values():
        size = len(message.start.data)
        due = min(size - overhead, bucket.total_len - bucket.current_len)
        if len(frame.data) > size or len(frame.data) - overhead < due:
            return
        before = bucket.current_len
        message.builder.feed(packet(frame))
        if bucket.current_len > before:
            message.frames.append(frame)
            message.data = b"".join(bucket.pieces)[: bucket.total_len]
        return
