#!/usr/bin/env python3
"""Writes a configuration and two logs of segmented messages, for measuring the gateway.

usage: generate.py SEED UNITS FOLDER [blocks]

FOLDER gets gw.toml, can0.log and can1.log, and SEED gives the lengths of UNITS messages of the channel A in can0.log. Each is
sent on before the next begins, and can1.log has the flow controls for the channel B.

Without `blocks` both buses are classic, and a message has 8 to 27 bytes. They come 16 milliseconds apart: a first frame, from 2
milliseconds after it on a consecutive frame in each millisecond, and a flow control 1.5 milliseconds after the first frame. A
message has 3 to 5 lines in both logs together, 4.05 on average: 120,000 messages have about 486,000 lines, and 160,000 have at least
480,000 with every seed. The gateway takes 1,000,000 lines at most, which 200,000 messages never pass.

With `blocks` can0 has CAN FD frames of up to 64 bytes, and a message has 8 to 4,095 bytes. B sends classic frames in blocks of 8, so a
flow control comes for each, and A asks for blocks of 8 too. A message has 2 to 138 lines, 69.4 on average: 7,000 messages
have about 486,000 lines.
"""

import os
import sys

CONFIG = """\
buffers = [{cells}]
[[bus]]
name = "can0"
log = "can0.log"
out = "can0.out"
fd = {fd}
[[bus]]
name = "can1"
log = "can1.log"
out = "can1.out"
[[channel]]
name = "A"
bus = "can0"
rx = "700"
tx = "708"
bs = {block}
[[channel]]
name = "B"
bus = "can1"
rx = "718"
tx = "710"
[[path]]
name = "p"
from = "A"
to = ["B"]
"""

# Microseconds.
START = 1_000_000
BETWEEN_MESSAGES = 16_000
TO_FLOW_CONTROL = 1_500
BETWEEN_FRAMES = 1_000

# Bytes of a message, and those that a first frame and a consecutive frame carry.
SHORTEST, LONGEST, LONGEST_IN_BLOCKS = 8, 27, 4095
IN_FIRST, IN_CONSECUTIVE = 6, 7

# The same of FD frames, and the most bytes of an FD single frame.
IN_FD_FIRST, IN_FD_CONSECUTIVE, IN_FD_SINGLE = 62, 63, 62

# The frames of a block, the cells of a buffer that holds the longest message, and the lawful lengths of FD frames.
BLOCK, CELLS, CELLS_IN_BLOCKS = 8, 4, 640
FD_LENGTHS = [*range(9), 12, 16, 20, 24, 32, 48, 64]


def lengths(seed, units, longest):
    """The messages' lengths: the upper bits of a linear congruential sequence, so that every Python gives the same."""
    state = seed
    for _ in range(units):
        state = (state * 6364136223846793005 + 1442695040888963407) % 2**64
        yield SHORTEST + (state >> 33) % (longest - SHORTEST + 1)


def frames(message, in_first, in_consecutive):
    """The data of a message's first frame and of its consecutive frames, numbered from 1."""
    yield bytes([0x10 | len(message) >> 8, len(message) & 0xFF]) + message[:in_first]
    for number, at in enumerate(range(in_first, len(message), in_consecutive), 1):
        yield bytes([0x20 | number % 16]) + message[at : at + in_consecutive]


def fd_frames(message):
    """The data of a message's FD frames, filled up to lawful lengths."""
    if len(message) <= 7:
        sent = [bytes([len(message)]) + message]
    elif len(message) <= IN_FD_SINGLE:
        sent = [bytes([0, len(message)]) + message]
    else:
        sent = frames(message, IN_FD_FIRST, IN_FD_CONSECUTIVE)
    for data in sent:
        yield data.ljust(next(length for length in FD_LENGTHS if length >= len(data)), b"\xcc")


def line(stamp, interface, identifier, data, mark="#"):
    """A line as candump writes it with -l."""
    seconds, micros = divmod(stamp, 1_000_000)
    return f"({seconds:010}.{micros:06}) {interface} {identifier:03X}{mark}{data.hex().upper()}\n"


def write_short(seed, units, source, destination):
    """Messages of a few classic frames, at equal times."""
    for unit, length in enumerate(lengths(seed, units, LONGEST)):
        begin = START + unit * BETWEEN_MESSAGES
        message = bytes((unit + k) % 256 for k in range(length))
        for number, data in enumerate(frames(message, IN_FIRST, IN_CONSECUTIVE)):
            # The first consecutive frame leaves time for the flow control.
            wait = 0 if number == 0 else (number + 1) * BETWEEN_FRAMES
            source.write(line(begin + wait, "can0", 0x700, data))
        destination.write(line(begin + TO_FLOW_CONTROL, "can1", 0x718, b"\x30\x00\x00"))


def write_blocks(seed, units, source, destination):
    """Messages in FD frames, each after the one before it was sent on in classic frames, block by block."""
    begin = START
    for unit, length in enumerate(lengths(seed, units, LONGEST_IN_BLOCKS)):
        message = bytes((unit + k) % 256 for k in range(length))
        for number, data in enumerate(fd_frames(message)):
            wait = 0 if number == 0 else (number + 1) * BETWEEN_FRAMES
            source.write(line(begin + wait, "can0", 0x700, data, "##0"))
        count = -(-(length - IN_FIRST) // IN_CONSECUTIVE)
        for block in range(0, count, BLOCK):
            destination.write(line(begin + TO_FLOW_CONTROL + block * BETWEEN_FRAMES, "can1", 0x718, bytes([0x30, BLOCK, 0])))
        begin += (count + 4) * BETWEEN_FRAMES


def main():
    try:
        seed, units, folder, *more = int(sys.argv[1]), int(sys.argv[2]), *sys.argv[3:]
    except (IndexError, ValueError):
        sys.exit("usage: generate.py SEED UNITS FOLDER [blocks]")
    if more not in ([], ["blocks"]):
        sys.exit("usage: generate.py SEED UNITS FOLDER [blocks]")
    with open(os.path.join(folder, "gw.toml"), "w", encoding="ascii") as config:
        if more:
            config.write(CONFIG.format(cells=CELLS_IN_BLOCKS, fd="true", block=BLOCK))
        else:
            config.write(CONFIG.format(cells=CELLS, fd="false", block=0))
    with (
        open(os.path.join(folder, "can0.log"), "w", encoding="ascii") as source,
        open(os.path.join(folder, "can1.log"), "w", encoding="ascii") as destination,
    ):
        write = write_blocks if more else write_short
        write(seed, units, source, destination)


main()
