"""Each number of the tables of docs/SIZING.md, computed anew by the formulas that it states."""

from __future__ import annotations

import re

import pytest
from conftest import TOOLS

PAGE = (TOOLS.parent / "docs" / "SIZING.md").read_text()
CLASSIC, FD = 8, 64


def rows(head: str) -> list[list[str]]:
    """The rows of the table whose first line begins so, without code marks."""
    lines = PAGE[PAGE.index(head) :].split("\n\n")[0].replace("`", "").split("\n")
    return [[cell.strip() for cell in line.strip("|").split("|")] for line in lines[2:]]


def cells(count: int) -> int:
    """The cells of one frame's bytes."""
    return -(-count // 7)


def carried(size: int, address: int = 0, length: int = 100) -> tuple[int, int, int]:
    """The bytes of a single frame, a first frame and a consecutive frame of this size, of a message of this length."""
    long = 4 if length > 4095 else 0
    if size == CLASSIC:
        return 7 - address, 6 - long - address, 7 - address
    return size - 2 - address, size - 2 - long - address, size - 1 - address


def payloads(size: int, length: int, address: int = 0) -> list[int]:
    """The bytes of each frame of a message."""
    single, first, full = carried(size, address, length)
    if length <= single:
        return [length]
    left = length - first
    return [first] + [full] * (left // full) + [left % full] * (left % full > 0)


def all_cells(size: int, length: int, address: int = 0) -> list[int]:
    """The cells of each frame of a message."""
    return [cells(count) for count in payloads(size, length, address)]


def need(size: int, length: int, threshold: int) -> int:
    """The cells that a message needs that isn't stored."""
    found = all_cells(size, length)
    return max(found[0], min(sum(found), threshold + cells(carried(size)[2]) - 1))


def flow_controls(size: int, length: int, buffer: int, block_size: int = 0) -> int | None:
    """How many flow controls a message gets whose destination keeps up; None where its source is asked to wait."""
    found, per_frame, count, at = all_cells(size, length), cells(carried(size)[2]), 0, 1
    while at < len(found):
        room, left = max(buffer - found[at - 1], 0), len(found) - at
        frames = left if sum(found[at:]) <= room else room // per_frame
        if frames == 0:
            return None
        at += frames if block_size == 0 and frames == left else min(frames, block_size or 255)
        count += 1
    return count


def shown(buffer: int, size: int, length: int) -> str:
    """The flow controls as the table has them: `-` where the message doesn't fit the buffer at all."""
    return "-" if buffer < need(size, length, 1) else str(flow_controls(size, length, buffer) or "waits")


def test_frames() -> None:
    """What frames of each size carry, and the cells of a full one; with an address byte, 16 bytes alone differ."""
    sizes = [CLASSIC, 12, 16, 20, 24, 32, 48, FD]
    names = ["classic", *(f"FD, {size} bytes" for size in sizes[1:])]
    table = rows("| frames that come |")
    assert table == [[name, *map(str, carried(size)), str(cells(carried(size)[2]))] for name, size in zip(names, sizes)]
    assert [size for size in sizes if cells(carried(size)[2]) != cells(carried(size, 1)[2])] == [16]


def test_messages() -> None:
    """Consecutive frames and cells of messages, and the longest one in the largest buffer."""
    for length, *found in rows("| message, bytes | classic: consecutive frames |"):
        kinds = [all_cells(size, int(length), address) for size in (CLASSIC, FD) for address in (0, 1)]
        assert list(map(int, found)) == [number for kind in kinds for number in (len(kind) - 1, sum(kind))]
    for size, address, most in [(CLASSIC, 0, 57_339), (CLASSIC, 1, 49_147), (FD, 0, 57_339), (FD, 1, 56_429)]:
        assert sum(all_cells(size, most, address)) <= 8192 < sum(all_cells(size, most + 1, address))
        assert f"{most:,}" in PAGE


def test_needs() -> None:
    """What messages need of a buffer."""
    for length, *found in rows("| message, bytes | classic: threshold 1 |"):
        wanted = [need(size, int(length), threshold) for size in (CLASSIC, FD) for threshold in (1, 8, 32)]
        stored = {sum(all_cells(size, int(length))) for size in (CLASSIC, FD)}
        assert list(map(int, found)) == [*wanted, *stored]


def test_bursts() -> None:
    """Buffers for five messages, each 50 ticks after the one before, where a destination sends one after the other."""
    for name, _, buffers in rows("| what happens on the path |"):
        limit = re.search("n_bs = ([0-9]+)", name)
        ends: list[int] = []
        held = []
        for begin in range(0, 250, 50):
            held.append(1 + sum(end >= begin for end in ends))
            turn = max(begin, ends[-1] + 1) if ends else begin
            ends.append(turn + (int(limit[1]) if limit else 49))
        assert (name, int(buffers)) == (name, max(held))


def test_flow_controls() -> None:
    """Blocks and flow controls by the size of the buffer."""
    for buffer, *found in rows("| buffer, cells | classic: frames in a block |"):
        wanted = []
        for size in (CLASSIC, FD):
            per_frame = cells(carried(size)[2])
            block = min(int(buffer) // per_frame - 1, 255)
            wanted += ["-" if block < 0 else str(block or "waits")]
            wanted += [shown(int(buffer), size, length) for length in (128, 4095)]
        assert found == wanted
    assert [flow_controls(CLASSIC, 4095, 586, bs) for bs in (2, 8, 32, 255)] == [293, 74, 19, 3]


def test_times() -> None:
    """Ticks of a message of 4095 bytes by the buffer and the ticks of a flow control."""
    for buffer, *found in rows("| buffer, cells | classic: a = 1 |"):
        wanted = []
        for size in (CLASSIC, FD):
            count = flow_controls(size, 4095, int(buffer)) if int(buffer) >= need(size, 4095, 1) else None
            frames = len(payloads(size, 4095)) - 1
            wanted += ["-" if count is None else str(count * ticks + frames - count) for ticks in (1, 2, 10)]
        assert found == wanted


@pytest.mark.parametrize("row", rows("| separation time |"))
def test_separation_times(row: list[str]) -> None:
    """Ticks between two frames for a separation time and a period."""
    code = int(row[1], 16)
    micros = code * 1000 if code < 0x80 else (code - 0xF0) * 100
    assert list(map(int, row[2:])) == [max(1, -(-micros // period)) for period in (100, 500, 1000, 10_000)]
