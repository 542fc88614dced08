"""Whole messages of ISO 15765-2 from frames, put together by Wireshark's tshark where it is installed."""

from __future__ import annotations

import shutil
import subprocess
import tempfile
from pathlib import Path

from .command import Refusal
from .logs import LoggedFrame
from .reassembly import Message

FIELDS = ("frame.number", "iso15765.message_type", "iso15765.reassembled.length", "data.data")
SINGLE_FRAME = 0


def is_installed() -> bool:
    """tshark is in the PATH."""
    return shutil.which("tshark") is not None


def log_line(frame: LoggedFrame) -> str:
    """The frame as candump writes it, on a bus `can0`."""
    identifier = f"{frame.identifier:08X}" if frame.extended else f"{frame.identifier:03X}"
    mark = "##0" if frame.fd else "#"
    seconds, micros = divmod(frame.stamp, 1_000_000)
    return f"({seconds:010}.{micros:06}) can0 {identifier}{mark}{frame.data.hex().upper()}\n"


def rows(frames: list[LoggedFrame], has_address: bool) -> list[list[str]]:
    """What tshark prints of each frame, by FIELDS."""
    addressing = "Extended" if has_address else "Normal"
    with tempfile.TemporaryDirectory() as folder:
        log = Path(folder) / "frames.log"
        log.write_text("".join(map(log_line, frames)))
        command = ["tshark", "-r", str(log), "-d", "can.subdissector,iso15765", "-T", "fields"]
        command += ["-o", f"iso15765.addressing:{addressing} addressing"]
        command += [word for name in FIELDS for word in ("-e", name)]
        answer = subprocess.run(command, capture_output=True, text=True, check=False)
    printed = [line.split("\t") for line in answer.stdout.splitlines()]
    if answer.returncode or len(printed) != len(frames):
        raise Refusal("tshark can't read the frames: give the option --without-tshark")
    return printed


def whole_messages(found: list[Message], has_address: bool) -> list[bytes | None]:
    """For each of these messages of one address the bytes that tshark puts together; None where it isn't whole."""
    frames = [frame for message in found for frame in message.frames]
    answers: list[bytes | None] = []
    printed = iter(rows(frames, has_address) if frames else [])
    for message in found:
        whole = None
        for _, kind, length, data in (next(printed) for _ in message.frames):
            if length or (kind and int(kind.split(",")[0], 16) == SINGLE_FRAME):
                whole = bytes.fromhex(data.replace(":", ""))
        answers.append(whole)
    return answers
