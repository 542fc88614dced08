"""What the tests share: the package, the folders of examples, and a way to run a command."""

from __future__ import annotations

import shutil
import sys
from collections.abc import Callable
from pathlib import Path

import pytest

TOOLS = Path(__file__).resolve().parent.parent
EXAMPLES = TOOLS.parent / "examples"
sys.path.insert(0, str(TOOLS))

BASE = """buffers = [4]
[[bus]]
name = "can0"
log = "can0.log"
out = "can0.out"
[[bus]]
name = "can1"
log = "can1.log"
out = "can1.out"
[[channel]]
name = "tester"
bus = "can0"
rx = "7E0"
tx = "7E8"
[[channel]]
name = "engine"
bus = "can1"
rx = "649"
tx = "641"
[[path]]
name = "requests"
from = "tester"
to = ["engine"]
"""


@pytest.fixture
def example(tmp_path: Path) -> Callable[[str], Path]:
    """A new folder with the files of an example before and after its run."""

    def folder(name: str) -> Path:
        for source in (EXAMPLES / name, EXAMPLES / name / "expected"):
            for file in source.iterdir():
                if file.is_file():
                    shutil.copy(file, tmp_path)
        return tmp_path

    return folder


@pytest.fixture
def made(tmp_path: Path) -> Callable[..., list[str]]:
    """A new folder with a run that a test made up; gives the words CONFIG and REPORT.

    The logs and outputs are lists of lines without their stamps: pairs of milliseconds and of what follows the bus.
    """

    def words(report: str, config: str = BASE, **buses: list[tuple[float, str]]) -> list[str]:
        for bus in ("can0", "can1"):
            for suffix in ("log", "out"):
                lines = buses.get(f"{bus}_{suffix}", [])
                text = "".join(f"({1 + at / 1000:017.6f}) {bus} {frame}\n" for at, frame in lines)
                (tmp_path / f"{bus}.{suffix}").write_text(text)
        (tmp_path / "gw.toml").write_text(config)
        (tmp_path / "gw.report").write_text(report)
        return [str(tmp_path / "gw.toml"), str(tmp_path / "gw.report")]

    return words
