"""Sweeps over a stand-in for the gateway, and, where a gateway is built, over that."""

from __future__ import annotations

import json
import os
import subprocess
import tomllib
from collections.abc import Callable
from pathlib import Path
from typing import Any

import pytest
from conftest import BASE, EXAMPLES
from gateway_tools.command import Refusal
from gateway_tools.sweep import BUILT, main
from gateway_tools.variants import changed, place_of, text_of_tables, value_of

# What a gateway says and writes of a message of nine bytes that nobody answers, where the run goes on long enough; its
# buses have two frames and one. It refuses what the gateway refuses, as far as these tests ask for it.
STAND_IN = """#!/usr/bin/python3
import sys
import tomllib
from pathlib import Path


def end(status, said):
    print(said)
    sys.exit(status)


if sys.argv[1:2] != ["run"]:
    end(1, "usage: gateway run CONFIG REPORT; gateway check CONFIG; gateway make SEED SIZE")
config = tomllib.loads(Path(sys.argv[2]).read_text())
if not isinstance(config.get("linger", 3000), int):
    end(2, "config linger: wrong kind")
if any(bus["log"] == sys.argv[3] for bus in config["bus"]):
    end(2, "config bus[0].log: repeated")
if config["buffers"] != [4]:
    end(9, "unbuilt configuration")
for number, bus in enumerate(config["bus"]):
    if not Path(bus["log"]).is_file():
        end(4, f"read log {number}")
    Path(bus["out"]).write_text("a frame\\n" * (2 - number))
limit = config["channel"][1].get("n_bs", 1000)
Path(sys.argv[3]).write_text(
    f"report 1\\nclock 0 {config.get('period', 1000)}\\n"
    "session 0 0 9 0 9 2 0/0/1 whole\\nsession 0 1 3 5 0 5 - overflow 1 00000000 1\\n"
    f"dest 0 0 0 0 6 {limit} bs-timeout\\nmove 1 take 0\\nmove 2 free 0\\npool 1 2 00000001\\n"
)
end(0, "done 2 1 1 0 2")
"""


@pytest.fixture
def config(tmp_path: Path, monkeypatch: pytest.MonkeyPatch) -> Path:
    """A configuration with its logs, and the stand-in as the gateway."""
    program = tmp_path / "gateway"
    program.write_text(STAND_IN)
    program.chmod(0o755)
    monkeypatch.setenv("GATEWAY", str(program))
    folder = tmp_path / "made"
    folder.mkdir()
    for log in ("can0.log", "can1.log"):
        (folder / log).write_text("")
    (folder / "gw.toml").write_text(BASE)
    return folder / "gw.toml"


def done(value: int, limit: int, period: int) -> dict[str, Any]:
    """What is known of a run that the stand-in did."""
    return {
        "value": value,
        "status": 0,
        "said": "done 2 1 1 0 2",
        "sessions": {"whole": 1, "overflow": 1},
        "destinations": {"bs-timeout": 1},
        "bytes_sent": 6,
        "longest_ticks": limit,
        "longest_seconds": pytest.approx(limit * period / 1e6),
        "median_ticks": limit,
        "median_seconds": pytest.approx(limit * period / 1e6),
        "pools": [{"group": 0, "buffers": 1, "most_in_use": 1}],
        "frames": {"can0": 2, "can1": 1},
    }


def refused(value: object, status: int, said: str) -> dict[str, Any]:
    """What is known of a variant that was refused."""
    return {"value": value, "status": status, "said": said}


# A key, its values, the status of the sweep, and what is known of each variant.
SWEEPS = [
    ("channel[1].n_bs", ["20", "1000"], 0, [done(20, 20, 1000), done(1000, 1000, 1000)]),
    ("channel[0].n_bs", ["20"], 0, [done(20, 1000, 1000)]),
    ("period", ["500", "2_000"], 0, [done(500, 1000, 500), done(2000, 1000, 2000)]),
    ("buffers", ["[4, 8]"], 1, [refused([4, 8], 9, "unbuilt configuration")]),
    ("linger", ['"long"', "1"], 1, [refused("long", 2, "config linger: wrong kind"), done(1, 1000, 1000)]),
    ("bus[1].log", ['"none.log"'], 1, [refused("none.log", 4, "read log 1")]),
    # The report has another name then than the log.
    ("bus[0].log", ['"gw.report"'], 1, [refused("gw.report", 4, "read log 0")]),
    # A log that isn't a file's name isn't looked for.
    ("bus[0].log", ['"../gw.toml"'], 1, [refused("../gw.toml", 4, "read log 0")]),
]


@pytest.mark.parametrize(("key", "values", "status", "rows"), SWEEPS)
def test_sweep(
    key: str,
    values: list[str],
    status: int,
    rows: list[dict[str, Any]],
    config: Path,
    capsys: pytest.CaptureFixture[str],
) -> None:
    """Each value reaches the program, and what came of it is told; the configuration's folder is as before."""
    before = sorted((file.name, file.read_text()) for file in config.parent.iterdir())
    assert main([str(config), key, *values, "--json"]) == status
    assert json.loads(capsys.readouterr().out) == {"key": key, "variants": rows}
    assert sorted((file.name, file.read_text()) for file in config.parent.iterdir()) == before


def test_text(config: Path, capsys: pytest.CaptureFixture[str]) -> None:
    """The text has a line for each value, as it was given."""
    assert main([str(config), "buffers", "[4]", "[ 4, 8 ]"]) == 1
    head = "value     said                   sessions             destinations  bytes sent  longest ticks"
    assert capsys.readouterr().out.split("\n") == [
        f"{head}  longest seconds  buffers  frames",
        "[4]       done 2 1 1 0 2         1 whole, 1 overflow  1 bs-timeout           6           1000"
        "         1.000000  1 of 1   2 can0, 1 can1",
        "[ 4, 8 ]  unbuilt configuration  -                    -                      -              -"
        "                -  -        -",
        "",
    ]


def test_keep(config: Path, tmp_path: Path) -> None:
    """The files of each variant are there for the other tools, with the logs that they read."""
    assert main([str(config), "linger", "1", "2", "--keep", str(tmp_path / "kept")]) == 0
    names = ["can0.log", "can0.out", "can1.log", "can1.out", "gw.report", "gw.toml"]
    for number, linger in (("0", 1), ("1", 2)):
        folder = tmp_path / "kept" / number
        assert sorted(file.name for file in folder.iterdir()) == names
        assert tomllib.loads((folder / "gw.toml").read_text()) == tomllib.loads(BASE) | {"linger": linger}
    with pytest.raises(Refusal, match="name a folder that isn't there yet"):
        main([str(config), "linger", "1", "--keep", str(tmp_path / "kept")])


# A program that isn't the gateway, and what is said of it.
OTHERS = [
    (None, "there is no gateway at .* [(]No such file or directory[)]: run examples/run.sh, .* by GATEWAY=PROGRAM"),
    ("#!/bin/sh\necho 1.0\n", "isn't the gateway: name it by GATEWAY=PROGRAM"),
]


@pytest.mark.parametrize(("program", "said"), OTHERS)
def test_other_programs(
    program: str | None, said: str, config: Path, tmp_path: Path, monkeypatch: pytest.MonkeyPatch
) -> None:
    """What isn't the gateway is refused."""
    other = tmp_path / "other"
    if program is not None:
        other.write_text(program)
        other.chmod(0o755)
    monkeypatch.setenv("GATEWAY", str(other))
    with pytest.raises(Refusal, match=said):
        main([str(config), "linger", "1"])


# Texts of configurations, each of which is read again as what it was.
TEXTS = [
    BASE,
    'mode = "threads"\nbuffers = [4, 64]\nbus = [{ name = "can0", fd = true }]\ninterface = []\n',
    '"a b" = "\\u00fc\\"\\\\"\nbus = []\n[[channel]]\nto = ["B", "C"]\n',
]


@pytest.mark.parametrize("text", TEXTS)
def test_texts(text: str) -> None:
    """What is spelled for a variant is read as its tables."""
    tables = tomllib.loads(text)
    assert tomllib.loads(text_of_tables(tables)) == tables


# Words that name no key, no entry or no value, tables that no configuration has, and what is said of them.
REFUSED: list[tuple[Callable[[], object], str]] = [
    (lambda: place_of("channel.tester.bs"), "`channel.tester.bs` is no key: write it as `linger` or as"),
    (lambda: place_of("channel[01].bs"), "is no key"),
    (lambda: changed(tomllib.loads(BASE), place_of("channel[2].bs"), 1), "has 2 entries channel, counted from 0"),
    (lambda: changed({"bus": 1}, place_of("bus[0].fd"), True), "has 0 entries bus"),
    (lambda: value_of("keep"), "`keep` is no value: write it as in the configuration, a text as '\"keep\"'"),
    (lambda: value_of("1\nlinger = 2"), "is no value"),
    (lambda: text_of_tables({"period": 1.5}), "a configuration has no values such as 1.5: see `gateway check`"),
    (lambda: text_of_tables({"bus": [{}, 1]}), "a configuration has no values such as {}"),
]


@pytest.mark.parametrize(("deed", "said"), REFUSED)
def test_refused(deed: Callable[[], object], said: str) -> None:
    """What can't be a variant is refused with what to do."""
    with pytest.raises(Refusal) as refusal:
        deed()
    assert said in str(refusal.value)


# An example, a key, and for each value how sessions and destinations end, the longest ticks, and the frames that leave: the
# sweeps of tools/README.md and docs/SIZING.md.
OF_THE_GATEWAY = [
    (
        "segmented",
        "period",
        {
            "500": ({"whole": 1}, {"sent": 1}, 6, {"can0": 1, "can1": 3}),
            "1000": ({"whole": 1}, {"sent": 1}, 3, {"can0": 1, "can1": 3}),
            "2000": ({"whole": 1}, {"bs-timeout": 1}, 1000, {"can0": 1, "can1": 1}),
        },
    ),
    (
        "no-flow-control",
        "channel[1].n_bs",
        {
            "100": ({"whole": 2}, {"bs-timeout": 1, "sent": 1}, 100, {"can0": 1, "can1": 2}),
            "1499": ({"whole": 2}, {"bs-timeout": 1, "sent": 1}, 1499, {"can0": 1, "can1": 2}),
            "5000": ({"whole": 1, "overflow": 1}, {"run-end fc": 1}, 4504, {"can0": 1, "can1": 1}),
        },
    ),
]
FIELDS = ("sessions", "destinations", "longest_ticks", "frames")


@pytest.mark.skipif(not (os.environ.get("GATEWAY") or BUILT.exists()), reason="no gateway is built")
@pytest.mark.parametrize(("example", "key", "wanted"), OF_THE_GATEWAY)
def test_gateway(example: str, key: str, wanted: dict[str, Any], capsys: pytest.CaptureFixture[str]) -> None:
    """The gateway itself over examples."""
    assert main([str(EXAMPLES / example / "gw.toml"), key, *wanted, "--json"]) == 0
    found = json.loads(capsys.readouterr().out)["variants"]
    assert [tuple(values[field] for field in FIELDS) for values in found] == list(wanted.values())


def test_command(config: Path) -> None:
    """The command itself ends with the status of its sweep."""
    command = Path(__file__).parent.parent / "sweep"
    answer = subprocess.run([command, config, "buffers", "[8]"], capture_output=True, text=True, check=False)
    assert (answer.returncode, answer.stderr) == (1, "") and "unbuilt configuration" in answer.stdout
