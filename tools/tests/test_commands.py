"""The commands as a user starts them: their help, and how they refuse in one line."""

from __future__ import annotations

import subprocess
import sys

import pytest
from conftest import EXAMPLES, TOOLS
from gateway_tools.command import start

COMMANDS = ["summary", "compare", "timeline", "sweep"]
CONFIG = str(EXAMPLES / "segmented" / "gw.toml")
REPORT = str(EXAMPLES / "segmented" / "expected" / "gw.report")
OTHER = str(EXAMPLES / "other-names" / "bridge.toml")
# A command's words that are refused, and what is said after the command's name.
REFUSED = [
    ("summary", [], "the following arguments are required: REPORT; see summary --help"),
    ("summary", [REPORT, "--xml"], "unrecognized arguments: --xml; see summary --help"),
    ("summary", ["none.report"], "none.report can't be read (No such file or directory): see that the file is there"),
    ("summary", [CONFIG], "isn't `report 1` or `report 2`: give the file that `gateway run` was told to write"),
    ("compare", [CONFIG], "the following arguments are required: REPORT; see compare --help"),
    ("compare", [REPORT, REPORT], "see `gateway check`"),
    ("compare", [CONFIG, REPORT], "can1.out can't be read (No such file or directory): see that the file is there"),
    ("compare", [OTHER, REPORT], "the report is of another configuration: give the one that `gateway run` was given"),
    ("timeline", [OTHER, REPORT], "the report is of another configuration: give the one that `gateway run` was given"),
    ("timeline", [CONFIG], "the following arguments are required: REPORT; see timeline --help"),
    ("timeline", [CONFIG, CONFIG], "give the file that `gateway run` was told to write"),
    ("sweep", [CONFIG, "linger"], "the following arguments are required: VALUE; see sweep --help"),
    ("sweep", ["none.toml", "linger", "1"], "none.toml can't be read (No such file or directory): see that the file is"),
    ("sweep", [REPORT, "linger", "1"], "see `gateway check`"),
    ("sweep", [CONFIG, "linger=1", "1"], "`linger=1` is no key: write it as `linger` or as `channel[0].n_cr`"),
    ("sweep", [CONFIG, "linger", "long"], "`long` is no value: write it as in the configuration, a text as '\"keep\"'"),
]


def run(command: str, words: list[str]) -> subprocess.CompletedProcess[str]:
    """Start the command with these words."""
    return subprocess.run([str(TOOLS / command), *words], capture_output=True, text=True, check=False)


@pytest.mark.parametrize("command", COMMANDS)
def test_help(command: str) -> None:
    """The help ends with an example."""
    answer = run(command, ["--help"])
    assert answer.returncode == 0 and f"example:\n  tools/{command} " in answer.stdout


@pytest.mark.parametrize(("command", "words", "said"), REFUSED)
def test_refused(command: str, words: list[str], said: str) -> None:
    """A refusal is one line on the standard error, and the status is 2."""
    answer = run(command, words)
    assert (answer.returncode, answer.stdout) == (2, "")
    assert answer.stderr.startswith(f"{command}: ") and answer.stderr.count("\n") == 1 and said in answer.stderr


# A command, the module that isn't there, and the package that is asked for.
LACKING = [("compare", "can", "python3-can"), ("compare", "scapy", "python3-scapy"),
           ("timeline", "matplotlib", "python3-matplotlib")]  # fmt: skip


@pytest.mark.parametrize(("command", "module", "package"), LACKING)
def test_lacking(
    command: str, module: str, package: str, monkeypatch: pytest.MonkeyPatch, capsys: pytest.CaptureFixture[str]
) -> None:
    """A package that isn't installed is asked for in one line."""
    for name in [name for name in sys.modules if name.partition(".")[0] in ("gateway_tools", module)]:
        monkeypatch.delitem(sys.modules, name)
    monkeypatch.setitem(sys.modules, module, None)
    with pytest.raises(SystemExit) as ended:
        start(command)
    said = f"{command}: {package} isn't installed: run apt install --no-install-recommends {package}\n"
    assert (ended.value.code, capsys.readouterr().err) == (2, said)
