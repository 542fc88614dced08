"""What comes of a run where one key of its configuration has other values."""

from __future__ import annotations

import json
import os
import subprocess
from collections import Counter
from collections.abc import Iterable, Sequence
from dataclasses import dataclass
from pathlib import Path
from tempfile import TemporaryDirectory
from typing import Any

from .command import Refusal, words
from .records import Report, Result
from .report import read_report
from .summary import pools, times
from .tables import table
from .variants import Tables, changed, entries, files, place_of, read_tables, text_of_tables, value_of

EXAMPLE = """  tools/sweep gw.toml 'channel[1].n_bs' 20 100 1000
  GATEWAY=PROGRAM tools/sweep gw.toml buffers '[4]' '[4, 64]' --json
The status is 0 where each variant was run, 1 where the program refused one, 2 where there is nothing to run."""

BUILT = Path(__file__).resolve().parents[2] / "crates" / "gateway" / "out" / "gateway"


@dataclass(frozen=True)
class Run:
    """What came of one run: the status, what was said, and where it was done the report and each bus's sent frames."""

    status: int
    said: str
    report: Report | None = None
    frames: dict[str, int] | None = None


def started(program: Path, arguments: list[str], folder: Path) -> Run:
    """Run the program on these words in a folder."""
    try:
        ended = subprocess.run([program, *arguments], cwd=folder, capture_output=True, check=False)
    except OSError as fault:
        raise Refusal(
            f"there is no gateway at {program} ({fault.strerror}): run examples/run.sh, which builds it, or name one "
            "by GATEWAY=PROGRAM"
        ) from fault
    return Run(ended.returncode, ended.stdout.decode("utf-8", "replace").strip())


def find_program(folder: Path) -> Path:
    """The program that GATEWAY names, or else the one that was built; without words it says how it is used."""
    program = Path(os.environ.get("GATEWAY") or BUILT).resolve()
    if not started(program, [], folder).said.startswith("usage:"):
        raise Refusal(f"{program} isn't the gateway: name it by GATEWAY=PROGRAM")
    return program


def run_variant(program: Path, config: Path, tables: Tables, folder: Path) -> Run:
    """Run these tables as the configuration at `config`, in an empty folder, where its logs are only read."""
    outputs = files(tables, "out")
    taken = {config.name, *files(tables, "log"), *outputs}
    for log in taken - {config.name, *outputs}:
        (folder / log).symlink_to((config.parent / log).resolve())
    (folder / config.name).write_text(text_of_tables(tables), encoding="utf-8")
    report = next(name for name in ("gw.report", *(f"{at}.report" for at in range(len(taken)))) if name not in taken)
    run = started(program, ["run", config.name, report], folder)
    if run.status != 0:
        return run
    frames = {str(bus["name"]): (folder / bus["out"]).read_bytes().count(b"\n") for bus in entries(tables, "bus")}
    return Run(run.status, run.said, read_report(folder / report), frames)


def counts(results: Iterable[Result]) -> dict[str, int]:
    """How often each result came, the most frequent first."""
    return dict(Counter(result.kind for result in results).most_common())


def row(value: Any, run: Run) -> dict[str, Any]:
    """A variant's row, as `--json` prints it; of a run that wasn't done its status and what was said."""
    report = run.report
    values: dict[str, Any] = {"value": value, "status": run.status, "said": run.said}
    if report is None:
        return values
    ended = [record.end - record.begin for record in report.destinations]
    return values | {
        "sessions": counts(session.result for session in report.sessions),
        "destinations": counts(record.result for record in report.destinations),
        "bytes_sent": sum(record.sent for record in report.destinations),
        **(times(ended, report.period) if ended else {}),
        "pools": pools(report),
        "frames": run.frames,
    }


def joined(found: dict[str, int] | None) -> str | None:
    """Names with their numbers as one text; `none` where there are no names, and None where nothing is known."""
    return None if found is None else ", ".join(f"{number} {name}" for name, number in found.items()) or "none"


def text_row(word: str, values: dict[str, Any]) -> dict[str, Any]:
    """A variant's row of the text for readers. `word` is its value as it was given."""
    used = [f"{pool['most_in_use']} of {pool['buffers']}" for pool in values.get("pools", [])]
    return {
        "value": word,
        "said": values["said"],
        "sessions": joined(values.get("sessions")),
        "destinations": joined(values.get("destinations")),
        "bytes_sent": values.get("bytes_sent"),
        "longest_ticks": values.get("longest_ticks"),
        "longest_seconds": values.get("longest_seconds"),
        "buffers": ", ".join(used) or None,
        "frames": joined(values.get("frames")),
    }


def kept(folder: Path) -> Path:
    """A new folder for the variants' files."""
    try:
        folder.mkdir()
    except OSError as fault:
        raise Refusal(f"{folder} can't be made ({fault.strerror}): name a folder that isn't there yet") from fault
    return folder


def sweep(config: Path, word: str, values: list[str], keep: Path | None) -> list[dict[str, Any]]:
    """The rows of all variants, each run in a folder of its own, which are removed unless they are to be kept."""
    place = place_of(word)
    tables = read_tables(config)
    variants = [(value, changed(tables, place, value)) for value in map(value_of, values)]
    rows = []
    with TemporaryDirectory() as scratch:
        program = find_program(Path(scratch))
        top = kept(keep) if keep else Path(scratch)
        for number, (value, variant) in enumerate(variants):
            folder = top / str(number)
            folder.mkdir()
            rows.append(row(value, run_variant(program, config, variant, folder)))
    return rows


def main(arguments: Sequence[str]) -> int:
    """Run the variants that the words name, and print a row for each."""
    parser = words("sweep", "Runs a configuration with other values of one key, and says what came of each.", EXAMPLE)
    parser.add_argument("configuration", metavar="CONFIG", type=Path, help="the configuration; it isn't changed")
    parser.add_argument("key", metavar="KEY", help="the key, as `linger` or as `channel[0].n_cr`, counted from 0")
    parser.add_argument("values", metavar="VALUE", nargs="+", help="its values, as they would stand in CONFIG")
    parser.add_argument("--json", action="store_true", help="print one JSON object")
    parser.add_argument("--keep", metavar="FOLDER", type=Path, help="keep the variants' files, in FOLDER/0 and so on")
    chosen = parser.parse_args(arguments)
    rows = sweep(chosen.configuration, chosen.key, chosen.values, chosen.keep)
    if chosen.json:
        print(json.dumps({"key": chosen.key, "variants": rows}, indent=2))
    else:
        print("\n".join(table([text_row(word, values) for word, values in zip(chosen.values, rows)])))
    return 1 if any(values["status"] for values in rows) else 0
