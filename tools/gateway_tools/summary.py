"""What a report says in sum."""

from __future__ import annotations

import json
from collections.abc import Sequence
from pathlib import Path
from statistics import median
from typing import Any

from .command import words
from .records import Destination, Report, Session
from .report import read_report
from .tables import table

EXAMPLE = """  tools/summary gw.report
  tools/summary --json gw.report"""
INTERFACE_KINDS = ("sent", "boxed", "flushed", "refused", "left")


def times(ticks: list[int], period: int) -> dict[str, float]:
    """The longest and the median of these times, in ticks and in seconds."""
    middle = median(ticks)
    return {
        "longest_ticks": max(ticks),
        "longest_seconds": max(ticks) * period / 1e6,
        "median_ticks": middle,
        "median_seconds": middle * period / 1e6,
    }


def received(report: Report) -> list[dict[str, Any]]:
    """For each channel and each result: messages, the bytes that were received, and times from begin to end."""
    groups: dict[tuple[int, str], list[Session]] = {}
    for session in report.sessions:
        groups.setdefault((session.channel, session.result.kind), []).append(session)
    return [
        {"channel": channel, "result": result, "messages": len(group), "bytes": sum(item.received for item in group)}
        | times([item.end - item.begin for item in group], report.period)
        for (channel, result), group in sorted(groups.items())
    ]


def sent(report: Report) -> list[dict[str, Any]]:
    """For each destination and each result: messages, the bytes that were sent, and times from begin to end."""
    groups: dict[tuple[int, int, str], list[Destination]] = {}
    for record in report.destinations:
        groups.setdefault((record.path, record.destination, record.result.kind), []).append(record)
    return [
        {"path": path, "destination": destination, "result": result}
        | {"messages": len(group), "bytes": sum(item.sent for item in group)}
        | times([item.end - item.begin for item in group], report.period)
        for (path, destination, result), group in sorted(groups.items())
    ]


def interfaces(report: Report) -> list[dict[str, Any]]:
    """For each interface path that had units, how many came to each end."""
    rows: dict[int, dict[str, Any]] = {}
    for units in report.interfaces:
        row = rows.setdefault(units.path, {"interface": units.path} | {kind: 0 for kind in INTERFACE_KINDS})
        row[units.kind] += units.last - units.first + 1
    return [rows[path] for path in sorted(rows)]


def pools(report: Report) -> list[dict[str, Any]]:
    """For each group of buffers, how many there are and the most that were taken at once."""
    rows = []
    for pool in report.pools:
        taken = most = 0
        for move in report.moves:
            if move.group == pool.group:
                taken += 1 if move.taken else -1
                most = max(most, taken)
        rows.append({"group": pool.group, "buffers": pool.buffers, "most_in_use": most})
    return rows


def summary(report: Report) -> dict[str, Any]:
    """The whole summary, as `--json` prints it."""
    return {
        "start_seconds": report.start / 1e6,
        "tick_seconds": report.period / 1e6,
        "received": received(report),
        "sent": sent(report),
        "interfaces": interfaces(report),
        "pools": pools(report),
    }


def text(values: dict[str, Any]) -> str:
    """The summary as a text for readers."""
    lines = [f"start {values['start_seconds']:.6f} s, ticks of {values['tick_seconds']:.6f} s"]
    titles = {
        "received": "received, by channel and result",
        "sent": "sent, by path, destination and result",
        "interfaces": "units of interface paths",
        "pools": "buffers",
    }
    for key, title in titles.items():
        lines += ["", title, *(table(values[key]) if values[key] else ["none"])]
    return "\n".join(lines)


def main(arguments: Sequence[str]) -> int:
    """Print the summary of the report that the words name."""
    parser = words("summary", "Says in sum what a gateway's report says record by record.", EXAMPLE)
    parser.add_argument("report", metavar="REPORT", type=Path, help="the report that `gateway run` wrote")
    parser.add_argument("--json", action="store_true", help="print one JSON object")
    chosen = parser.parse_args(arguments)
    values = summary(read_report(chosen.report))
    print(json.dumps(values, indent=2) if chosen.json else text(values))
    return 0
