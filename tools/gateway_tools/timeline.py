"""A picture of a run: one HTML file that holds an SVG."""

from __future__ import annotations

import html
import re
from collections.abc import Sequence
from dataclasses import replace
from pathlib import Path

from .command import Refusal, words
from .configuration import Configuration, read_configuration
from .drawing import Span, drawing
from .events import Run, run_of
from .records import Report
from .report import read_report

EXAMPLE = """  tools/timeline gw.toml gw.report -o gw.html
Then open gw.html in a browser: the wheel zooms, dragging moves, a double click shows all again,
and pointing at a frame or a bar tells what it is."""
MOST_FRAMES = 5000


def shown(configuration: Configuration, report: Report, first: int, last: int | None) -> tuple[Span, Run]:
    """The time from the tick `first` to `last`, else to the run's last event, and what is shown of it."""
    run = run_of(configuration, report)
    ends = [item.time for item in run.marks] + [item.end for item in run.sessions + run.destinations]
    end = max(ends, default=report.period) if last is None else (last + 1) * report.period
    span = Span(first * report.period, end)
    run = replace(
        run, marks=span.marks(run.marks), waits=span.bars(run.waits), sessions=span.bars(run.sessions),
        destinations=span.bars(run.destinations), buffers=span.bars(run.buffers),
    )  # fmt: skip
    if span.end <= span.begin:
        raise Refusal(f"nothing happens from tick {first} on: choose a lower one by --from, or a higher one by --to")
    if len(run.marks) > MOST_FRAMES:
        raise Refusal(f"{len(run.marks)} frames are too many for one picture: choose fewer ticks by --from and --to")
    return span, run


def page(title: str, svg: str, tips: dict[str, str]) -> str:
    """One HTML file that holds the SVG, with a tip in each of its groups, and asks for no other file."""
    body = re.sub(r"<metadata>.*?</metadata>", "", svg[svg.index("<svg") :], flags=re.DOTALL)
    groups = re.compile('<g id="([a-z]+-[0-9]+)">')
    body = groups.sub(lambda group: group[0] + title_of(tips.get(group[1])), body)
    template = (Path(__file__).parent / "timeline.html").read_text(encoding="utf-8")
    return template.replace("TITLE", html.escape(title)).replace("DRAWING", body)


def title_of(tip: str | None) -> str:
    """The element that a browser shows to a reader who points at a group."""
    return "" if tip is None else f"<title>{html.escape(tip)}</title>"


def main(arguments: Sequence[str]) -> int:
    """Write the picture of the run that the words name."""
    parser = words("timeline", "Draws a run: each channel's frames, sessions and destinations, and the buffers.", EXAMPLE)
    parser.add_argument("configuration", metavar="CONFIG", type=Path, help="the configuration of the run")
    parser.add_argument("report", metavar="REPORT", type=Path, help="the report that `gateway run` wrote")
    parser.add_argument("-o", metavar="FILE", type=Path, dest="file", help="the HTML file; else REPORT.html")
    parser.add_argument("--from", metavar="TICK", type=int, default=0, dest="first", help="the first tick to show")
    parser.add_argument("--to", metavar="TICK", type=int, dest="last", help="the last tick to show")
    chosen = parser.parse_args(arguments)
    configuration, report = read_configuration(chosen.configuration), read_report(chosen.report)
    file = chosen.file or chosen.report.with_name(chosen.report.name + ".html")
    span, run = shown(configuration, report, chosen.first, chosen.last)
    svg, tips = drawing(run, span)
    try:
        file.write_text(page(f"{chosen.configuration.name}, {chosen.report.name}", svg, tips), encoding="utf-8")
    except OSError as fault:
        raise Refusal(f"{file} can't be written ({fault.strerror}): name another file by -o") from fault
    print(f"{file} has {len(tips)} marks and bars")
    return 0
