"""The drawing of a run, by matplotlib: a lane for each channel, and a row for each buffer."""

from __future__ import annotations

import io
from dataclasses import dataclass

import matplotlib

matplotlib.use("svg")
matplotlib.rcParams["svg.fonttype"] = "none"  # labels are texts, and no outlines of letters
matplotlib.rcParams["svg.hashsalt"] = "gateway"  # one run gives one and the same file
from matplotlib import pyplot  # noqa: E402
from matplotlib.axes import Axes  # noqa: E402
from matplotlib.lines import Line2D  # noqa: E402
from matplotlib.patches import Patch, Rectangle  # noqa: E402

from .events import Bar, Mark, Run  # noqa: E402
from .frames import Kind  # noqa: E402

LETTER = 0.0052  # the width of a letter of a label, as a part of the picture's width

SHAPES = {Kind.SINGLE: "D", Kind.FIRST: ">", Kind.CONSECUTIVE: "o", Kind.FLOW_CONTROL: "v", Kind.OTHER: "x"}
DONE, LATE, BROKEN, REFUSED, STOPPED = "#8fd3a8", "#f2a0ab", "#e6b98a", "#cfa5e0", "#b9c4c9"
COLOURS = {
    "whole": DONE, "sent": DONE,
    "rx-timeout": LATE, "bs-timeout": LATE, "as-timeout": LATE, "cs-timeout": LATE, "wait-over": LATE,
    "wrong-sn": BROKEN, "restarted": BROKEN, "invalid-fs": BROKEN, "source-ended": BROKEN, "no-readers": BROKEN,
    "overflow": REFUSED, "no-room": REFUSED, "fc-overflow": REFUSED,
    "cancelled": STOPPED, "run-end": STOPPED,
    "wait": "#f2b134", "gap": "#e3e8ea", "buffer": "#a7c7e7",
}  # fmt: skip
LEGEND = {
    "whole, sent": DONE, "a time limit passed": LATE, "broken off": BROKEN, "no room": REFUSED,
    "cancelled, run's end": STOPPED, "wait": COLOURS["wait"], "gap": COLOURS["gap"],
}  # fmt: skip


@dataclass(frozen=True)
class Span:
    """The time that is shown, in microseconds from the run's start."""

    begin: int
    end: int

    def marks(self, items: list[Mark]) -> list[Mark]:
        """The marks that are shown."""
        return [item for item in items if self.begin <= item.time <= self.end]

    def bars(self, items: list[Bar]) -> list[Bar]:
        """The bars that are shown, at least in part."""
        return [item for item in items if item.begin <= self.end and self.begin <= item.end]


class Picture:
    """Bars and marks on axes, and the tips that belong to their groups in the SVG."""

    def __init__(self, span: Span) -> None:
        self.span = span
        self.tips: dict[str, str] = {}
        self.labelled: dict[float, float] = {}  # for each line of labels, the time up to which it is used

    def tip(self, kind: str, text: str) -> str:
        """The identifier of a new group of the SVG with this tip."""
        name = f"{kind}-{len(self.tips)}"
        self.tips[name] = text
        return name

    def bar(self, axes: Axes, bar: Bar, bottom: float, height: float, kind: str) -> None:
        """Draw a bar, with its label at its beginning."""
        begin, width = bar.begin / 1000, (bar.end - bar.begin) / 1000
        patch = Rectangle(
            (begin, bottom), width, height, facecolor=COLOURS[bar.word], edgecolor="white", linewidth=0.5,
            gid=self.tip(kind, bar.tip),
        )  # fmt: skip
        axes.add_patch(patch)
        self.label(axes, bar, bottom, height)

    def label(self, axes: Axes, bar: Bar, bottom: float, height: float) -> None:
        """Write a bar's label into it; where it has no room, the reason of what went wrong on a free line, if any."""
        begin, end = max(bar.begin, self.span.begin), min(bar.end, self.span.end)
        letter = LETTER * (self.span.end - self.span.begin)
        reason = bar.label.partition(" ")[2]
        texts = [text for text in (bar.label, reason) if len(text) * letter <= end - begin]
        places = [bottom + height / 2] if texts else [bottom + height * 0.75, bottom + height * 0.25]
        if not bar.label or not texts and bar.word in ("whole", "sent", "buffer"):
            return
        for place in places:
            if self.labelled.get(place, begin) <= begin:
                text = texts[0] if texts else reason
                self.labelled[place] = begin + len(text) * letter
                axes.text(begin / 1000, place, "\u00a0" + text, va="center", fontsize=7, clip_on=True)
                return

    def mark(self, axes: Axes, mark: Mark) -> None:
        """Draw a frame: filled where it was received, hollow where it was sent."""
        line = Line2D(
            [mark.time / 1000], [0.3 - mark.channel], marker=SHAPES[mark.kind], markersize=7, linestyle="none",
            color="black", markerfacecolor="white" if mark.is_sent else "black", gid=self.tip("frame", mark.tip),
        )  # fmt: skip
        axes.add_line(line)

    def lanes(self, axes: Axes, run: Run) -> None:
        """Draw each channel's lane: frames above, waits and gaps below them, then sessions, then destinations."""
        for bar in run.waits:
            self.bar(axes, bar, 0.08 - bar.row, 0.08, bar.word)
        for bar in run.sessions:
            self.bar(axes, bar, -0.17 - bar.row, 0.2, "session")
        for bar in run.destinations:
            self.bar(axes, bar, -0.4 - bar.row, 0.2, "destination")
        for mark in run.marks:
            self.mark(axes, mark)
        axes.set_yticks([-at for at in range(len(run.lanes))], run.lanes)
        axes.set_ylim(-len(run.lanes) + 0.45, 0.55)
        for at in range(1, len(run.lanes)):
            axes.axhline(0.5 - at, color="#dddddd", linewidth=0.8)

    def pool(self, axes: Axes, taken: list[Bar]) -> None:
        """Draw the buffers that were taken, a row for each."""
        numbers = sorted({bar.row for bar in taken})
        for bar in taken:
            self.bar(axes, bar, -0.3 - numbers.index(bar.row), 0.6, "buffer")
        axes.set_yticks([-at for at in range(len(numbers))], [f"buffer {number}" for number in numbers])
        axes.set_ylim(-max(len(numbers), 1) + 0.5, 0.5)


def legend(axes: Axes) -> None:
    """The shapes of frames and the colours of bars, above the picture."""
    shapes = [
        Line2D([], [], marker=shape, linestyle="none", color="black", markerfacecolor=face, label=label)
        for shape, face, label in [(SHAPES[kind], "black", kind.value) for kind in SHAPES if kind is not Kind.OTHER]
        + [("o", "black", "received"), ("o", "white", "sent")]
    ]
    colours = [Patch(color=colour, label=label) for label, colour in LEGEND.items()]
    axes.legend(handles=shapes + colours, ncol=7, fontsize=7, loc="lower left", bbox_to_anchor=(0, 1.01), frameon=False)


def drawing(run: Run, span: Span) -> tuple[str, dict[str, str]]:
    """The SVG of a run, and the tips of its groups."""
    rows = max(len({bar.row for bar in run.buffers}), 1)
    heights = 1.3 * max(len(run.lanes), 1), 0.3 * rows + 0.1
    figure, (upper, lower) = pyplot.subplots(
        2, 1, sharex=True, figsize=(12, 1.2 + sum(heights)), layout="constrained", height_ratios=heights
    )
    margin = (span.end - span.begin) / 40
    lower.set_xlim((span.begin - margin) / 1000, (span.end + margin) / 1000)
    picture = Picture(span)
    picture.lanes(upper, run)
    picture.pool(lower, run.buffers)
    legend(upper)
    lower.set_xlabel(f"milliseconds after the run's start at {run.start / 1e6:.6f} s")
    text = io.StringIO()
    figure.savefig(text, format="svg", metadata={"Date": None})
    pyplot.close(figure)
    return text.getvalue(), picture.tips
