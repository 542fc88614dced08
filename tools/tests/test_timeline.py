"""The picture's marks and bars on the examples, and the page as headless Chromium shows it."""

from __future__ import annotations

import html
import json
import os
import re
import subprocess
from collections import Counter
from collections.abc import Callable
from pathlib import Path

import pytest
from conftest import BASE
from gateway_tools.configuration import read_configuration
from gateway_tools.drawing import COLOURS
from gateway_tools.events import Run, run_of
from gateway_tools.frames import Kind, words_of
from gateway_tools.report import DESTINATION_RESULTS, SESSION_RESULTS, read_report
from gateway_tools.timeline import main

S, F, C, FC = Kind.SINGLE, Kind.FIRST, Kind.CONSECUTIVE, Kind.FLOW_CONTROL
CONFIGS = {"single-frame": "gw", "segmented": "gw", "other-names": "bridge"}
# Of each example the frames: channel, microseconds, kind, sent; and the bars: row, begin, end in microseconds, word.
MARKS = {
    "single-frame": [(0, 0, S, False), (1, 1000, S, True)],
    "segmented": [
        *[(0, 0, F, False), (0, 1000, FC, True), (0, 2000, C, False), (0, 3000, C, False)],
        *[(1, 1000, F, True), (1, 1500, FC, False), (1, 3000, C, True), (1, 4000, C, True)],
    ],
    "other-names": [
        *[(0, 0, F, False), (0, 500, FC, True), (0, 2000, C, False), (0, 3000, C, False)],
        (1, 500, F, True),
    ],
}
WAITS = {
    "single-frame": [],
    "segmented": [
        *[(0, 0, 1000, "wait"), (0, 1000, 2000, "gap"), (0, 2000, 3000, "gap")],
        *[(1, 1000, 1500, "wait"), (1, 1500, 3000, "gap"), (1, 3000, 4000, "gap")],
    ],
    "other-names": [
        *[(0, 0, 500, "wait"), (0, 500, 2000, "gap"), (0, 2000, 3000, "gap")],
        (1, 500, 3500, "wait"),
    ],
}
RECORDS = {
    "single-frame": [(0, 0, 1000, "whole"), (1, 0, 1000, "sent"), (0, 0, 1000, "buffer")],
    "segmented": [(0, 0, 4000, "whole"), (1, 0, 4000, "sent"), (0, 0, 4000, "buffer")],
    "other-names": [(0, 0, 3500, "whole"), (1, 0, 3500, "run-end"), (0, 0, 3500, "buffer")],
}


def words(folder: Path, name: str) -> list[str]:
    """The words CONFIG and REPORT of an example."""
    return [str(folder / f"{CONFIGS[name]}.toml"), str(folder / f"{CONFIGS[name]}.report")]


def run(config: str, report: str) -> Run:
    """What a picture shows of a run."""
    return run_of(read_configuration(Path(config)), read_report(Path(report)))


@pytest.mark.parametrize("name", CONFIGS)
def test_examples(name: str, example: Callable[[str], Path]) -> None:
    """Every frame and every bar of the examples, by hand from their files."""
    found = run(*words(example(name), name))
    assert [(item.channel, item.time, item.kind, item.is_sent) for item in found.marks] == MARKS[name]
    bars = [(item.row, item.begin, item.end, item.word) for item in found.waits]
    assert bars == WAITS[name]
    records = found.sessions + found.destinations + found.buffers
    assert [(item.row, item.begin, item.end, item.word) for item in records] == RECORDS[name]


def test_tips(example: Callable[[str], Path]) -> None:
    """What a reader sees who points at something, where the flow control stayed away."""
    found = run(*words(example("other-names"), "other-names"))
    assert found.marks[1].tip == (
        "flow control: continue, block size 0, separation time 0 ms\nsent with 7E8: 30 00 00\ntick 0, 0.5 ms after the start"
    )
    assert found.marks[2].tip == (
        "consecutive frame 1\nreceived with 7E0: 21 5A 5A 5A 31 4B 5A 41\ntick 4, 2 ms after the start"
    )
    assert found.waits[-1].tip == "3 ms without a frame after the first frame"
    assert found.sessions[0].tip == "session 0: whole\n20 of 20 bytes received, unit 0 in buffer 0\nticks 0 to 6"
    assert found.destinations[0].tip == "path requests, unit 0: run-end fc 0\n6 bytes sent\nticks 0 to 6"
    assert found.buffers[0].tip == (
        "buffer 0 taken by change 1 of the pool\nfor session 0 of channel tester, 3.5 ms"
    )


# A frame's bytes, its address byte, and what it is in words.
FRAMES = [
    ("021122", None, "single frame of 2 bytes"),
    ("000A62F1905744565A5A5A31", None, "single frame of 10 bytes"),
    ("101462F190574456", None, "first frame of a message of 20 bytes"),
    ("10000001000062F1", None, "first frame of a message of 65536 bytes"),
    ("2F5A", None, "consecutive frame 15"),
    ("300814", None, "flow control: continue, block size 8, separation time 20 ms"),
    ("3100F5", None, "flow control: wait, block size 0, separation time 500 us"),
    ("320080", None, "flow control: overflow, block size 0, separation time 80 (reserved)"),
    ("350000", None, "flow control: status 5, block size 0, separation time 0 ms"),
    ("12023E00", 0x12, "single frame of 2 bytes"),
    ("40", None, "no protocol unit"),
    ("", None, "no protocol unit"),
    ("12", 0x12, "no protocol unit"),
    ("10", None, "first frame"),
    ("30", None, "flow control"),
]


@pytest.mark.parametrize(("digits", "address", "said"), FRAMES)
def test_frames(digits: str, address: int | None, said: str) -> None:
    """Frames in words."""
    assert words_of(bytes.fromhex(digits), address) == said


# What is asked of the page in the browser: its groups with a tip and whether they are in sight, the files that it
# loaded, and what the picture shows before and after the wheel, a drag and a double click.
QUESTIONS = """
<pre id="answer"></pre>
<script>
  const shows = () => [view.x, view.y, view.width, view.height];
  const groups = [...picture.querySelectorAll("g")].filter((group) => group.querySelector(":scope > title"));
  const answer = { groups: groups.map((group) => {
    const box = group.getBoundingClientRect(), frame = picture.getBoundingClientRect();
    const seen = box.width > 0 && box.left >= frame.left && box.right <= frame.right && box.bottom <= frame.bottom;
    return [group.id.split("-")[0], group.querySelector("title").textContent, seen];
  }) };
  answer.labels = [...picture.querySelectorAll("text")].map((text) => text.textContent.trim());
  answer.loaded = performance.getEntriesByType("resource").length;
  const box = picture.getBoundingClientRect();
  const at = (dx) => ({ clientX: box.left + box.width / 2 + dx, clientY: box.top + box.height / 2, bubbles: true });
  answer.first = shows();
  picture.dispatchEvent(new WheelEvent("wheel", { ...at(0), deltaY: -100, cancelable: true }));
  answer.zoomed = shows();
  picture.dispatchEvent(new PointerEvent("pointerdown", at(0)));
  picture.dispatchEvent(new PointerEvent("pointermove", at(-100)));
  window.dispatchEvent(new PointerEvent("pointerup", at(-100)));
  answer.moved = shows();
  picture.dispatchEvent(new PointerEvent("pointermove", at(100)));
  answer.released = shows();
  picture.dispatchEvent(new MouseEvent("dblclick", at(0)));
  answer.last = shows();
  document.getElementById("answer").textContent = JSON.stringify(answer);
</script>
</body>
"""


def asked(page: Path) -> dict:
    """The page's answers to the questions, in headless Chromium without a network."""
    copy = page.with_name("asked.html")
    copy.write_text(page.read_text().replace("</body>", QUESTIONS))
    command = ["chromium", "--headless", "--disable-gpu", "--window-size=1200,700", "--virtual-time-budget=2000"]
    command += ["--host-resolver-rules=MAP * ~NOTFOUND", f"--user-data-dir={page.parent / 'browser'}"]
    command += ["--no-sandbox"] if os.geteuid() == 0 else []
    command += ["--dump-dom", copy.as_uri()]
    shown = subprocess.run(command, capture_output=True, text=True, timeout=120, check=True).stdout
    answer = re.search('<pre id="answer">(.*?)</pre>', shown, re.DOTALL)
    assert answer is not None, shown
    return json.loads(html.unescape(answer[1]))


LABELS = {
    "single-frame": {"session 0: whole", "unit 0: sent", "A session 0", "buffer 0"},
    "segmented": {"session 0: whole", "unit 0: sent", "A session 0", "buffer 0"},
    "other-names": {"session 0: whole", "unit 0: run-end fc 0", "tester session 0", "buffer 0"},
}


@pytest.mark.parametrize("name", CONFIGS)
def test_in_chromium(name: str, example: Callable[[str], Path], capsys: pytest.CaptureFixture[str]) -> None:
    """Everything is in sight and has its tip, nothing is loaded, and the picture zooms, moves and comes back."""
    folder = example(name)
    page = folder / "run.html"
    assert main([*words(folder, name), "-o", str(page)]) == 0
    found = asked(page)
    expected = Counter(frame=len(MARKS[name]), session=1, destination=1, buffer=1)
    expected += Counter(word for *_, word in WAITS[name])
    assert Counter(kind for kind, _, _ in found["groups"]) == expected
    assert all(tip and seen for _, tip, seen in found["groups"])
    assert LABELS[name] <= set(found["labels"])
    assert found["loaded"] == 0
    first, zoomed, moved = (found[at] for at in ("first", "zoomed", "moved"))
    assert zoomed[2] == pytest.approx(0.8 * first[2]) and zoomed[3] == pytest.approx(0.8 * first[3])
    assert moved[0] > zoomed[0] and moved[1:] == pytest.approx(zoomed[1:])
    assert found["released"] == pytest.approx(moved) and found["last"] == pytest.approx(first)


TWO = BASE.replace('to = ["engine"]', 'to = ["engine", "gearbox"]').replace(
    "[[path]]", '[[channel]]\nname = "gearbox"\nbus = "can1"\nrx = "64A"\ntx = "642"\n[[path]]'
)
HEAD = "report 1\nclock 1000000 1000\n"
# A message of 20 bytes to two destinations, of which the second gets no flow control for 30 ticks, and one that breaks off.
TWO_REPORT = HEAD + """session 0 0 20 0 20 3 0/0/1 whole
session 0 1 20 50 6 52 1/1/2 wrong-sn 1 3
dest 0 0 0 0 20 3 sent
dest 0 0 1 50 6 52 source-ended
dest 0 1 0 0 6 60 bs-timeout
dest 0 1 1 61 6 61 source-ended
move 1 take 0
move 2 take 1
move 3 free 0
move 4 free 1
pool 2 4 00000003
"""


def test_two_destinations(made: Callable[..., list[str]], capsys: pytest.CaptureFixture[str]) -> None:
    """Each destination has its lane, a buffer is taken up to the last end, and the reasons stand on the bars."""
    out = [(1, "641#101462F190574456"), (1, "642#101462F190574456")]
    words = made(TWO_REPORT, TWO, can0_log=[(0, "7E0#101462F190574456")], can1_out=out)
    found = run(*words)
    assert found.lanes == ["tester\n(can0)", "engine\n(can1)", "gearbox\n(can1)"]
    assert [(item.row, item.begin, item.end, item.word) for item in found.destinations] == [
        *[(1, 0, 4000, "sent"), (1, 50000, 53000, "source-ended")],
        *[(2, 0, 61000, "bs-timeout"), (2, 61000, 62000, "source-ended")],
    ]
    assert [(item.row, item.begin, item.end) for item in found.buffers] == [(0, 0, 61000), (1, 50000, 62000)]
    assert main(words) == 0
    page = Path(f"{words[1]}.html").read_text()
    for label in ("1: wrong-sn 1 3", "1: source-ended", "unit 0: bs-timeout", "tester session 1", "buffer 1"):
        assert f"{label}</text>" in page, label


def test_colours() -> None:
    """Each result has its colour."""
    assert {*SESSION_RESULTS, *DESTINATION_RESULTS} <= set(COLOURS)


def test_times(made: Callable[..., list[str]], capsys: pytest.CaptureFixture[str]) -> None:
    """A part of a run is shown by its ticks."""
    log = [(0, "7E0#023E00"), (100, "7E0#023E01")]
    out = [(1, "641#023E00"), (101, "641#023E01")]
    report = HEAD + "session 0 0 2 0 2 0 0/0/1 whole\nsession 0 1 2 100 2 100 1/0/3 whole\n"
    report += "dest 0 0 0 0 2 0 sent\ndest 0 0 1 100 2 100 sent\n"
    report += "move 1 take 0\nmove 2 free 0\nmove 3 take 0\nmove 4 free 0\npool 1 4 00000001\n"
    config, written = made(report, can0_log=log, can1_out=out)
    assert main([config, written, "--from", "50"]) == 0
    page = Path(f"{written}.html").read_text()
    assert capsys.readouterr().out == f"{written}.html has 5 marks and bars\n"
    assert "02 3E 01" in page and "02 3E 00" not in page


def test_same_file(example: Callable[[str], Path], capsys: pytest.CaptureFixture[str]) -> None:
    """One run gives one and the same file."""
    folder = example("segmented")
    for name in ("one.html", "other.html"):
        assert main([*words(folder, "segmented"), "-o", str(folder / name)]) == 0
    assert (folder / "one.html").read_bytes() == (folder / "other.html").read_bytes()


def test_without_records(made: Callable[..., list[str]], capsys: pytest.CaptureFixture[str]) -> None:
    """A run without frames gives an empty picture."""
    assert main(made("report 1\nclock 0 1000\npool 1 0 00000001\n")) == 0
    assert "has 0 marks and bars" in capsys.readouterr().out
