#!/usr/bin/env python3
"""Runs the gate and prints the processor time of each crate: for the crate itself, for its tests and for its edits.

usage: bench/gate.py [COMMAND WORD..]     from the repository's top

COMMAND is `rt ci` where none is given. What the command says goes to standard error, the table to standard output, in
minutes. The prover's processes are looked at four times a second by what the system tells of them under /proc, so a
process that lived shorter isn't seen, and of each other one up to the last quarter of a second is missing. Linux alone.
"""

import os
import subprocess
import sys
import threading
import time

PAUSE = 0.25
TICKS = os.sysconf("SC_CLK_TCK")
PARTS = ("crate", "tests", "edits")


def words_of(process):
    """The words that a process was called with."""
    with open(f"/proc/{process}/cmdline", "rb") as file:
        return file.read().decode(errors="replace").split("\0")


def part_of(process, words):
    """Which part of the gate the prover's process works on."""
    if "rt-edit-" in os.readlink(f"/proc/{process}/cwd"):
        return "edits"
    return "tests" if "--test" in words else "crate"


def seconds_of(process):
    """The processor seconds that a process has taken so far, and when it began."""
    with open(f"/proc/{process}/stat", encoding="utf-8", errors="replace") as file:
        fields = file.read().rpartition(")")[2].split()
    return (int(fields[11]) + int(fields[12])) / TICKS, fields[19]


def look(seen):
    """Notes the processor seconds of each of the prover's processes: by the process and its beginning."""
    for process in filter(str.isdigit, os.listdir("/proc")):
        try:
            words = words_of(process)
            if not words[0].endswith("rattle") or "--crate-name" not in words:
                continue
            crate = words[words.index("--crate-name") + 1]
            seconds, begin = seconds_of(process)
            seen[process, begin] = (crate, part_of(process, words), seconds)
        except (OSError, ValueError, IndexError):
            # The process has ended since.
            continue


def watch(seen, ended):
    """Looks at the prover's processes until the gate has ended."""
    while not ended.wait(PAUSE):
        look(seen)


def table_of(seen):
    """The minutes by crate and part."""
    table = {}
    for crate, part, seconds in seen.values():
        row = table.setdefault(crate, dict.fromkeys(PARTS, 0.0))
        row[part] += seconds / 60
    return table


def print_table(table):
    """Prints the table, the dearest crate first, and the sums last."""
    print("| crate | itself | tests | edits | together |")
    print("|---|---|---|---|---|")
    rows = sorted(table.items(), key=lambda row: -sum(row[1].values()))
    whole = {part: sum(row[part] for _, row in rows) for part in PARTS}
    for crate, row in [*rows, ("all", whole)]:
        cells = [f"{row[part]:.1f}" for part in PARTS]
        print(f"| {crate} | {' | '.join(cells)} | {sum(row.values()):.1f} |")


def main():
    command = sys.argv[1:] or ["rt", "ci"]
    seen, ended = {}, threading.Event()
    begin = time.monotonic()
    watching = threading.Thread(target=watch, args=(seen, ended))
    watching.start()
    status = subprocess.run(command, stdout=sys.stderr, check=False).returncode
    ended.set()
    watching.join()
    print_table(table_of(seen))
    print(f"\n{' '.join(command)}: status {status}, {(time.monotonic() - begin) / 60:.1f} minutes on {os.cpu_count()} cores")
    sys.exit(status)


main()
