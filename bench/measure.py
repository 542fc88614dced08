#!/usr/bin/env python3
"""Runs a command three times and prints the least seconds and the greatest peak memory in KiB.

usage: measure.py SAID COMMAND WORD..

SAID is the file that gets what the command says. A command that exits with another status than 0 ends the measuring. The
peak is the one that the system tells of the command as it ends; it is never below what Python itself held as it started
the command, about 10,000 KiB.
"""

import os
import sys
import time

RUNS = 3


def run(said, command):
    """One run of the command: its seconds and its peak memory."""
    with open(said, "wb") as output:
        begin = time.perf_counter()
        child = os.posix_spawnp(command[0], command, os.environ, file_actions=[(os.POSIX_SPAWN_DUP2, output.fileno(), 1)])
        _, ended, usage = os.wait4(child, 0)
        seconds = time.perf_counter() - begin
    status = os.waitstatus_to_exitcode(ended)
    if status != 0:
        with open(said, encoding="utf-8", errors="replace") as output:
            sys.exit(f"measure.py: {' '.join(command)} exits with {status} and says: {output.read()}")
    return seconds, usage.ru_maxrss


def main():
    if len(sys.argv) < 3:
        sys.exit("usage: measure.py SAID COMMAND WORD..")
    runs = [run(sys.argv[1], sys.argv[2:]) for _ in range(RUNS)]
    print(f"{min(seconds for seconds, _ in runs):.6f} {max(peak for _, peak in runs)}")


main()
