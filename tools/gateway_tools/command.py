"""What the commands have in common: their words, and how they refuse."""

from __future__ import annotations

import argparse
import importlib
import os
import sys
from collections.abc import Callable, Sequence
from pathlib import Path
from typing import NoReturn


class Refusal(Exception):
    """Something that a command can't do. Its text is one line that says what is wrong and what to do."""


class Words(argparse.ArgumentParser):
    """A parser of a command's words that refuses in one line."""

    def error(self, message: str) -> NoReturn:
        """Refuse the words; `message` is argparse's own sentence."""
        raise Refusal(f"{message}; see {self.prog} --help")


def words(name: str, description: str, example: str) -> Words:
    """The parser of the command `name`, whose help ends with `example`."""
    return Words(
        prog=name,
        description=description,
        epilog=f"example:\n{example}",
        formatter_class=argparse.RawDescriptionHelpFormatter,
    )


def text_of(path: Path) -> str:
    """The text of the file at `path`."""
    try:
        return path.read_bytes().decode("utf-8")
    except OSError as fault:
        raise Refusal(f"{path} can't be read ({fault.strerror}): see that the file is there") from fault
    except UnicodeDecodeError as fault:
        raise Refusal(f"{path} is no text: see that it is the right file") from fault


def main_of(name: str) -> Callable[[Sequence[str]], int]:
    """The command `name`; it needs packages that may not be there."""
    try:
        main: Callable[[Sequence[str]], int] = importlib.import_module(f"gateway_tools.{name}").main
        return main
    except ModuleNotFoundError as fault:
        package = f"python3-{str(fault.name).partition('.')[0].replace('_', '-')}"
        raise Refusal(f"{package} isn't installed: run apt install --no-install-recommends {package}") from fault


def start(name: str) -> NoReturn:
    """Run the command `name` on the program's words and exit with its status; 2 where it refuses."""
    try:
        status = main_of(name)(sys.argv[1:])
        sys.stdout.flush()
    except Refusal as refusal:
        print(f"{name}: {refusal}", file=sys.stderr)
        status = 2
    except KeyboardInterrupt:
        status = 130
    except BrokenPipeError:
        # The reader of our output went away, as `head` does; nothing is left to say.
        os.dup2(os.open(os.devnull, os.O_WRONLY), sys.stdout.fileno())
        status = 0
    sys.exit(status)
