"""Variants of a configuration: its tables with another value under one key, and their text."""

from __future__ import annotations

import json
import re
import tomllib
from copy import deepcopy
from dataclasses import dataclass
from pathlib import Path
from typing import Any

from .command import Refusal, text_of

Tables = dict[str, Any]

PLACE = re.compile(r"(?:([a-z]+)\[(0|[1-9][0-9]*)\]\.)?([a-z_]+)")
BARE = re.compile(r"[A-Za-z0-9_-]+")
FILE = re.compile(r"(?!\.{1,2}$)[A-Za-z0-9_.-]{1,64}")


@dataclass(frozen=True)
class Place:
    """A key, and where it stands: in an entry of the array `array`, or in the top table where that is empty."""

    array: str
    entry: int
    key: str


def place_of(word: str) -> Place:
    """The place that a word names as the program's faults do: `linger`, or `channel[0].n_cr`."""
    parts = PLACE.fullmatch(word)
    if not parts:
        raise Refusal(f"`{word}` is no key: write it as `linger` or as `channel[0].n_cr`")
    return Place(parts[1] or "", int(parts[2] or 0), parts[3])


def value_of(word: str) -> Any:
    """The value that a word spells, as it would stand in the configuration."""
    try:
        tables = tomllib.loads(f"value = {word}")
    except tomllib.TOMLDecodeError:
        tables = {}
    if set(tables) != {"value"}:
        raise Refusal(f"`{word}` is no value: write it as in the configuration, a text as '\"keep\"'")
    return tables["value"]


def read_tables(path: Path) -> Tables:
    """The tables of the configuration at `path`."""
    try:
        return tomllib.loads(text_of(path))
    except tomllib.TOMLDecodeError as fault:
        raise Refusal(f"{path} is no TOML ({fault}): see `gateway check`") from fault


def entries(tables: Tables, array: str) -> list[Tables]:
    """The entries of an array of tables; none where there is no such array."""
    found = tables.get(array)
    return [entry for entry in found if isinstance(entry, dict)] if isinstance(found, list) else []


def files(tables: Tables, key: str) -> list[str]:
    """The files that buses have under the key `log` or `out`; what can't be a file's name is left to the program."""
    named = [bus.get(key) for bus in entries(tables, "bus")]
    return [name for name in named if isinstance(name, str) and FILE.fullmatch(name)]


def changed(tables: Tables, place: Place, value: Any) -> Tables:
    """The tables with that value at that place."""
    variant = deepcopy(tables)
    entry = variant
    if place.array:
        found = entries(variant, place.array)
        if place.entry >= len(found):
            raise Refusal(f"the configuration has {len(found)} entries {place.array}, counted from 0: choose one")
        entry = found[place.entry]
    entry[place.key] = value
    return variant


def spelled(value: Any) -> str:
    """A number, a flag, a text or an array of them as TOML has it, which is as JSON has it."""
    if isinstance(value, list):
        return f"[{', '.join(map(spelled, value))}]"
    if not isinstance(value, (str, int)):
        raise Refusal(f"a configuration has no values such as {value}: see `gateway check`")
    return json.dumps(value, ensure_ascii=False)


def named(key: str) -> str:
    """A key as TOML has it, in quotes where it needs them."""
    return key if BARE.fullmatch(key) else json.dumps(key, ensure_ascii=False)


def lines(table: Tables) -> str:
    """A table's keys, a line each."""
    return "".join(f"{named(key)} = {spelled(value)}\n" for key, value in table.items())


def text_of_tables(tables: Tables) -> str:
    """A text that spells these tables: the top table's keys, and then the entries of its arrays of tables."""
    arrays = {key: entries(tables, key) for key in tables if tables[key] and tables[key] == entries(tables, key)}
    text = lines({key: value for key, value in tables.items() if key not in arrays})
    for array, found in arrays.items():
        text += "".join(f"\n[[{named(array)}]]\n{lines(entry)}" for entry in found)
    return text
