"""Rows of values as lines of text."""

from __future__ import annotations

from typing import Any


def cell(value: object, name: str) -> str:
    """A value as a table shows it: seconds with six decimals, a half tick with one, none as `-`."""
    if value is None:
        return "-"
    if name.endswith("_seconds"):
        return f"{value:.6f}"
    if isinstance(value, float) and value.is_integer():
        return str(int(value))
    return str(value)


def table(rows: list[dict[str, Any]]) -> list[str]:
    """Rows with the same keys as lines of text under their keys, columns of numbers to the right."""
    head = [key.replace("_", " ") for key in rows[0]]
    body = [[cell(value, key) for key, value in row.items()] for row in rows]
    widths = [max(map(len, column)) for column in zip(head, *body)]
    left = [any(isinstance(row[key], str) for row in rows) for key in rows[0]]
    return [
        "  ".join(
            text.ljust(width) if is_left else text.rjust(width) for text, width, is_left in zip(row, widths, left)
        ).rstrip()
        for row in [head, *body]
    ]
