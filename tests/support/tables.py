"""Reads the tables of outside values in tables/, whose format tables/README.md gives."""
from __future__ import annotations

import re
from typing import NamedTuple

from support.program import ROOT

TABLES = ROOT / "tables"


class Case(NamedTuple):
    """A line of a table: its place in the file, the base that it stands on, and its parts."""

    line: int
    base: str
    parts: list[str]


def cases(name: str) -> list[Case]:
    """The cases of a table, which has so many parts a line as each of its lines has bars, and one more."""
    found = []
    base = ""
    for place, line in enumerate((TABLES / name).read_text().split("\n"), 1):
        if line == "base" or line.startswith("base "):
            base = line[5:]
        elif line and line != "#" and not line.startswith("# "):
            found.append(Case(place, base, line.split("|")))
    return found


def bytes_of(text: str) -> bytes:
    """The bytes that a text of a table stands for: `~` is LF, `^` CR, and `<ef>` the byte with that number."""
    data = text.replace("~", "\n").replace("^", "\r").encode()
    return re.sub(rb"<([0-9a-f]{2})>", lambda found: bytes([int(found[1], 16)]), data)
