"""The commands that a page of the documents shows, and what it shows that they write.

- A block of code whose first line begins with a word of TOOLS: each line is a command, and a line that ends in a
  backslash goes on. The block of code that follows, with nothing but blank lines between, is what the block writes. A
  block that no other follows is run for its status, 0 or 3. A block that ends in `&` goes on beside those after it.
- In a block whose first line begins with `$ ` the lines without `$ ` are what the command above them writes.
- In a table whose first column is headed "words after `./muni`", the words of each row. Under a second column headed
  `line` stands all that they write, and under `a line` one line of it.
"""
from __future__ import annotations

import re
from collections.abc import Iterator
from typing import NamedTuple

TOOLS = ("./muni", "curl", "sqlite3", "cat", "printf", "kill", "wait", "cp", "mv", "mkdir", "rm", "deploy/backup",
         "conformance/calculate")


class Step(NamedTuple):
    """A command of a page, what is shown of its output, and whether that is one line of it."""

    command: str
    shown: str | None = None
    is_a_line: bool = False

    def is_right(self, status: int, output: str) -> bool:
        if self.shown is None:
            return status in (0, 3)
        if self.is_a_line:
            return self.shown in output.splitlines(keepends=True)
        return output == self.shown


class Piece(NamedTuple):
    """A piece of a page: its lines of code, its rows of a table, or text."""

    kind: str
    lines: list[str]


def tour(page: str) -> str:
    """The section `A tour` of a page that has one, else the whole page."""
    found = re.search(r"^## A tour\n(.*?)(?=^## |\Z)", page, re.M | re.S)
    return found[1] if found else page


def pieces(page: str) -> list[Piece]:
    found: list[Piece] = []
    is_fenced, was_blank = False, True
    for line in page.split("\n"):
        if line.startswith("```"):
            is_fenced = not is_fenced
            if is_fenced:
                found.append(Piece("code", []))
            continue
        kind = kind_of(line, is_fenced)
        if kind is not None:
            text = line[4:] if kind == "code" and not is_fenced else line
            goes_on = bool(found) and found[-1].kind == kind and kind != "text" and not was_blank
            if is_fenced or goes_on:
                found[-1].lines.append(text)
            else:
                found.append(Piece(kind, [text]))
        was_blank = kind is None
    return found


def kind_of(line: str, is_fenced: bool) -> str | None:
    """What a line belongs to, or None if it is blank."""
    if is_fenced or line.startswith("    "):
        return "code"
    if line.startswith("|"):
        return "table"
    return "text" if line.strip() else None


def is_command(piece: Piece) -> bool:
    return piece.kind == "code" and bool(piece.lines) and piece.lines[0].split(" ")[0] in TOOLS


def steps(page: str) -> Iterator[Step]:
    """The commands of a page, in its order."""
    found = pieces(tour(page))
    for piece, after in zip(found, [*found[1:], Piece("text", [])]):
        if piece.kind == "table":
            yield from steps_of_table(piece.lines)
        elif piece.kind == "code" and piece.lines and piece.lines[0].startswith("$ "):
            yield from prompted(piece.lines)
        elif is_command(piece):
            is_output = after.kind == "code" and not is_command(after)
            yield Step("\n".join(piece.lines), "\n".join([*after.lines, ""]) if is_output else None)


def prompted(lines: list[str]) -> Iterator[Step]:
    command, output = "", ""
    for line in lines:
        if command.endswith("\\"):
            command += "\n" + line
        elif line.startswith("$ "):
            if command:
                yield Step(command, output)
            command, output = line[2:], ""
        else:
            output += line + "\n"
    yield Step(command, output)


def steps_of_table(lines: list[str]) -> Iterator[Step]:
    rows = [[cell.strip() for cell in line.strip("|").split("|")] for line in lines]
    if rows[0][0] == "words after `./muni`" and rows[0][1] in ("line", "a line"):
        for words, line, *_ in rows[2:]:
            yield Step("./muni " + words.strip("`"), line.strip("`") + "\n", rows[0][1] == "a line")
