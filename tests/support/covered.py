"""What the tests run of the client in Python and of the scripts of the page, of which no line is proved."""
from __future__ import annotations

import io
import json
import os
import pathlib
import shutil
import sys
import tempfile
from typing import Any, NamedTuple
from uuid import uuid4

from support.program import ROOT

CLIENT, WEB = ROOT / "clients/python/src/muni", ROOT / "web"
FOLDER = "MUNI_COVERAGE"


class Script(NamedTuple):
    """A script of the page: its functions, its lines of code, and of both those that ran."""

    name: str
    functions: set[str]
    called: set[str]
    lines: set[int]
    run: set[int]


def begin() -> Any:
    """Counts lines of the client from now on, if `--coverage` is given, and leaves a folder for what is counted.

    Workers find the folder in their environment. It is begun before the client is imported.
    """
    if "--coverage" not in sys.argv and FOLDER not in os.environ:
        return None
    import coverage
    os.environ.setdefault(FOLDER, tempfile.mkdtemp())
    counter = coverage.Coverage(data_file=f"{os.environ[FOLDER]}/client", data_suffix=True, branch=True,
                                source=[str(CLIENT)], config_file=False)
    counter.start()
    return counter


def keep(taken: list[dict[str, Any]]) -> None:
    """Keeps what a window has counted of the scripts of the page."""
    ours = [each for each in taken if "/page/" in each["url"]]
    if ours:
        pathlib.Path(os.environ[FOLDER], f"page-{uuid4().hex}.json").write_text(json.dumps(ours))


def client_figures() -> str:
    """The table of the client's lines and branches."""
    import coverage
    table = io.StringIO()
    counter = coverage.Coverage(data_file=f"{os.environ[FOLDER]}/client", branch=True, config_file=False)
    try:
        counter.combine([os.environ[FOLDER]])
        counter.report(show_missing=True, file=table)
    except coverage.CoverageException as error:
        return f"of the client: {error}\n"
    return table.getvalue()


def scripts() -> list[Script]:
    """The scripts of the page with what all windows have counted."""
    taken: list[dict[str, Any]] = []
    for file in pathlib.Path(os.environ[FOLDER]).glob("page-*.json"):
        taken += json.loads(file.read_text())
    if not taken:
        return []
    return [script(file, [each for each in taken if each["url"].endswith(f"/page/{file.name}")])
            for file in sorted(WEB.glob("*.js"))]


def script(file: pathlib.Path, taken: list[dict[str, Any]]) -> Script:
    text = file.read_text()
    run = bytearray(len(text))
    functions: set[str] = set()
    called: set[str] = set()
    for each in taken:
        counted = bytearray(len(text))
        for function in each["functions"]:
            first = function["ranges"][0]
            place = f"{function['functionName']} at {first['startOffset']}"
            functions.add(place)
            called |= {place} if first["count"] else set()
            # A range within another one comes after it.
            for part in function["ranges"]:
                begin, end = part["startOffset"], part["endOffset"]
                counted[begin:end] = bytes([part["count"] > 0]) * (min(end, len(text)) - begin)
        run = bytearray(one | other for one, other in zip(run, counted))
    lines: set[int] = set()
    ran: set[int] = set()
    offset = 0
    for number, line in enumerate(text.split("\n"), 1):
        code = line.strip()
        if code and not code.startswith("//") and any(sign.isalnum() for sign in code):
            lines.add(number)
            begin = offset + len(line) - len(line.lstrip())
            if all(run[begin:begin + len(code)]):
                ran.add(number)
        offset += len(line) + 1
    return Script(file.name, functions, called, lines, ran)


def spans(numbers: list[int]) -> str:
    """Numbers in order, as `3-5, 9`."""
    found: list[list[int]] = []
    for number in numbers:
        if found and found[-1][1] == number - 1:
            found[-1][1] = number
        else:
            found.append([number, number])
    return ", ".join(f"{first}-{last}" if first < last else f"{first}" for first, last in found)


def row(name: str, found: list[Script], missed: str = "") -> str:
    calls = f"{sum(len(each.called) for each in found)} of {sum(len(each.functions) for each in found)}"
    lines = f"{sum(len(each.run) for each in found)} of {sum(len(each.lines) for each in found)}"
    return f"{name:20} {calls:>12} {lines:>12}   {missed}".rstrip() + "\n"


def page_figures() -> str:
    """A line for each script of the page. A line of it counts as run if all of it ran in some window."""
    found = scripts()
    if not found:
        return ""
    head = f"{'script of the page':20} {'functions':>12} {'lines':>12}   lines that did not run in full\n"
    rows = [row(each.name, [each], spans(sorted(each.lines - each.run))) for each in found]
    return "".join([head, *rows, row("all", found)])


def figures() -> str:
    """The figures of the client and of the page, after which what was counted is taken away."""
    told = f"\n{client_figures()}\n{page_figures()}"
    shutil.rmtree(os.environ[FOLDER])
    return told
