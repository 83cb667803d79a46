"""A portfolio of several megabytes, marked in parts side by side by GNU parallel, as examples/README.md shows it."""
from __future__ import annotations

import pathlib
import re
import shutil
import subprocess

import pytest

from support.program import PATIENCE, ROOT, needs
from support.stores import Store

BOOK = (ROOT / "examples" / "book.csv").read_bytes()
# A part has at most 1,048,576 bytes. Those that are marked one after the other are smaller.
PART = 500_000


def portfolio() -> list[str]:
    """150,000 rows over the issues of the book, with an unknown issue and rows that are none among them."""
    cusips = [line.split(",")[1] for line in BOOK.decode().splitlines() if line.startswith("issue,")] + ["000000000"]
    return [f"{cusips[row % len(cusips)]},{0 if row % 97 == 0 else 1000 * (row % 250 + 1)},"
            f"2024-{row % 12 + 1:02d}-{row % 28 + 1:02d},{row % 7}.{row % 1000:03d}\n" for row in range(150_000)]


def parts(rows: list[str]) -> list[str]:
    """The rows in texts of at most so many bytes, cut after any row."""
    found = [""]
    for row in rows:
        if len(found[-1]) + len(row) > PART:
            found.append("")
        found[-1] += row
    return found


def summed(text: str) -> tuple[list[str], int, int]:
    """The lines of marks without their places, which each part counts anew, and the totals added up, in cents."""
    lines = text.splitlines()
    totals = [line.split(",")[1:] for line in lines if line.startswith("TOTAL,")]
    return ([line.partition(",")[2] for line in lines if not line.startswith("TOTAL,")],
            sum(int(count) for count, _ in totals), sum(int(money.replace(".", "")) for _, money in totals))


def shown_command() -> str:
    """The command of examples/README.md that marks a portfolio in parts."""
    return re.search(r"^    (parallel .*(?:\n    .*)*)", (ROOT / "examples" / "README.md").read_text(), re.M)[1]


def test_parts_side_by_side_give_the_marks_of_the_whole(muni, tmp_path: pathlib.Path):
    needs("parallel")
    if not subprocess.run(["parallel", "--version"], capture_output=True).stdout.startswith(b"GNU parallel"):
        pytest.skip("parallel is not that of GNU")
    (tmp_path / "muni").symlink_to(ROOT / "muni")
    store = Store("sqlite", tmp_path / "book")
    assert muni.run("import", store.word, rows=BOOK).status == 0
    rows = portfolio()
    text = "".join(rows)
    assert len(text) > 4_000_000
    (tmp_path / "portfolio.csv").write_text(text)
    one_by_one = [muni.run("mark", store.word, rows=part) for part in parts(rows)]
    assert len(one_by_one) > 4 and {said.status for said in one_by_one} == {0}
    shutil.copy(store.path, tmp_path / "S")
    spread = subprocess.run(["bash", "-c", shown_command()], cwd=tmp_path, capture_output=True, text=True,
                            timeout=5 * PATIENCE)
    assert spread.returncode == 0, spread.stderr
    assert spread.stdout.count("TOTAL,") > 1
    lines, count, money = summed(spread.stdout)
    assert len(lines) == len(rows) and count > 0 and money > 0
    assert (lines, count, money) == summed("".join(said.text for said in one_by_one))
