"""Figures of another firm in inputs of any length: what is said of the last row, and how much memory that takes."""
from __future__ import annotations

import hashlib
import random
import subprocess
from collections import Counter
from collections.abc import Iterator

import pytest

from support.books import Book, trades
from support.checked import ASKED, STATED, issues, rows, text_of
from support.exported import text_of as text_of_rows
from support.program import PATIENCE, ROOT, Program
from support.stores import KINDS, Store
from support.valued import Run, run_over

pytestmark = pytest.mark.xdist_group("many checks")

# A row more than other programs' sheets have.
FEW, MANY = 10_000, 1_048_577
# In KB. A store of SQLite takes some 2,000 of them.
MOST_MEMORY, MORE = 6_144, 512
STREET = (ROOT / "examples/street.csv").read_bytes()
ISSUES = issues(random.Random(4), 64)
OF_ISSUES = text_of([*ASKED, *STATED], rows(random.Random(5), ISSUES, 40))
# Of trades that are kept, each with a row, of which two are wrong and one states nothing, and of one that is not.
OF_TRADES = b"reference,par,price\nT00000,,100.725\nT00001,2500,100.725\nT00002,,1\nNONE,,\nT00003,,\n"


def repeated(text: bytes, count: int) -> Iterator[bytes]:
    """A file with so many rows, which are those of a text over and over."""
    names, *lines = text.splitlines(keepends=True)
    yield names
    for _ in range(count // len(lines)):
        yield b"".join(lines)
    yield b"".join(lines[:count % len(lines)])


def digest_of(turns: list[list[bytes]], count: int) -> str:
    """The checksum of what has to be written on so many rows, by what is said in their first turn and in each other."""
    digest, counts = hashlib.sha256(), Counter()
    for first in range(0, count, len(turns[0])):
        some = turns[first > 0][:count - first]
        digest.update(b"".join(b"%d,%s\n" % (first + place, each) for place, each in enumerate(some, 1)))
        counts.update(each.split(b",")[0] for each in some)
    told = [counts[word] for word in (b"right", b"differs", b"missing", b"again", b"nothing")]
    digest.update(b"TOTAL,%d,%d,%d,%d,%d,%d\n" % (count, *told))
    return digest.hexdigest()


def checked(muni: Program, words: list[str], text: bytes, count: int) -> Run:
    """How a check of so many rows ends."""
    process = muni.start("check", *words, stdin=subprocess.PIPE, stdout=subprocess.PIPE)
    return run_over(process, repeated(text, count), 10 * PATIENCE)


def turns_of(report: bytes) -> list[list[bytes]]:
    """What is said in the two turns of a report on a text that came twice."""
    said = [line.partition(b",")[2] for line in report.splitlines()[:-1]]
    return [said[:len(said) // 2], said[len(said) // 2:]]


def are_right_and_flat(muni: Program, words: list[str], text: bytes) -> bool:
    """Whether few rows and many have the lines of two turns over and over, in about the same memory."""
    count = 2 * (len(text.splitlines()) - 1)
    report = muni.run("check", *words, rows=b"".join(repeated(text, count)))
    assert report.status == 3
    few, many = (checked(muni, words, text, count) for count in (FEW, MANY))
    assert [few[:2], many[:2]] == [(3, digest_of(turns_of(report.output), count)) for count in (FEW, MANY)]
    assert many.memory < MOST_MEMORY
    return many.memory < few.memory + MORE


def test_many_rows_with_their_terms_are_checked_in_flat_memory(muni):
    assert muni.run("check", rows=STREET).output == (ROOT / "examples/street.report").read_bytes()
    assert are_right_and_flat(muni, [], STREET)


@pytest.fixture(scope="module", params=KINDS)
def kept(request, muni, tmp_path_factory) -> Book:
    """A store that has the issues, and trades of ALPHA."""
    found = Book(muni, Store(request.param, tmp_path_factory.mktemp("checks") / "store"))
    assert found.said("load", rows=text_of_rows(ISSUES)).status == 0
    assert found.said("load", rows=trades(4)).status == 0
    return found


@pytest.mark.parametrize("way", ["of issues", "of a desk"])
def test_many_rows_over_a_store_are_checked_in_flat_memory(kept, way):
    """Of a desk the references that came are held, each once: all later rows of them came again."""
    words, text = ([], OF_ISSUES) if way == "of issues" else (["--desk=ALPHA"], OF_TRADES)
    assert are_right_and_flat(kept.muni, [kept.store.word, *words], text)


def test_a_desk_holds_each_reference_that_comes(kept):
    """Their trades are missing: no more than 100 bytes for each and its place, whose text has eight."""
    words = ["--desk=ALPHA", kept.store.word]
    few, many = (run_over(kept.muni.start("check", *words, stdin=subprocess.PIPE, stdout=subprocess.PIPE),
                          [b"reference\n", b"".join(b"M%07d\n" % place for place in range(count))])
                 for count in (1_000, 100_000))
    assert (few.status, many.status) == (3, 3)
    assert 8 * 100_000 < 1024 * (many.memory - few.memory) < 100 * 100_000
