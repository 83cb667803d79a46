"""Books of desks that are drawn at random: imports, amendments of issues among them, and the positions, confirmations,
marks and exports of what they keep. A store of sqlite and a journal answer the same, and an exact calculator does too."""
from __future__ import annotations

import pathlib
from typing import NamedTuple

import pytest
from hypothesis import event, given, settings
from hypothesis import strategies as st

from support.books import Book
from support.drawn import CUSIPS, Draw, any_of, day, fields_of_row, one_in, spoil_row, whole
from support.program import Program, Said
from support.reference import Reference
from support.stores import KINDS, Store, empty_folder

DESKS = ["ALPHA", "BETA", "GAMMA"]
# Some books take as long as a hundred texts.
BOOKS = settings(max_examples=max(1, settings.default.max_examples * 2 // 5))


class Step(NamedTuple):
    """A command of a book, its words after the store, and the rows that it reads."""

    command: str
    words: list[str]
    rows: list[bytes]

    @property
    def text(self) -> bytes:
        return b"".join(self.rows)


def line(draw: Draw, fields: list[bytes]) -> bytes:
    """A row as text, of which one field may have quotes that it does not need."""
    quoted = draw(whole(0, 39))
    texts = [b'"' + field.replace(b'"', b'""') + b'"' if place == quoted or any(byte in field for byte in b',"\r\n')
             else field for place, field in enumerate(fields)]
    return b",".join(texts) + draw(any_of(b"\n", b"\n", b"\n", b"\r\n", b"\r", b"\n\n"))


@st.composite
def imported_row(draw: Draw) -> bytes:
    """A row of an import, which may not read."""
    fields = fields_of_row(draw)
    if draw(one_in(20)):
        spoil_row(draw, fields)
    return line(draw, fields)


@st.composite
def one_row_more(draw: Draw) -> list[bytes]:
    """A row, or none at the end of an import."""
    return [] if draw(one_in(60)) else [draw(imported_row())]


@st.composite
def many_rows(draw: Draw) -> list[bytes]:
    """The rows of an import, tens of them or more, of which any can be left out when a book is shrunk."""
    rows: list[bytes] = []
    while len(rows) < 150 and (more := draw(one_row_more())):
        rows += more
    return rows


@st.composite
def marked_row(draw: Draw) -> bytes:
    """A row of a portfolio, which may not read."""
    settle = day(draw) if draw(one_in(3)) else b"%d-%02d-15" % (draw(whole(2019, 2026)), draw(whole(1, 12)))
    fields = [draw(st.sampled_from(CUSIPS)), b"%d" % draw(any_of(1, 5000, 25000, 1000000000)), settle,
              b"%d.%d" % (draw(whole(0, 9)), draw(whole(0, 999)))]
    if draw(one_in(10)):
        spoil_row(draw, fields)
    return line(draw, fields)


# What each book is asked at its end.
ENDING = [*(Step(command, [f"--desk={desk}", *words], []) for desk in DESKS
            for command, *words in (("positions",), ("confirm", "--all"))),
          Step("export", [], []), Step("check-store", [], [])]

desks = st.sampled_from(DESKS)
# How many trades a desk may have. A book has up to 30 in each of two desks.
limits = st.sampled_from([[], [], [], ["--desk-limit=1"], ["--desk-limit=4"], ["--desk-limit=12"]])
imports = st.builds(lambda desk, limit, rows: Step("import", [f"--positions={desk}", *limit], rows), desks, limits,
                    many_rows())
looks = st.one_of(
    st.builds(lambda desk: Step("positions", [f"--desk={desk}"], []), desks),
    st.builds(lambda desk, number: Step("confirm", [f"--desk={desk}", f"--ref=T{number}"], []), desks, whole(1, 6)),
    st.builds(lambda rows: Step("mark", [], rows), st.lists(marked_row(), max_size=30)))
books = st.builds(lambda first, rest: [first, *rest], imports,
                  st.lists(st.one_of(imports, looks, looks, looks), max_size=8))


def begun(muni: Program, kind: str, folder: str) -> Book:
    return Book(muni, Store(kind, pathlib.Path(folder, "book")))


@BOOKS
@given(books)
def test_a_journal_answers_a_book_as_sqlite_does(muni, steps):
    with empty_folder() as folder:
        database, journal = (begun(muni, kind, folder) for kind in KINDS)
        for step in steps + ENDING:
            said = database.said(step.command, *step.words, rows=step.text)
            assert journal.said(step.command, *step.words, rows=step.text) == said
            if step.command == "import":
                desk = step.words[0].partition("=")[2]
                listed = database.said("positions", f"--desk={desk}")
                assert said.status == 0 and listed.status == 0 and said.output.endswith(listed.output)


@pytest.mark.parametrize("kind", KINDS)
@BOOKS
@given(books)
def test_the_answers_of_a_book_are_exact(muni, kind, steps):
    right = Reference()
    with empty_folder() as folder:
        book = begun(muni, kind, folder)
        for step in steps + ENDING:
            wanted = right.ran(step.command, *step.words, rows=step.text)
            said = book.said(step.command, *step.words, rows=step.text)
            # What is kept is in doubt from the first figure on that the rule leaves undecided.
            if not right.is_sure:
                event("a figure is in doubt")
                break
            assert said == Said(*wanted)


@pytest.mark.parametrize("kind", KINDS)
@BOOKS
@given(st.lists(imported_row(), min_size=5, max_size=30), st.lists(marked_row(), max_size=30),
       st.lists(marked_row(), max_size=30))
def test_the_marks_of_two_parts_are_those_of_the_whole(muni, kind, rows, first, second):
    with empty_folder() as folder:
        book = begun(muni, kind, folder)
        book.report(b"".join(rows))
        marks = [marks_of(book, b"".join(part)) for part in (first, second, first + second)]
    assert marks[0] + marks[1] == marks[2]


def marks_of(book: Book, text: bytes) -> list[bytes]:
    """The lines of marks without their places and the total."""
    said = book.said("mark", rows=text)
    assert said.status == 0
    return [each.split(b",", 1)[1] for each in said.output.splitlines()[:-1]]
