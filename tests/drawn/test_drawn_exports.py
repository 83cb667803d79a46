"""Books that are drawn at random: what their exports, lists, confirmations and checks have, and that an export moves a
book to a store of the other kind and back."""
from __future__ import annotations

import pathlib
import random

import pytest
from hypothesis import event, given, settings
from hypothesis import strategies as st

from support.books import TAKEN, Book
from support.exported import PLAIN_NAMES, Kept, Row, book as book_of, text_of
from support.program import Program, Said
from support.reference import Reference
from support.stores import KINDS, Store, empty_folder

# No issue is kept whose name has a line end.
NAMES = PLAIN_NAMES * 20 + "\n\r"
DESKS = ("ALPHA", "ALPHA2", "9Z", "NONE")
EXPORTS = [("export",), ("export", "--issues"), *(("export", f"--desk={desk}") for desk in DESKS)]
LOOKS = [("check-store",), *(words for desk in DESKS for words in (("list", f"--desk={desk}"),
                                                                   ("confirm", f"--desk={desk}", "--all")))]
BOOKS = settings(max_examples=max(1, settings.default.max_examples // 4))


def drawn(issues: int, trades: int) -> st.SearchStrategy[list[Row]]:
    """The rows of a book with at most so many issues and trades, by a seed, since there are too many to draw each."""
    return st.builds(lambda seed, few, some: book_of(random.Random(seed), few, some, NAMES),
                     st.integers(0, 2**32), st.integers(1, issues), st.integers(0, trades))


def begun(muni: Program, kind: str, folder: str, name: str) -> Book:
    return Book(muni, Store(kind, pathlib.Path(folder, name)))


def kept_by(book: Book, rows: list[Row], end: str = "\n") -> Kept:
    kept = Kept()
    kept.take(rows, book.report(text_of(rows, end)))
    return kept


@BOOKS
@given(drawn(12, 40), st.sampled_from(["\n", "\r\n", "\r"]))
def test_an_export_moves_a_book_to_a_journal_and_back(muni, rows, end):
    with empty_folder() as folder:
        first, journal, last = (begun(muni, kind, folder, name) for kind, name in (
            ("sqlite", "first"), ("journal", "journal"), ("sqlite", "last")))
        wanted = Said(0, kept_by(first, rows, end).export())
        assert first.said("export") == wanted
        for book in (journal, last):
            came = [line.split(b",")[1] for line in book.report(wanted.output).splitlines()]
            assert set(came) <= set(TAKEN) and len(came) == wanted.output.count(b"\n")
            assert book.said("export") == wanted
        if wanted.output:
            for table in ("issues_3", "versions_3"):
                # The first columns are the key.
                statement = f"SELECT * FROM {table} ORDER BY 1, 2, 3"
                assert last.sql(statement) == first.sql(statement)


@pytest.mark.parametrize("kind", KINDS)
@BOOKS
@given(drawn(12, 40))
def test_exports_of_desks_have_what_was_put_in_and_make_the_whole(muni, kind, rows):
    with empty_folder() as folder:
        book, merged = begun(muni, kind, folder, "book"), begun(muni, kind, folder, "merged")
        kept = kept_by(book, rows)
        assert book.said("export", "--issues") == Said(0, kept.export(is_issues=True))
        for desk in DESKS:
            said = book.said("export", f"--desk={desk}")
            assert said == Said(0, kept.export(desk))
            merged.report(said.output)
        merged.report(kept.export(is_issues=True))
        assert merged.said("export") == book.said("export")


@pytest.mark.parametrize("kind", KINDS)
@BOOKS
@given(drawn(6, 10))
def test_exports_lists_and_confirmations_are_those_of_an_exact_calculator(muni, kind, rows):
    right = Reference()
    with empty_folder() as folder:
        book = begun(muni, kind, folder, "book")
        wanted, report = right.imported(text_of(rows)), book.said("import", rows=text_of(rows))
        # What is kept is in doubt if the rule leaves a figure undecided.
        if not right.is_sure:
            event("a figure is in doubt")
            return
        assert report == Said(*wanted)
        for command, *words in EXPORTS + LOOKS:
            assert book.said(command, *words) == Said(*right.ran(command, *words))
