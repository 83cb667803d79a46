"""Lists of a desk, and the confirmations of all its trades, over stores of either kind."""
from __future__ import annotations

import random

import pytest

from support.books import Book
from support.exported import COLUMNS, Kept, book as book_of, text_of
from support.program import Said
from support.stores import ROWS
from support.tables import bytes_of, cases

NAMES = ",".join(COLUMNS) + "\n"
# By hand: docs/FORMATS.md has the confirmations.
LIST = NAMES + """\
T0001,1,LIVE,123456AA3,buy,25000,2024-04-01,yield,4.0000,0.000,100.725,4.000,2025-01-01,100.000000,MATURITY,90,\
25181.25,312.50,0.00,25493.75
T0002,1,LIVE,123456AA3,sell,10000,2024-04-01,price,100.725000,0.000,100.725,4.001,2025-01-01,100.000000,MATURITY,90,\
10072.50,125.00,0.00,10197.50
"""
UNKNOWN_ISSUE = "REFUSED 1 UnknownIssue\n"


def confirmed_of(book: Book, desk: str, reference: str) -> str:
    said = book.said("confirm", f"--desk={desk}", f"--ref={reference}")
    assert said.status == 0
    return said.text


def all_confirmed(book: Book, desk: str) -> str:
    said = book.said("confirm", f"--desk={desk}", "--all")
    assert (said.status, said.error) == (0, b"")
    return said.text


def listed(book: Book, desk: str) -> str:
    said = book.said("list", f"--desk={desk}")
    assert (said.status, said.error) == (0, b"")
    return said.text


@pytest.mark.parametrize("rows", [b"", ROWS], ids=["an empty store", "another desk"])
def test_a_desk_without_trades_has_the_names_alone_and_no_confirmation(book, rows):
    book.report(rows)
    assert listed(book, "BETA") == NAMES
    assert all_confirmed(book, "BETA") == ""


def test_a_file_of_nothing_is_an_empty_store(book):
    book.store.file.touch()
    assert book.said("list", "--desk=ALPHA") == Said(0, NAMES.encode())
    assert book.said("confirm", "--all", "--desk=ALPHA") == Said(0, b"")


def test_a_trade_has_a_line_with_its_figures(book):
    book.report(ROWS)
    assert listed(book, "ALPHA") == LIST


def test_all_confirmations_have_an_empty_line_between_two(book):
    book.report(ROWS)
    each = [confirmed_of(book, "ALPHA", reference) for reference in ("T0001", "T0002")]
    assert all_confirmed(book, "ALPHA") == "\n".join(each)
    assert book.muni.run("confirm", "--all", "--desk=ALPHA", book.store.word).text == "\n".join(each)


def test_each_trade_of_a_large_book_is_listed_and_confirmed(book):
    rows, kept = book_of(random.Random(2), 12, 60), Kept()
    kept.take(rows, book.report(text_of(rows)))
    assert len(kept.desks) == 3
    for desk in kept.desks:
        each = {reference: confirmed_of(book, desk, reference) for reference, _ in kept.trades(desk)}
        assert all_confirmed(book, desk) == "\n".join(each.values())
        assert listed(book, desk).encode() == kept.listing(desk, each)


def test_a_list_has_each_act_side_kind_and_basis(book):
    """Of the book of the table of confirmations, whose answers were computed with exact fractions."""
    for case in cases("confirmations"):
        book.store.remove()
        book.report(bytes_of(case.base))
        words, _, _, shown = case.parts
        desk, reference = (word.partition("=")[2] for word in words.split()[2:])
        confirmations = all_confirmed(book, desk).split("\n\n")
        assert bytes_of(shown).decode().rstrip("\n") in [each.rstrip("\n") for each in confirmations]
        assert f"\n{reference}," in listed(book, desk)


def test_the_last_version_counts_also_if_it_is_a_cancel(book):
    book.report(ROWS + b"correct,ALPHA,T0002,2,123456AA3,buy,7,2024-04-01,price,100.725,0.5\ncancel,ALPHA,T0001,2\n")
    lines = listed(book, "ALPHA").splitlines()[1:]
    assert [line.split(",")[:6] for line in lines] == [
        ["T0001", "2", "CANCELED", "123456AA3", "buy", "25000"], ["T0002", "2", "LIVE", "123456AA3", "buy", "7"]]
    heads = [line for line in all_confirmed(book, "ALPHA").splitlines() if "CONFIRMATION" in line]
    assert heads == ["CANCELED CONFIRMATION 2", "CORRECTED CONFIRMATION 2"]


def test_a_trade_whose_issue_is_missing_has_the_refusal_in_its_place(database):
    """As only a store that was changed by hand has it. The line of a list needs no issue."""
    database.report(ROWS + b"issue,990000010,ZERO,zero,2020-01-01,,2030-01-01,,\n"
                    b"trade,ALPHA,T0001A,990000010,buy,25000,2024-04-01,yield,4\n")
    before = listed(database, "ALPHA")
    each = [confirmed_of(database, "ALPHA", reference) for reference in ("T0001", "T0002")]
    database.sql("DELETE FROM issues_3 WHERE cusip = '990000010'")
    assert all_confirmed(database, "ALPHA") == "\n".join([each[0], UNKNOWN_ISSUE, each[1]])
    assert listed(database, "ALPHA") == before
