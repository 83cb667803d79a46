"""What a journal keeps of an issue that was amended, and of versions by its terms: by its bytes."""
from __future__ import annotations

import pytest

from support.books import ISSUE, Book, trade
from support.program import Said
from support.slots import Terms, bodies, four, slots
from support.stores import Store

REFUSED = Said(6, b"")
MARK = "123456AA3,1000,2024-04-01,4\n"
DAYS = ("2020-01-01", "2020-07-01", "2025-01-01")
FIRST = Terms("123456AA3", "RIVERTON WATER 5S 2025", DAYS, 50_000_000, "")
SECOND = FIRST._replace(coupon=45_000_000, calls="2024-07-01:101.000000")
THIRD = SECOND._replace(calls="2024-07-01:101.000000+")
TERMS = "RIVERTON WATER 5S 2025,periodic,2020-01-01,2020-07-01,2025-01-01"
AMENDED = f"amend,123456AA3,2,{TERMS},4.5,2024-07-01:101\n"
AMENDED_AGAIN = f"amend,123456AA3,3,{TERMS},4.5,2024-07-01:101+\n"
BY_THE_FIRST = trade("T0003").rstrip("\n") + ",,1\n"
ROWS = ISSUE + trade("T0001") + AMENDED + trade("T0002") + BY_THE_FIRST + AMENDED_AGAIN


def kept(book: Book) -> list[bytes]:
    return list(bodies(book.store.file.read_bytes()))


def test_later_terms_and_versions_by_them_are_records_of_their_own_kinds(journal):
    """The first terms, and a version by them, have no byte more than before."""
    journal.report(ROWS)
    found = kept(journal)
    assert [body[0] for body in found] == [1, 2, 4, 5, 2, 4]
    assert [found[0], found[2], found[5]] == [FIRST.body(1), SECOND.body(2), THIRD.body(3)]
    assert [len(found[place]) for place in (1, 3, 4)] == [102, 106, 102]


def test_a_version_by_later_terms_is_as_by_the_same_as_first_ones(journal, tmp_path):
    journal.report(ROWS)
    other = Book(journal.muni, Store("journal", tmp_path / "other"))
    other.report(AMENDED.replace("amend,123456AA3,2,", "issue,123456AA3,") + trade("T0002"))
    assert kept(journal)[3] == b"\5" + four(2) + kept(other)[1][1:]


def test_rows_that_are_sent_again_put_nothing(journal):
    report = journal.report(ROWS)
    data = journal.store.file.read_bytes()
    assert journal.report(ROWS) == report
    assert journal.store.file.read_bytes() == data


def test_a_trade_is_confirmed_by_the_terms_that_were_kept_then(journal):
    journal.report(ISSUE + trade("T0001"))
    confirmed = journal.confirmed("T0001")
    journal.report(AMENDED + AMENDED_AGAIN + trade("T0002"))
    assert journal.confirmed("T0001") == confirmed
    assert journal.confirmed("T0002").text != confirmed.text.replace("T0001", "T0002")


def test_the_last_terms_are_those_by_which_a_row_is_marked(journal, tmp_path):
    other = Book(journal.muni, Store("journal", tmp_path / "other"))
    for book, found in (journal, [FIRST.body(1), SECOND.body(2), THIRD.body(3)]), (other, [THIRD.body(1)]):
        book.store.file.write_bytes(slots(found))
    assert journal.said("mark", rows=MARK).text.startswith("1,marked,123456AA3,")
    assert journal.said("mark", rows=MARK) == other.said("mark", rows=MARK)


@pytest.mark.parametrize("found", [
    pytest.param([SECOND.body(2)], id="an amendment of no issue"),
    pytest.param([FIRST.body(1), FIRST.body(1)], id="first terms twice"),
    pytest.param([FIRST.body(1), SECOND.body(3)], id="a number left out"),
    pytest.param([FIRST.body(1), SECOND.body(2), THIRD.body(2)], id="a number twice"),
    pytest.param([FIRST.body(1), SECOND.body(0)], id="a number of 0"),
    pytest.param([b"\4" + four(1) + FIRST.written(True)], id="first terms by a 4"),
    pytest.param([FIRST.body(1), b"\4" + four(2) + SECOND.written(False)], id="no marks"),
    pytest.param([FIRST.body(1), SECOND.body(2) + b"\0"], id="a byte more"),
    pytest.param([FIRST.body(1), SECOND.body(2)[:-1]], id="a byte less"),
    pytest.param([FIRST.body(1), b"\6" + SECOND.body(2)[1:]], id="a record of kind 6"),
])
def test_a_journal_with_terms_that_are_none_is_refused(journal, found):
    data = slots(found)
    journal.store.file.write_bytes(data)
    assert journal.said("mark", rows=MARK) == REFUSED
    assert journal.said("import", rows=ROWS) == REFUSED
    assert journal.store.file.read_bytes() == data


@pytest.mark.parametrize(("kind", "more"), [(b"\5" + four(1), b""), (b"\5" + four(2), b"\0"), (b"\5", b"")],
                         ids=["first terms by a 5", "a byte more", "no number"])
def test_a_journal_with_a_version_of_another_form_is_refused(journal, kind, more):
    journal.report(ISSUE + AMENDED + trade("T0001"))
    *terms, version = kept(journal)
    assert version[:5] == b"\5" + four(2)
    data = slots([*terms, kind + version[5:] + more])
    journal.store.file.write_bytes(data)
    assert journal.confirmed("T0001") == REFUSED
    assert journal.store.file.read_bytes() == data
