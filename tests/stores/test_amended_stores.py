"""Stores whose issues are amended: killed and failing at each call of the system, and one of an earlier version that is
moved, amended, exported and loaded."""
from __future__ import annotations

import pytest

from support.books import ISSUE, Book, trade
from support.checked import listed
from support.earlier import earlier_program
from support.faults import KILLED, Fault
from support.program import Program, Said
from support.stores import KINDS, Store

TERMS = "RIVERTON WATER 5S 2025,periodic,2020-01-01,2020-07-01,2025-01-01"
AMENDED = f"amend,123456AA3,2,{TERMS},4.5,2024-07-01:101!\n"
BY_THE_FIRST = trade("T0003").rstrip("\n") + ",,1\n"
KEPT = ISSUE + trade("T0001")
ROWS = AMENDED + trade("T0002") + BY_THE_FIRST
FIRST = "100.725,4.000,2025-01-01,25493.75"
# By the redemption that is certain, with (101 + 2.25) / 1.01 - 1.125 dollars, 101.102.
REPORT = f"1,amended,123456AA3,2\n2,confirmed,T0002,1,101.102,4.000,2024-07-01,25556.75\n3,confirmed,T0003,1,{FIRST}\n"
CALLS = ["open", "pread", "pwrite", "fdatasync", "fsync", "ftruncate", "write"]

# How many trades an earlier program enters, and how many of them are canceled and corrected.
COUNT = 1000


def is_amended(book: Book) -> bool:
    """Whether the terms are kept, of which nothing is kept in part."""
    issues = book.said("export", "--issues")
    first = f"issue,123456AA3,{TERMS},5.0000000,,30/360\n"
    both = first + f"amend,123456AA3,2,{TERMS},4.5000000,2024-07-01:101.000000!,30/360\n"
    assert issues in (Said(0, first.encode()), Said(0, both.encode()))
    return issues.text == both


def check_rest(book: Book, told: str, confirmed: Said, what: object) -> None:
    """Sees that what was told is kept, that the trade before is confirmed as before, and that the rows sent again give
    the whole report."""
    assert REPORT.startswith(told), what
    assert book.confirmed("T0001") == confirmed, what
    assert is_amended(book) or not told, what
    for reference in ("T0002", "T0003"):
        assert reference not in told or book.confirmed(reference).status == 0, what
    assert book.report(ROWS) == REPORT.encode(), what
    assert book.confirmed("T0001") == confirmed, what


def begun(book: Book) -> Said:
    """A new store with an issue and a trade, and the confirmation of the trade."""
    book.store.remove()
    book.report(KEPT)
    return book.confirmed("T0001")


def test_a_trade_is_confirmed_by_the_terms_of_its_time_over_both_kinds(book):
    confirmed = begun(book)
    assert not is_amended(book)
    for _ in range(2):
        assert book.report(ROWS) == REPORT.encode()
        assert is_amended(book)
        assert book.confirmed("T0001") == confirmed
        assert book.report(KEPT) == f"1,added,123456AA3\n2,confirmed,T0001,1,{FIRST}\n".encode()
        assert b"REDEMPTION 2024-07-01 101.000000 CALLED" in book.confirmed("T0002").output
        assert book.confirmed("T0003").output == confirmed.output.replace(b"T0001", b"T0003")


@pytest.mark.parametrize("name", CALLS)
def test_an_amendment_that_is_killed_at_any_call_is_kept_whole_or_not_at_all(book, faults, name):
    begun(book)
    Book(faults.counting(book.muni), book.store).report(ROWS)
    for number in range(1, faults.counts()[name].in_all + 1):
        confirmed = begun(book)
        killed = Book(faults.at(book.muni, Fault(name, number, KILLED)), book.store)
        said = killed.said("import", rows=ROWS)
        assert said.status == -9, number
        check_rest(book, said.text, confirmed, number)


@pytest.mark.parametrize("name", ["pread", "pwrite", "fdatasync", "ftruncate"])
def test_an_amendment_that_fails_at_any_call_is_kept_whole_or_not_at_all(book, faults, name):
    begun(book)
    Book(faults.counting(book.muni), book.store).report(ROWS)
    for number in range(1, faults.counts()[name].in_all + 1):
        confirmed = begun(book)
        failing = Book(faults.at(book.muni, Fault(name, number)), book.store)
        said = failing.said("import", rows=ROWS)
        assert said.status in (0, 6), number
        check_rest(book, said.text, confirmed, number)


# A store of an earlier version

def moved_rows() -> str:
    """The rows of many trades of two desks, of which some are corrected and some canceled."""
    rows = [ISSUE]
    for each in range(COUNT):
        key = f"{'ALPHA' if each % 3 else 'BETA'},T{each:04d}"
        asked = f"123456AA3,{'sell' if each % 2 else 'buy'},{1000 + each},2024-04-01"
        rows.append(f"trade,{key},{asked},yield,{each % 9}.{each % 7}\n")
        if each % 10 == 1:
            rows.append(f"correct,{key},2,{asked},price,10{each % 3}.5,0.125\n")
        if each % 20 == 1:
            rows.append(f"cancel,{key},3\n")
    return "".join(rows)


def looks(book: Book) -> list[Said]:
    """All that is told of the trades."""
    return [book.said(*words) for desk in ("ALPHA", "BETA") for words in (
        ("confirm", f"--desk={desk}", "--all"), ("list", f"--desk={desk}"), ("positions", f"--desk={desk}"))]


def is_right(book: Book) -> bool:
    """Whether a check finds right all that the lists have of the live trades."""
    found = [book.said("check", f"--desk={desk}", rows=listed(book.said("list", f"--desk={desk}").text))
             for desk in ("ALPHA", "BETA")]
    return all(said.status == 0 and said.output.count(b",right\n") > COUNT // 4 for said in found)


@pytest.fixture(scope="session")
def earlier(tmp_path_factory) -> Program:
    return earlier_program("1.9.0", tmp_path_factory.mktemp("earlier"))


@pytest.mark.parametrize("kind", KINDS)
def test_a_store_of_an_earlier_version_is_moved_amended_exported_and_loaded(muni, tmp_path, earlier, kind):
    rows = moved_rows()
    before = Book(earlier, Store(kind, tmp_path / "store"))
    assert b"refused" not in before.report(rows)
    told, exported = looks(before), before.said("export")
    book = Book(muni, before.store)
    assert looks(book) == told
    assert book.said("export") == exported
    assert book.report(AMENDED) == b"1,amended,123456AA3,2\n"
    assert looks(book) == told
    assert book.report(rows.splitlines(keepends=True)[1]).startswith(b"1,confirmed,T0000,1,")
    assert book.report(trade("NEW")) == b"1,confirmed,NEW,1,101.102,4.000,2024-07-01,25556.75\n"
    assert is_right(book)
    moved = book.said("export")
    # Each trade and correction of before names the first terms, and the new one is by the last.
    marked = [row + ",1" if row.startswith(("trade", "correct")) else row for row in exported.text.splitlines()]
    first, *rest = marked
    new = trade("NEW").rstrip("\n") + ".0000,0.000"
    wanted = [first, f"amend,123456AA3,2,{TERMS},4.5000000,2024-07-01:101.000000!,30/360", *rest]
    assert sorted(moved.text.splitlines()) == sorted([*wanted, new])
    told = looks(book)
    for other in KINDS:
        loaded = Book(muni, Store(other, tmp_path / f"loaded-{other}"))
        report = loaded.said("load", rows=moved.output)
        assert report.status == 0 and report.output.count(b"\n") == moved.output.count(b"\n")
        assert {line.split(b",")[1] for line in report.output.splitlines()} == {b"added", b"amended", b"confirmed"}
        assert loaded.said("export") == moved
        assert looks(loaded) == told
        assert is_right(loaded)
        assert loaded.said("check-store") == book.said("check-store")


def test_an_earlier_program_leaves_an_amended_journal_as_it_is(muni, tmp_path, earlier):
    """It reads the journal until a row is put that it does not know."""
    book = Book(muni, Store("journal", tmp_path / "store"))
    before = Book(earlier, book.store)
    book.report(KEPT)
    assert before.confirmed("T0001") == book.confirmed("T0001")
    confirmed = book.confirmed("T0001")
    book.report(AMENDED)
    data = book.store.file.read_bytes()
    for command, words in [("confirm", ("--desk=ALPHA", "--all")), ("import", ()), ("export", ()), ("check-store", ())]:
        assert before.said(command, *words, rows=trade("T0009")) == Said(6, b""), command
        assert book.store.file.read_bytes() == data, command
    assert book.confirmed("T0001") == confirmed


def test_an_earlier_program_reads_the_export_of_a_store_without_amendments(muni, tmp_path, earlier):
    book = Book(muni, Store("sqlite", tmp_path / "store"))
    book.report(KEPT)
    exported = book.said("export")
    before = Book(earlier, Store("sqlite", tmp_path / "earlier"))
    assert before.said("load", rows=exported.output) == Said(0, f"1,added,123456AA3\n2,confirmed,T0001,1,{FIRST}\n".encode())
    assert before.said("export") == exported
    book.report(ROWS)
    assert before.said("import", rows=book.said("export").output).text.splitlines() == [
        "1,added,123456AA3", "2,bad,2,1", "3,bad,1", f"4,confirmed,T0002,1,{FIRST}", "5,bad,1"]
