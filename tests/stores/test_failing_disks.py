"""Syncs and writes that fail in an import, or at which it is killed: the lines are those of the rows before. Reads that
fail under a command that only reads."""
import errno

import pytest

from support.books import Book, trades
from support.faults import KILLED, Fault
from support.program import Said
from support.stores import REPORT, ROWS

# How many lines are told before each call of an import of three rows fails. The first sync is that of the open; a row
# has two writes and two syncs.
TOLD = {"fdatasync": (0, 0, 0, 1, 1, 2, 2), "pwrite": (0, 0, 1, 1, 2, 2)}
CASES = [Fault(call, at, error, is_onwards)
         for call, error in (("fdatasync", errno.EIO), ("pwrite", errno.ENOSPC), ("pwrite", errno.EIO))
         for at in range(1, len(TOLD[call]) + 1) for is_onwards in (False, True)]


@pytest.fixture
def good(journal) -> bytes:
    """The file that an import without a fault makes. It is removed."""
    journal.report(ROWS)
    data = journal.store.file.read_bytes()
    journal.store.remove()
    return data


@pytest.mark.parametrize("fault", CASES, ids=map(str, CASES))
def test_a_call_that_fails_ends_an_import_after_the_rows_before(journal, faults, good, fault):
    told = REPORT.splitlines(keepends=True)[:TOLD[fault.call][fault.at - 1]]
    faulty = Book(faults.at(journal.muni, fault), journal.store)
    assert faulty.said("import", rows=ROWS) == Said(6, b"".join(told))
    assert journal.report(ROWS) == REPORT
    assert journal.store.file.read_bytes() == good


@pytest.mark.parametrize("call", TOLD)
def test_there_is_no_further_call(journal, faults, call):
    Book(faults.counting(journal.muni), journal.store).report(ROWS)
    assert faults.counts()[call].in_all == len(TOLD[call])


# Each row puts a version, and answers the same when it is sent again.
LIFE = b"""issue,123456AA3,RIVERTON WATER 5S 2025,periodic,2020-01-01,2020-07-01,2025-01-01,5,
trade,ALPHA,T0001,123456AA3,buy,25000,2024-04-01,yield,4
correct,ALPHA,T0001,2,123456AA3,buy,30000,2024-04-01,yield,4
cancel,ALPHA,T0001,3
"""
TOLD_OF_LIFE = b"""1,added,123456AA3
2,confirmed,T0001,1,100.725,4.000,2025-01-01,25493.75
3,confirmed,T0001,2,100.725,4.000,2025-01-01,30592.50
4,confirmed,T0001,3,100.725,4.000,2025-01-01,30592.50
"""


def versions(book: Book) -> int:
    """How many versions of the trade are kept."""
    said = book.confirmed("T0001")
    return int(said.text.splitlines()[0].split()[-1]) if said.status == 0 else 0


@pytest.mark.parametrize("error", [errno.EIO, KILLED], ids=["fails", "is-killed"])
@pytest.mark.parametrize("call", ["pwrite", "fdatasync"])
def test_a_trade_has_the_versions_that_were_told_or_one_more(book, faults, pytestconfig, call, error):
    """Whichever call fails or is the last one of a program that is killed. The gate tries each call over a journal, and
    each third over a database."""
    assert Book(faults.counting(book.muni), book.store).report(LIFE) == TOLD_OF_LIFE
    is_whole = pytestconfig.getoption("--long") or book.store.kind == "journal"
    for at in range(1, faults.counts()[call].in_all + 1, 1 if is_whole else 3):
        book.store.remove()
        said = Book(faults.at(book.muni, Fault(call, at, error)), book.store).said("import", rows=LIFE)
        is_told = said.output == TOLD_OF_LIFE
        assert said.status == (-9 if error == KILLED else 0 if is_told else 6), at
        assert TOLD_OF_LIFE.startswith(said.output), at
        told = max(0, said.output.count(b"\n") - 1)
        assert told <= versions(book) <= told + 1, at
        assert book.report(LIFE) == TOLD_OF_LIFE, at
        assert versions(book) == 3, at


LOOKS = {
    "positions": (("--desk=ALPHA",), ""), "list": (("--desk=ALPHA",), ""), "export": ((), ""),
    "confirm": (("--desk=ALPHA", "--all"), ""), "figures": ((), "123456AA3,25000,2024-04-01,yield,4\n"),
    "check": (("--desk=ALPHA",), "reference,total\nT00001,25493.75\nT00399,25493.75\n"),
}
# The log is read twice, and before it is known by its seal the file three times and the first page of each of its four
# trees. If one of these fails, the file is audited. The reads of a seal are not counted.
HARMLESS = 9


@pytest.mark.parametrize("command", LOOKS)
def test_a_read_that_fails_once_ends_a_command_that_only_reads(database, faults, command):
    """Nothing is read a second time, but for a file that is audited since its seal could not be looked at."""
    database.report(trades(400))
    words, rows = LOOKS[command]
    right = Book(faults.counting(database.muni), database.store).said(command, *words, rows=rows)
    count = faults.counts()["pread"].in_all
    said = [Book(faults.at(database.muni, Fault("pread", at)), database.store).said(command, *words, rows=rows)
            for at in range(1, count + 1)]
    failed = [each for each in said if each != right]
    assert count - len(failed) == HARMLESS < count
    for each in failed:
        assert each.status == 6
        assert right.output.startswith(each.output) and (each.output.endswith(b"\n") or not each.output)
