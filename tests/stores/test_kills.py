"""Imports that are killed: a line of the report stands for a row that is kept, and the rows that are sent again give
the whole report."""
import subprocess

import pytest

from support.books import ISSUE, Book, trade
from support.faults import KILLED, Fault
from support.program import PATIENCE, Said
from support.stores import REPORT, ROWS

COUNT = 100
MANY = (ISSUE + "".join(trade(f"T{each}") for each in range(1, COUNT + 1))).encode()
WHOLE = "1,added,123456AA3\n" + "".join(
    f"{each + 1},confirmed,T{each},1,100.725,4.000,2025-01-01,25493.75\n" for each in range(1, COUNT + 1))


def started(book: Book, **how: object) -> subprocess.Popen[bytes]:
    """An import of many rows, which has all of its input."""
    command = book.muni.start("import", book.store.word, stdin=subprocess.PIPE, stdout=subprocess.PIPE, **how)
    command.stdin.write(MANY)
    command.stdin.close()
    return command


def killed_after(book: Book, count: int) -> str:
    """All that an import tells that is killed when it has told so many lines."""
    with started(book) as command:
        told = b"".join(command.stdout.readline() for _ in range(count))
        command.kill()
        told += command.stdout.read()
        assert command.wait(PATIENCE) in (-9, 0)
    return told.decode()


def test_an_import_of_many_rows(book):
    assert book.report(MANY) == WHOLE.encode()


@pytest.mark.parametrize("count", range(0, COUNT, 5))
def test_an_import_that_is_killed_keeps_what_it_told(book, count):
    told = killed_after(book, count)
    assert WHOLE.startswith(told) and told.count("\n") >= count
    lines = told.splitlines()
    if len(lines) > 1:
        assert book.has(f"T{len(lines) - 1}")
        assert book.held() >= len(lines) - 1
    assert book.report(MANY) == WHOLE.encode()


@pytest.mark.parametrize("call", ["fsync 1", "fdatasync 1", "pwrite 1", "fdatasync 2", "pwrite 2", "fdatasync 3"])
def test_a_first_put_that_is_killed_at_a_call_leaves_a_journal(journal, faults, call):
    """The file is empty until the first put, and then it has a closed gate."""
    name, number = call.split()
    killed = Book(faults.at(journal.muni, Fault(name, int(number), KILLED)), journal.store)
    assert killed.said("import", rows=ROWS) == Said(-9, b"")
    if call in ("fsync 1", "fdatasync 1", "pwrite 1"):
        assert journal.store.file.read_bytes() == b""
    assert journal.store.file.is_file()
    assert journal.report(ROWS) == REPORT
    assert journal.store.file.stat().st_size == 272


def test_a_put_that_is_cut_after_any_byte_keeps_a_trade_whole_or_not_at_all(journal):
    """A put writes the slot behind its closed gate, with a closed gate at its end, and then opens its gate."""
    journal.report(ISSUE)
    begin = journal.store.file.stat().st_size - 1
    row = trade("T0001")
    report = journal.report(row)
    whole = journal.store.file.read_bytes()
    for end in range(begin + 1, len(whole) + 1):
        journal.store.file.write_bytes(whole[:begin] + b"\0" + whole[begin + 1:end])
        assert journal.confirmed("T0001") == Said(3, b"REFUSED 2 UnknownTrade\n"), end
        assert journal.report(row) == report, end
        assert journal.store.file.read_bytes() == whole, end
    assert journal.has("T0001")


@pytest.mark.parametrize("name", ["open", "pread", "pwrite", "fdatasync", "fsync", "ftruncate", "write"])
def test_an_import_that_is_killed_at_any_call_keeps_what_it_told(book, faults, name):
    """Also while the store is made, and while it is closed."""
    Book(faults.counting(book.muni), book.store).report(ROWS)
    for number in range(1, faults.counts()[name].in_all + 1):
        book.store.remove()
        said = Book(faults.at(book.muni, Fault(name, number, KILLED)), book.store).said("import", rows=ROWS)
        assert said.status == -9 and REPORT.startswith(said.output), number
        for reference in ("T0001", "T0002"):
            if reference.encode() in said.output:
                assert book.confirmed(reference).status == 0, number
        assert book.report(ROWS) == REPORT, number


def test_a_second_process_is_refused_at_once_and_loses_nothing(book):
    """The report of the first is longer than its pipe, so it has the store until the report is read."""
    with started(book, pipesize=4096) as first:
        told = first.stdout.readline()
        assert book.confirmed("T1") == Said(6, b"")
        assert first.poll() is None
        told += first.stdout.read()
        assert first.wait(PATIENCE) == 0
    assert told == WHOLE.encode()
    assert book.report(MANY) == WHOLE.encode()
