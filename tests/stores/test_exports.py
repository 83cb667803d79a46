"""Exports of stores of either kind: their rows, and that an import of them gives the same store."""
from __future__ import annotations

import os
import pathlib
import random
import subprocess
from collections.abc import Callable, Iterator

import pytest

from support.books import TAKEN, Book, trades
from support.exported import Kept, Row, book as book_of, text_of
from support.program import PATIENCE, ROOT, Program, Said
from support.stores import KINDS, ROWS, Store, empty_folder

WAYS = {"all": (), "a desk": ("--desk=ALPHA",), "issues": ("--issues",)}
ISSUE = "issue,123456AA3,RIVERTON WATER 5S 2025,periodic,2020-01-01,2020-07-01,2025-01-01,5.0000000,,30/360\n"
OTHER = "issue,990034AA8,ELM GROVE,periodic,2020-01-15,2020-07-15,2044-01-15,4.5000000,2028-01-15:102.000000+,30/360\n"
UNUSED = "issue,990000010,ZERO,zero,2020-01-01,,2030-01-01,0.0000000,2026-07-01:100.000000!,30/360\n"
NOTE = 'issue,990081AB7,"MARLOW, ""THE"" NOTES",at-redemption,2024-02-29,,2025-02-28,3.9000000,,actual/365\n'
TWO_DESKS = [
    "trade,ALPHA,T0001,123456AA3,buy,25000,2024-04-01,yield,4.0000,0.000\n",
    "correct,ALPHA,T0001,2,990034AA8,buy,25000,2024-04-01,yield,4.0000,0.000\n",
    "trade,BETA,B1,990081AB7,sell,500000,2024-04-01,price,100.250000,0.125\n",
    "cancel,BETA,B1,2\n",
]


def version(number: int) -> str:
    """A version of a trade, of which each has another par."""
    word = "trade,ALPHA,T1," if number == 1 else f"correct,ALPHA,T1,{number},"
    return f"{word}123456AA3,sell,{number},2024-04-01,price,101.250000,0.500\n"


def beside(book: Book, kind: str, name: str) -> Book:
    """A book over another store, which is empty."""
    return Book(book.muni, Store(kind, book.store.path.with_name(name)))


def exported(book: Book, *words: str) -> bytes:
    said = book.said("export", *words)
    assert (said.status, said.error) == (0, b"")
    return said.output


def imported(book: Book, rows: bytes) -> None:
    """Imports rows of which each is kept."""
    came = [line.split(b",")[1] for line in book.report(rows).splitlines()]
    assert set(came) <= set(TAKEN) and len(came) == rows.count(b"\n")


def filled(book: Book, rows: str) -> Book:
    imported(book, rows.encode())
    return book


@pytest.mark.parametrize("words", WAYS.values(), ids=WAYS)
def test_an_empty_store_has_no_rows(book, words):
    book.store.file.touch()
    assert book.said("export", *words) == Said(0, b"")
    book.report("")
    assert book.said("export", *words) == Said(0, b"")


def test_rows_are_written_in_their_order_and_in_one_form(book):
    filled(book, NOTE + OTHER + UNUSED + ISSUE + "".join(TWO_DESKS[2:] + TWO_DESKS[:2]))
    assert exported(book).decode() == ISSUE + UNUSED + OTHER + NOTE + "".join(TWO_DESKS)


def test_words_stand_in_any_order(book):
    filled(book, ISSUE + OTHER + TWO_DESKS[0])
    alpha = exported(book, "--desk=ALPHA")
    assert book.muni.run("export", "--desk=ALPHA", book.store.word) == Said(0, alpha)
    assert book.muni.run("export", "--issues", book.store.word) == Said(0, (ISSUE + OTHER).encode())


def test_what_was_left_out_or_has_other_digits_is_written_in_full(book):
    book.report("issue,990000010,ZERO,zero,2020-01-01,,2030-01-01,,2026-07-01:0100!,\n"
                "issue,123456AA3,RIVERTON WATER 5S 2025,periodic,2020-01-01,2020-07-01,2025-01-01,005,\n"
                "trade,A,T1,123456AA3,buy,0025000,2024-04-01,yield,-0\n"
                "trade,A,T2,123456AA3,buy,25000,2024-04-01,price,0101.5,.5\n"
                "trade,A,T2,123456AA3,buy,25000,2024-04-01,price,0101.5,0.5\n"
                "correct,A,T2,002,123456AA3,buy,25000,2024-04-01,yield,-0.25,\n")
    assert exported(book).decode() == ISSUE + UNUSED + (
        "trade,A,T1,123456AA3,buy,25000,2024-04-01,yield,0.0000,0.000\n"
        "trade,A,T2,123456AA3,buy,25000,2024-04-01,price,101.500000,0.500\n"
        "correct,A,T2,2,123456AA3,buy,25000,2024-04-01,yield,-0.2500,0.000\n")


def test_references_and_desks_are_in_the_order_of_bytes(book):
    keys = ["9Z,Z", "A,10", "A,2", "A,T", "A,T0", "A,T1", "A,T10", "A,T2", "A,Z", "A,a", "A,aA", "A,t1", "A0,A", "AB,A"]
    rows = [f"trade,{key},123456AA3,buy,1,2024-04-01,yield,4.0000,0.000\n" for key in keys]
    filled(book, ISSUE + "".join(random.Random(1).sample(rows, len(rows))))
    assert exported(book).decode() == ISSUE + "".join(rows)


def test_a_desk_has_the_issues_that_any_version_names_and_its_own_trades(book):
    filled(book, ISSUE + OTHER + UNUSED + NOTE + "".join(TWO_DESKS))
    assert exported(book, "--desk=ALPHA").decode() == ISSUE + OTHER + "".join(TWO_DESKS[:2])
    assert exported(book, "--desk=BETA").decode() == NOTE + "".join(TWO_DESKS[2:])
    assert exported(book, "--issues").decode() == ISSUE + UNUSED + OTHER + NOTE


def test_an_unknown_desk_has_no_rows(book):
    filled(book, ISSUE + TWO_DESKS[0])
    assert exported(book, "--desk=ALPH") == exported(book, "--desk=ALPHAA") == b""


def test_a_trade_of_99_versions_and_its_cancel_are_written_and_taken_again(book):
    rows = "".join(version(number) for number in range(1, 100)) + "cancel,ALPHA,T1,100\n"
    filled(book, ISSUE + rows)
    assert exported(book).decode() == ISSUE + rows
    for kind in KINDS:
        assert exported(filled(beside(book, kind, kind), ISSUE + rows)).decode() == ISSUE + rows


def test_the_day_of_the_examples_moves_to_another_store_and_back(book):
    rows = (ROOT / "examples/book.csv").read_bytes()
    book.report(rows)
    other, again = beside(book, KINDS[1 - KINDS.index(book.store.kind)], "other"), beside(book, book.store.kind, "again")
    imported(other, exported(book))
    imported(again, exported(other))
    assert exported(book) == exported(other) == exported(again)
    for desk in ("INST", "RETAIL", "SHORT"):
        for command in (("positions",), ("list",), ("confirm", "--all")):
            said = book.said(command[0], f"--desk={desk}", *command[1:])
            assert (said.status, bool(said.output)) == (0, True)
            assert other.said(command[0], f"--desk={desk}", *command[1:]) == said


@pytest.fixture(scope="module")
def large() -> list[Row]:
    """The rows of 60 issues of every kind, and of 500 trades with their versions."""
    return book_of(random.Random(0), 60, 500)


@pytest.fixture
def memory(muni: Program) -> Iterator[Callable[[str, str], Book]]:
    """Begins books by their kinds and names in a folder of memory, where thousands of rows are put in a second."""
    with empty_folder() as folder:
        yield lambda kind, name: Book(muni, Store(kind, pathlib.Path(folder, name)))


def test_many_issues_and_trades_move_to_a_journal_and_back(memory, large):
    kept = Kept()
    database, journal, back = memory("sqlite", "database"), memory("journal", "journal"), memory("sqlite", "back")
    kept.take(large, database.report(text_of(large)))
    assert (len(kept.issues), sum(map(len, kept.desks.values()))) == (60, 500)
    rows = exported(database)
    assert rows == kept.export()
    imported(journal, rows)
    assert exported(journal) == rows
    imported(back, exported(journal))
    assert exported(back) == rows
    for table, order in (("issues_3", "cusip, number"), ("versions_3", "desk, reference, number")):
        statement = f"SELECT * FROM {table} ORDER BY {order}"
        assert back.sql(statement) == database.sql(statement)


@pytest.mark.parametrize("kind", KINDS)
def test_desks_that_were_split_are_merged_to_the_same_store(memory, large, kind):
    kept, book, merged = Kept(), memory(kind, "book"), memory("journal", "merged")
    kept.take(large, book.report(text_of(large)))
    assert exported(book, "--issues") == kept.export(is_issues=True)
    # An issue that two desks name is sent with each.
    for desk in sorted(kept.desks, reverse=True):
        rows = exported(book, f"--desk={desk}")
        assert rows == kept.export(desk)
        imported(merged, rows)
    imported(merged, exported(book, "--issues"))
    assert exported(merged) == exported(book)


def test_pieces_of_an_export_are_imported_one_after_the_other(memory, large, tmp_path):
    journal, whole = memory("journal", "journal"), memory("journal", "whole")
    journal.report(text_of(large))
    rows = exported(journal)
    subprocess.run(["split", "-C", "20000", "-", tmp_path / "piece."], input=rows, check=True, timeout=PATIENCE)
    pieces = sorted(tmp_path.glob("piece.*"))
    assert len(pieces) > 3 and b"".join(piece.read_bytes() for piece in pieces) == rows
    for piece in pieces:
        imported(whole, piece.read_bytes())
    assert exported(whole) == rows


def test_a_store_with_trades_takes_the_export_of_another_beside_them(book):
    filled(book, ISSUE + TWO_DESKS[0])
    other = filled(beside(book, "sqlite", "other"), NOTE + "".join(TWO_DESKS[2:]))
    for _ in range(2):
        imported(book, exported(other))
    assert exported(book).decode() == ISSUE + NOTE + TWO_DESKS[0] + "".join(TWO_DESKS[2:])


def test_an_export_with_a_wrong_issue_is_mended_by_hand(book):
    filled(book, ISSUE + OTHER + "".join(TWO_DESKS[:2]))
    mended = exported(book).replace(b",4.5000000,", b",4.2500000,")
    other = filled(beside(book, book.store.kind, "mended"), mended.decode())
    assert exported(other) == mended
    assert "COUPON 4.2500000" in other.confirmed("T0001").text


@pytest.mark.parametrize("command", ["export", "list", "confirm"])
def test_a_store_that_a_server_has_is_refused(book, serve, command):
    book.report(ROWS)
    words = {"export": (), "list": ("--desk=ALPHA",), "confirm": ("--desk=ALPHA", "--all")}[command]
    wanted = book.said(command, *words)
    server = serve(book.store)
    assert server.ask(b"GET /lists/ALPHA HTTP/1.1\r\n\r\n").startswith(b"HTTP/1.1 200")
    assert book.said(command, *words) == Said(6, b"")
    server.__exit__()
    assert (wanted.status, bool(wanted.output)) == (0, True)
    assert book.said(command, *words) == wanted


@pytest.mark.parametrize("words", [("export",), ("export", "--desk=ALPHA"), ("export", "--issues"),
                                   ("list", "--desk=ALPHA"), ("confirm", "--desk=ALPHA", "--all")],
                         ids=lambda words: " ".join(words))
def test_an_output_that_is_full_has_its_status(muni: Program, book, words):
    book.report(ROWS)
    before = book.store.file.read_bytes()
    with open("/dev/full", "wb") as full:
        assert muni.start(words[0], book.store.word, *words[1:], stdout=full).wait(timeout=PATIENCE) == 5
    assert book.store.file.read_bytes() == before


@pytest.mark.parametrize("words", [("export",), ("list", "--desk=ALPHA"), ("confirm", "--desk=ALPHA", "--all")],
                         ids=lambda words: words[0])
def test_an_output_that_is_full_in_the_middle_has_a_front_part(book, tmp_path, words):
    """A file that may not grow past so many blocks of 1,024 bytes. The signal of it is ignored."""
    book.report(trades(200))
    whole, blocks = book.said(*words).output, 4
    assert len(whole) > 2 * blocks * 1024
    limit = f"trap '' XFSZ; ulimit -f {blocks}; exec \"$@\" >\"$0\""
    told = subprocess.run(["bash", "-c", limit, tmp_path / "output", book.muni.path, words[0], book.store.word,
                           *words[1:]], capture_output=True, timeout=PATIENCE)
    written = (tmp_path / "output").read_bytes()
    assert (told.returncode, 0 < len(written) <= blocks * 1024) == (5, True)
    assert whole.startswith(written)


def test_an_output_that_nobody_reads_has_its_status(book):
    book.report(ROWS)
    reading, writing = os.pipe()
    os.close(reading)
    process = book.muni.start("export", book.store.word, stdout=writing)
    os.close(writing)
    assert process.wait(timeout=PATIENCE) == 5


@pytest.mark.parametrize("command", [("export",), ("list", "--desk=ALPHA")], ids=lambda words: words[0])
def test_a_row_of_a_database_that_does_not_read_is_a_fault(database, command):
    database.report(ROWS)
    database.sql("UPDATE versions_3 SET par = 0 WHERE reference = 'T0002'")
    assert database.said(*command).status == 6
    assert database.said("export", "--issues") == Said(0, ISSUE.encode())


def test_a_store_that_was_made_by_an_export_does_not_name_the_first(journal, tmp_path: pathlib.Path):
    """What is exported hangs on what is kept alone: the rows are the same whatever came between."""
    journal.report(ROWS + b"trade,ALPHA,T0003,123456AA3,buy,-5,2024-04-01,yield,4\n" + ROWS)
    other = Book(journal.muni, Store("sqlite", tmp_path / "elsewhere"))
    other.report(ROWS)
    assert exported(journal) == exported(other)
