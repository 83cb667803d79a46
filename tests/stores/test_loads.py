"""Loads into stores of either kind: their reports are those of imports, whatever the length of the input."""
from __future__ import annotations

import os
import pathlib
import random
import re
import subprocess
from collections.abc import Callable, Iterator

import pytest

from support.books import TAKEN, Book
from support.exported import Row, book as book_of, text_of
from support.faults import Fault, Faults
from support.program import PATIENCE, ROOT, Program, Said
from support.stores import KINDS, REPORT, ROWS, Store, empty_folder

MARK = b"\xef\xbb\xbf"
# A row that is refused changes no table, so a store does not grow by it.
REFUSED_ROW = b"trade,ALPHA,T0001,990034AA8,buy,25000,2024-04-01,yield,4\n"
# What a piece of the input has at most, as the program reads it.
PIECE = 16_384


@pytest.fixture(scope="module")
def large() -> list[Row]:
    """The rows of 60 issues of every kind, and of 500 trades with their versions."""
    return book_of(random.Random(0), 60, 500)


@pytest.fixture
def memory(muni: Program) -> Iterator[Callable[[str, str], Book]]:
    """Begins books by their kinds and names in a folder of memory, where thousands of rows are put in a second."""
    with empty_folder() as folder:
        yield lambda kind, name: Book(muni, Store(kind, pathlib.Path(folder, name)))


def loaded_by_pieces(book: Book, pieces: list[bytes]) -> Said:
    """A load whose input comes by a pipe, a piece at a time."""
    process = book.muni.start("load", book.store.word, stdin=subprocess.PIPE, stdout=subprocess.PIPE)
    with process:
        for piece in pieces:
            process.stdin.write(piece)
            process.stdin.flush()
        output, _ = process.communicate(timeout=PATIENCE)
    return Said(process.returncode, output)


@pytest.mark.parametrize("kind", KINDS)
def test_a_load_reports_and_keeps_what_an_import_does(memory, large, kind):
    imported, loaded = memory(kind, "imported"), memory(kind, "loaded")
    text = text_of(large)
    assert len(text) > 2 * PIECE
    assert loaded.said("load", rows=text) == imported.said("import", rows=text)
    assert loaded.said("export") == imported.said("export")
    assert loaded.said("load", rows=text) == imported.said("import", rows=text)


@pytest.mark.parametrize("end", ["\n", "\r\n", "\r"], ids=["feed", "both", "return"])
@pytest.mark.parametrize("mark", [b"", MARK], ids=["bare", "marked"])
def test_every_way_to_end_a_line_is_read(memory, large, end, mark):
    imported, loaded = memory("journal", "imported"), memory("journal", "loaded")
    text = mark + text_of(large, end)
    for rows in (text, text.rstrip(b"\r\n"), text.replace(end.encode(), 3 * end.encode())):
        assert loaded.said("load", rows=rows) == imported.said("import", rows=rows)


def test_bytes_that_come_one_at_a_time_give_the_same_rows(book):
    rows = MARK + b'"issue",123456AA3,"RIVERTON ""WATER"", 5S\n2025",periodic\n' + ROWS + b"\r\n" + MARK + ROWS[:-1]
    said = loaded_by_pieces(book, [rows[place:place + 1] for place in range(len(rows))])
    other = Book(book.muni, Store(book.store.kind, book.store.path.with_name("other")))
    assert said == other.said("import", rows=rows)


def test_rows_stand_at_every_place_of_a_piece(memory):
    """A row or a quote that goes over the end of a piece, at each byte of it."""
    imported, loaded = memory("journal", "imported"), memory("journal", "loaded")
    row = b'correct,"A,""B""\r\n",\r\n"cancel",A,T1,\xef\xbb\xbf"2"\n'
    for blanks in range(len(row) + 2):
        text = b"x" * (PIECE - len(row) - 1) + b"," * blanks + b"\n" + 3 * row
        assert loaded.said("load", rows=text) == imported.said("import", rows=text)


def test_a_mark_of_the_byte_order_is_dropped_at_the_start_alone(book):
    assert book.said("load", rows=MARK + ROWS) == Said(0, REPORT)
    rows = MARK + b"x\n" + MARK + b"x\n"
    said = loaded_by_pieces(book, [rows[:6], rows[6:]])
    assert said == book.said("import", rows=rows) == Said(0, b"1,bad,2,1\n2,bad,2,1\n")


@pytest.mark.parametrize("kind", KINDS)
def test_five_mebibytes_are_loaded_that_an_import_refuses(memory, kind):
    book = memory(kind, "book")
    count = 5 * 1024 * 1024 // len(REFUSED_ROW)
    assert book.said("import", rows=REFUSED_ROW * count) == Said(9, b"")
    said = book.said("load", rows=REFUSED_ROW * count)
    assert said == Said(0, b"".join(b"%d,refused,1,UnknownIssue\n" % place for place in range(1, count + 1)))


def most_memory(book: Book, count: int, tmp_path: pathlib.Path) -> int:
    """The most memory in KB that a load of so many rows has in use when all of them are read, but for the end."""
    process = book.muni.start("load", book.store.word, stdin=subprocess.PIPE, stdout=subprocess.PIPE)
    report = tmp_path / "report"
    with process, open(report, "wb") as file, subprocess.Popen(["cat"], stdin=process.stdout, stdout=file):
        process.stdout.close()
        process.stdin.write(REFUSED_ROW * count)
        process.stdin.flush()
        line = b"\n%d,refused,1,UnknownIssue\n" % count
        for _ in range(PATIENCE * 100):
            if report.read_bytes()[-len(line):] == line:
                break
            try:
                process.wait(0.01)
            except subprocess.TimeoutExpired:
                continue
        status = pathlib.Path(f"/proc/{process.pid}/status").read_text(encoding="ascii")
        process.stdin.close()
        assert process.wait(PATIENCE) == 0
    return int(re.search(r"VmHWM:\s+(\d+) kB", status)[1])


@pytest.mark.parametrize("kind", KINDS)
def test_memory_does_not_grow_with_the_input(memory, tmp_path, kind):
    few, many = (most_memory(memory(kind, str(count)), count, tmp_path) for count in (10_000, 100_000))
    assert many < few + 512


def test_an_export_that_is_cut_off_loads_its_front_part(memory, large):
    first, cut, whole = memory("sqlite", "first"), memory("journal", "cut"), memory("journal", "whole")
    first.said("load", rows=text_of(large))
    rows = first.said("export").output
    front = rows[:2 * len(rows) // 3]
    lines = front.count(b"\n")
    assert whole.said("load", rows=rows).status == 0
    report = cut.said("load", rows=front).output.splitlines()
    assert len(report) in (lines, lines + 1)
    assert all(line.split(b",")[1] in TAKEN for line in report[:lines])
    cut.said("load", rows=rows)
    assert cut.said("export") == whole.said("export")


def test_a_load_that_was_killed_is_sent_again(memory, large):
    book, whole = memory("sqlite", "book"), memory("sqlite", "whole")
    text = text_of(large)
    report = whole.said("load", rows=text).output
    process = book.muni.start("load", book.store.word, stdin=subprocess.PIPE, stdout=subprocess.PIPE)
    with process:
        process.stdin.write(text[:len(text) // 2])
        process.stdin.flush()
        lines = [process.stdout.readline() for _ in range(20)]
        process.kill()
    assert report.startswith(b"".join(lines))
    assert book.said("load", rows=text) == Said(0, report)
    assert book.said("export") == whole.said("export")


def test_each_row_is_done_before_the_next_piece_comes(book):
    process = book.muni.start("load", book.store.word, stdin=subprocess.PIPE, stdout=subprocess.PIPE)
    with process:
        for row, line in zip(ROWS.splitlines(True), REPORT.splitlines(True)):
            process.stdin.write(row)
            process.stdin.flush()
            assert process.stdout.readline() == line
        process.stdin.close()
        assert (process.stdout.read(), process.wait(PATIENCE)) == (b"", 0)


def test_an_input_that_fails_leaves_the_rows_before(faults: Faults, book):
    """The second read of the input fails: the rows of the first are kept, and the row that it cuts is not."""
    rows = ROWS + b"trade,ALPHA,T0003,123456AA3,buy,25000,2024-04-01,yield,4\n"
    cut = len(ROWS) + 20
    reading, writing = os.pipe()
    failing = faults.at(book.muni, Fault("read", 2, is_onwards=True))
    os.write(writing, rows[:cut])
    process = failing.start("load", book.store.word, stdin=reading, stdout=subprocess.PIPE)
    os.close(reading)
    output, _ = process.communicate(timeout=PATIENCE)
    os.close(writing)
    assert process.returncode == 4
    assert output in (b"", REPORT)
    assert book.said("load", rows=rows).output.startswith(REPORT)


def test_an_input_that_is_a_folder_has_its_status(book, tmp_path):
    folder = os.open(tmp_path, os.O_RDONLY)
    process = book.muni.start("load", book.store.word, stdin=folder, stdout=subprocess.PIPE)
    os.close(folder)
    output, _ = process.communicate(timeout=PATIENCE)
    assert (process.returncode, output) == (4, b"")


def test_an_output_that_is_full_has_its_status(book):
    with open("/dev/full", "wb") as full:
        process = book.muni.start("load", book.store.word, stdin=subprocess.PIPE, stdout=full)
        process.communicate(ROWS, timeout=PATIENCE)
    assert process.returncode == 5
    assert book.said("load", rows=ROWS) == Said(0, REPORT)


def test_a_store_that_a_server_has_is_refused(book, serve):
    book.report(ROWS)
    server = serve(book.store)
    assert server.ask(b"GET /lists/ALPHA HTTP/1.1\r\n\r\n").startswith(b"HTTP/1.1 200")
    assert book.said("load", rows=ROWS) == Said(6, b"")
    server.__exit__()
    assert book.said("load", rows=ROWS) == Said(0, REPORT)


def test_the_day_of_the_examples_is_loaded(book):
    rows = (ROOT / "examples/book.csv").read_bytes()
    said = book.said("load", rows=rows)
    assert (said.status, said.output) == (0, (ROOT / "examples/book.report").read_bytes())
    assert book.said("import", rows=rows) == said
