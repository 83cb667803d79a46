"""Standard streams that are closed, whose descriptors a file of a store could get."""
import subprocess

import pytest

from support.books import Book
from support.program import PATIENCE, Said
from support.stores import REPORT, ROWS


def closed(book: Book, streams: str, command: str, *words: str) -> Said:
    """How a command ends that the shell starts with such streams."""
    told = subprocess.run(["sh", "-c", f'exec "$0" "$@" {streams}', book.muni.path, command, book.store.word, *words],
                          input=ROWS, capture_output=True, timeout=PATIENCE)
    return Said(told.returncode, told.stdout, told.stderr)


def test_a_closed_output_takes_no_lines_and_gets_into_no_file(book):
    """The row of the line that cannot be written is kept, and none after it."""
    assert closed(book, ">&-", "import").status == 5
    assert book.confirmed("T0001") == Said(3, b"REFUSED 2 UnknownTrade\n")
    assert book.report(ROWS) == REPORT
    before = book.store.file.read_bytes()
    assert closed(book, ">&-", "import").status == 5
    assert book.store.file.read_bytes() == before
    assert book.has("T0001")


def test_a_closed_input_is_an_input_that_fails(book):
    book.report(ROWS)
    before, file = book.store.state(), book.store.file.read_bytes()
    assert closed(book, "<&-", "import") == Said(4, b"")
    assert book.store.state() == before
    # It opens the store before it reads, and so begins the log anew.
    assert closed(book, "<&-", "figures") == Said(4, b"")
    assert closed(book, "<&-", "check") == Said(4, b"")
    assert book.store.file.read_bytes() == file
    assert book.has("T0001")


@pytest.mark.parametrize("words", [("export",), ("list", "--desk=ALPHA"), ("confirm", "--desk=ALPHA", "--all"),
                                   ("check-store",), ("figures",), ("check", "--desk=ALPHA")],
                         ids=lambda words: words[0])
def test_rows_for_a_closed_output_get_into_no_file(book, words):
    book.report(ROWS)
    before = book.store.file.read_bytes()
    assert closed(book, ">&-", *words).status == 5
    assert book.store.file.read_bytes() == before
    assert book.has("T0001")


def test_no_stream_at_all(book):
    book.report(ROWS)
    before = book.store.file.read_bytes()
    assert closed(book, "<&- >&- 2>&-", "confirm", "--desk=ALPHA", "--ref=T0001").status == 5
    assert book.store.file.read_bytes() == before
    assert book.has("T0001")
