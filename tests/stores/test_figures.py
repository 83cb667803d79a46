"""What figures writes: the same bytes whatever the number of workers and however the input comes, the lines before a
fault, and a memory that does not grow with the input."""
from __future__ import annotations

import os
import pathlib
import random
import subprocess
from collections.abc import Iterator

import pytest
from calculator.valued import HEADER, RISK_HEADER

from support.books import Book
from support.exported import Row, cusip, held, issue, text_of
from support.faults import Fault, Faults
from support.program import PATIENCE, Program, Said
from support.stores import KINDS, REPORT, ROWS, Store, empty_folder
from support.valued import BLOCK, LONGEST, MARK, PIECE, Valued, by_pieces, cut, digest_of, lines, repeated, wide

# A row that has figures over the issue of ROWS, and what is told of it.
ROW = b"123456AA3,25000,2024-04-01,yield,4"
FIELDS = b"figures,123456AA3,100.725,4.000,2025-01-01,100.000000,MATURITY,90,25181.25,312.50,0.00,25493.75"
BAD = b"bad,1"
# How many rows are valued to see that the memory stays, and the most that it may be, in KB.
MOST_MEMORY = 64 * 1024
MANY, MANY_LONG = 200_000, 3_000_000
# So many blocks are read before several workers share them out.
AT_ONCE = 32


@pytest.fixture(scope="module")
def issues() -> list[Row]:
    """Sixty issues of every kind."""
    source = random.Random(0)
    return [issue(source, place) for place in range(60)]


@pytest.fixture(scope="module")
def put_in(issues: list[Row]) -> list[Row]:
    """The rows of a book of them, in which some are amended, and trades are corrected and canceled."""
    return held(random.Random(4), issues)


@pytest.fixture(scope="module")
def valued(put_in: list[Row]) -> Valued:
    return Valued(text_of(put_in))


@pytest.fixture(scope="module")
def sensitive(put_in: list[Row]) -> Valued:
    """With the columns of the sensitivities."""
    return Valued(text_of(put_in), is_risk=True)


@pytest.fixture(scope="module")
def rows(issues: list[Row]) -> list[bytes]:
    """The rows of more than five blocks, narrow and wide ones."""
    source = random.Random(1)
    found = [wide(source, row) if source.randrange(3) else row for row in lines(source, issues, 600)]
    assert len(text(found)) > 5 * BLOCK
    return found


@pytest.fixture(scope="module")
def kept(muni: Program, put_in: list[Row]) -> Iterator[Book]:
    """A journal in memory with the book."""
    with empty_folder() as folder:
        yield Book(muni, Store("journal", pathlib.Path(folder, "kept"))).with_rows(put_in)


def text(rows: list[bytes], end: bytes = b"\n") -> bytes:
    return b"".join(row + end for row in rows)


def told(*fields: bytes, first: int = 1) -> bytes:
    """The lines of rows of which this is told, and their total, if those that have figures are ROW."""
    priced = sum(each == FIELDS for each in fields)
    written = b"".join(b"%d,%s\n" % (place, each) for place, each in enumerate(fields, first))
    return written + b"TOTAL,%d,%d.%02d,%d\n" % (priced, *divmod(priced * 2_549_375, 100), len(fields))


@pytest.mark.parametrize("workers", range(1, 17))
def test_the_lines_are_the_same_for_each_number_of_workers(kept, valued, rows, workers):
    said = kept.said("figures", f"--workers={workers}", rows=text(rows))
    assert said == Said(0, valued.text(rows))


@pytest.mark.parametrize("workers", [1, 2, 3, 16])
@pytest.mark.parametrize("size", [7, 4_096, PIECE, BLOCK, 65_535, 65_536, 65_537])
def test_the_lines_are_the_same_for_each_piece_of_the_input(kept, valued, rows, size, workers):
    said = by_pieces(kept, f"--workers={workers}", pieces=cut(text(rows), size))
    assert said == Said(0, valued.text(rows))


def test_bytes_that_come_one_at_a_time_give_the_same_lines(kept, valued, rows):
    some = rows[:len(rows) // 2]
    sent = MARK + text(some)
    assert len(sent) > 2 * BLOCK
    assert by_pieces(kept, "--workers=2", pieces=cut(sent, 1)) == Said(0, valued.text(some))


def test_both_kinds_of_store_give_the_same_lines(muni, tmp_path, put_in, valued, rows):
    for kind in KINDS:
        book = Book(muni, Store(kind, tmp_path / kind))
        book.with_rows(put_in)
        before = book.store.state()
        assert book.said("figures", "--workers=4", "--header", rows=text(rows)) == Said(
            0, valued.text(rows, has_header=True))
        assert kind == "sqlite" or book.store.state() == before


@pytest.mark.parametrize("workers", [1, 2, 3, 16])
def test_each_line_has_its_sensitivities_if_they_are_asked_for(kept, sensitive, rows, workers):
    """Duration, convexity and DV01 to the last digit, of rows of every kind of issue, by exact fractions."""
    said = kept.said("figures", "--risk", f"--workers={workers}", "--header", rows=text(rows))
    assert said == Said(0, sensitive.text(rows, has_header=True))
    columns = [line.rstrip(b"\n").split(b",")[-4:] for line in sensitive.lines(rows) if b",figures," in line]
    assert {sum(map(bool, each)) for each in columns} == {0, 3, 4}


def test_sensitivities_only_follow_what_a_line_has_without_them(kept, valued, rows):
    """Columns are added to a row with figures alone, and the total is the same."""
    plain, risked = (kept.said("figures", *words, rows=text(rows)).output.splitlines() for words in ((), ("--risk",)))
    assert b"".join(line + b"\n" for line in plain) == valued.text(rows)
    for without, line in zip(plain, risked, strict=True):
        columns = line.removeprefix(without)
        assert without + columns == line
        assert columns.count(b",") == (4 if b",figures," in without else 0)


@pytest.mark.parametrize("size", [7, PIECE, BLOCK, 65_537])
def test_sensitivities_are_the_same_for_each_piece_of_the_input(kept, sensitive, rows, size):
    assert by_pieces(kept, "--risk", "--workers=2", pieces=cut(text(rows), size)) == Said(0, sensitive.text(rows))


@pytest.mark.parametrize("end", [b"\n", b"\r\n", b"\n\n", b"\n\r\n"], ids=["feed", "both", "twice", "empty"])
@pytest.mark.parametrize("mark", [b"", MARK], ids=["bare", "marked"])
def test_every_end_of_a_line_is_read(kept, valued, rows, end, mark):
    for sent in (text(rows, end), text(rows, end).rstrip(b"\r\n")):
        assert kept.said("figures", "--workers=3", rows=mark + sent) == Said(0, valued.text(rows))


def test_a_carriage_return_alone_ends_no_line(book):
    book.report(ROWS)
    for sent, fields in [(ROW + b"\r", [FIELDS]), (ROW + b"\r\r", [b"bad,2,5"]), (ROW + b"\r" + ROW, [b"bad,1"]),
                         (b"\r" + ROW, [b"bad,2,1"]), (b"\r\n\r", []), (b"\r\r", [BAD])]:
        assert book.said("figures", rows=sent) == Said(0, told(*fields))


@pytest.mark.parametrize("size", [1, 2, 3, 4])
def test_a_mark_of_the_byte_order_is_dropped_at_the_start_alone(book, size):
    book.report(ROWS)
    sent = MARK + ROW + b"\n" + MARK + ROW + b"\n"
    assert by_pieces(book, pieces=cut(sent, size)) == Said(0, told(FIELDS, b"bad,2,1"))
    assert by_pieces(book, pieces=cut(MARK, size)) == Said(0, told())
    assert by_pieces(book, pieces=cut(MARK[:2], size)) == Said(0, told(BAD))


def test_an_input_without_a_row_has_a_total_alone(book):
    book.report(ROWS)
    for sent in (b"", b"\n", b"\r\n" * 3, b"\n" * (3 * BLOCK), MARK, MARK + b"\n"):
        assert book.said("figures", "--workers=2", rows=sent) == Said(0, told())
    assert book.said("figures", "--header") == Said(0, HEADER.encode() + b"\n" + told())
    names = (HEADER + RISK_HEADER).encode()
    assert book.said("figures", "--risk", "--header") == Said(0, names + b"\n" + told())
    assert book.said("figures", "--risk") == Said(0, told())


def padded(length: int) -> bytes:
    """The row with leading zeros in its par, so that it has so many bytes."""
    return ROW.replace(b",25000,", b"," + b"0" * (length - len(ROW)) + b"25000,")


@pytest.mark.parametrize("length", [LONGEST - 1, LONGEST, LONGEST + 1, PIECE, BLOCK - 1, BLOCK, BLOCK + 1, 65_535,
                                    65_536, 65_537, 200_000, 1_000_000])
@pytest.mark.parametrize("workers", ["--workers=1", "--workers=3"])
def test_a_line_of_more_than_4096_bytes_is_bad_however_long_it_is(book, length, workers):
    book.report(ROWS)
    fields = FIELDS if length <= LONGEST else BAD
    row = padded(length)
    for end in (b"\n", b""):
        assert book.said("figures", workers, rows=row + end) == Said(0, told(fields))
        assert book.said("figures", workers, rows=ROW + b"\n" + row + b"\n\n" + ROW + end) == Said(
            0, told(FIELDS, fields, FIELDS))
    # A carriage return at the end of a line is one of its bytes.
    fields = FIELDS if length < LONGEST else BAD
    assert book.said("figures", workers, rows=row + b"\r\n" + row + b"\r") == Said(0, told(fields, fields))


def test_a_long_line_hides_nothing_that_stands_in_it(book):
    """Its later bytes look like rows of their own, with commas in place of line ends."""
    book.report(ROWS)
    long = b",".join([ROW] * 10_000)
    said = book.said("figures", "--workers=2", rows=long + b"\n" + ROW + b"\n" + long)
    assert said == Said(0, told(BAD, FIELDS, BAD))


def test_rows_stand_at_every_place_about_the_end_of_a_block(book):
    book.report(ROWS)
    for blanks in range(BLOCK - 2 * len(ROW), BLOCK + 2):
        front = b"\n" * (blanks - 3 * LONGEST) + 3 * (b"x" * (LONGEST - 1) + b"\n")
        said = book.said("figures", "--workers=2", rows=front + ROW + b"\r\n" + ROW)
        assert said == Said(0, told(BAD, BAD, BAD, FIELDS, FIELDS)), blanks


def test_parts_of_a_file_have_the_lines_of_the_whole(kept, valued, rows):
    for cut_at in (1, len(rows) // 3, len(rows) - 1):
        front, back = rows[:cut_at], rows[cut_at:]
        parts = [kept.said("figures", f"--from={first}", rows=text(part)).output.splitlines(True)
                 for first, part in ((1, front), (1 + cut_at, back))]
        assert b"".join(parts[0][:-1] + parts[1][:-1]) == b"".join(valued.lines(rows))
        totals = [[int(number.replace(b".", b"")) for number in part[-1].split(b",")[1:]] for part in parts]
        whole = valued.total(rows).replace(b".", b"").split(b",")[1:]
        assert [sum(each) for each in zip(*totals)] == list(map(int, whole))


def test_places_count_on_from_the_first_one(book):
    book.report(ROWS)
    for first in (2, 10, 99_999, 2**32, 2**63 - 1):
        said = book.said("figures", f"--from={first}", "--workers=2", rows=text([ROW] * 3000))
        assert said == Said(0, told(*[FIELDS] * 3000, first=first))


def test_an_empty_store_has_no_issue(book):
    book.report("")
    said = book.said("figures", "--workers=2", rows=text([ROW, b"x", ROW]))
    assert said == Said(0, told(b"refused,1,UnknownIssue", BAD, b"refused,1,UnknownIssue"))
    assert book.report(ROWS) == REPORT


def test_issues_that_are_not_kept_take_no_memory(book):
    """Each row names another one, as many as there are CUSIPs with a number of five digits."""
    book.report(ROWS)
    names = [cusip(place).encode() for place in range(100_000)]
    sent = text([name + b",1,2024-04-01,yield,4" for name in names])
    few, many = (repeated(book, part, 1, "--workers=1") for part in (sent[:len(sent) // 10], sent))
    assert few.status == many.status == 0
    assert many.memory < few.memory + 2048
    assert book.said("figures", "--workers=4", rows=sent + ROW) == Said(
        0, told(*[b"refused,1,UnknownIssue"] * len(names), FIELDS))


@pytest.mark.parametrize("workers", [1, 2, 4])
def test_memory_does_not_grow_with_the_input(kept, valued, issues, request, workers):
    """What is written is right too, row by row."""
    is_long = request.config.getoption("--long")
    some = 10 * lines(random.Random(2), issues, 500)
    few = 2 if workers == 1 else 1 + AT_ONCE * BLOCK // len(text(some))
    many = (MANY_LONG if is_long else MANY) // len(some)
    assert 3 * few < many
    runs = [repeated(kept, text(some), times, f"--workers={workers}", patience=20 * PATIENCE) for times in (few, many)]
    assert [(run.status, run.digest) for run in runs] == [(0, digest_of(valued, some, times)) for times in (few, many)]
    assert runs[1].memory < MOST_MEMORY
    assert runs[1].memory < runs[0].memory + 2048


def whole_before(sent: bytes) -> list[bytes]:
    """The rows that are whole before an input fails."""
    return [row for row in sent.split(b"\n")[:-1] if row]


@pytest.mark.parametrize("workers", [1, 2, 4])
@pytest.mark.parametrize("at", [1, 2, 3, 8, 9, 20])
def test_an_input_that_fails_leaves_the_lines_before(faults: Faults, kept, valued, rows, tmp_path, at, workers):
    """A read of the input fails, and each after it: the row that it cuts has no line, and there is no total."""
    file = tmp_path / "rows"
    file.write_bytes(text(rows))
    failing = faults.at(kept.muni, Fault("read", at, is_onwards=True))
    with file.open("rb") as reading:
        process = failing.start("figures", kept.store.word, f"--workers={workers}", stdin=reading,
                                stdout=subprocess.PIPE)
        output, _ = process.communicate(timeout=PATIENCE)
    came = whole_before(text(rows)[:PIECE * (at - 1)])
    assert (process.returncode, output) == (4, b"".join(valued.lines(came)))


def test_an_input_that_fails_within_its_first_bytes_leaves_the_header(faults: Faults, kept):
    failing = faults.at(kept.muni, Fault("read", 2, is_onwards=True))
    reading, writing = os.pipe()
    os.write(writing, b"x\n")
    process = failing.start("figures", kept.store.word, "--header", stdin=reading, stdout=subprocess.PIPE)
    os.close(reading)
    output, _ = process.communicate(timeout=PATIENCE)
    os.close(writing)
    assert (process.returncode, output) == (4, HEADER.encode() + b"\n")


def test_an_input_that_is_a_folder_has_its_status(book, tmp_path):
    book.report(ROWS)
    folder = os.open(tmp_path, os.O_RDONLY)
    process = book.muni.start("figures", book.store.word, stdin=folder, stdout=subprocess.PIPE)
    os.close(folder)
    assert (process.communicate(timeout=PATIENCE)[0], process.returncode) == (b"", 4)


def test_an_output_that_is_full_has_its_status(kept, rows):
    for sent in (b"", text(rows)):
        with open("/dev/full", "wb") as full:
            process = kept.muni.start("figures", kept.store.word, "--workers=2", stdin=subprocess.PIPE, stdout=full)
            with process:
                try:
                    process.communicate(sent, timeout=PATIENCE)
                except BrokenPipeError:
                    process.wait(PATIENCE)
        assert process.returncode == 5


@pytest.mark.parametrize("workers", [1, 2])
def test_an_output_that_nobody_reads_any_more_has_its_status(kept, valued, rows, tmp_path, workers):
    file = tmp_path / "rows"
    file.write_bytes(10 * text(rows))
    reading, writing = os.pipe()
    with file.open("rb") as sent:
        process = kept.muni.start("figures", kept.store.word, f"--workers={workers}", stdin=sent, stdout=writing)
    os.close(writing)
    front = os.read(reading, 4096)
    os.close(reading)
    assert process.wait(PATIENCE) == 5
    assert b"".join(valued.lines(rows)).startswith(front)


def test_a_store_that_a_server_has_is_refused_before_anything_is_read(book, serve):
    book.report(ROWS)
    server = serve(book.store)
    assert server.ask(b"GET /lists/ALPHA HTTP/1.1\r\n\r\n").startswith(b"HTTP/1.1 200")
    assert book.said("figures", "--header", rows=ROW) == Said(6, b"")
    server.__exit__()
    assert book.said("figures", rows=ROW) == Said(0, told(FIELDS))


def test_an_issue_that_does_not_read_ends_the_lines_before_it(database):
    """It is named in the third block, and each block is written before the next one is read."""
    other = f"issue,{cusip(1)},OTHER,zero,2020-01-01,,2030-01-01,,\n"
    database.report(ROWS + other.encode())
    database.sql(f"UPDATE issues_3 SET dated = '2020-02-30' WHERE cusip = '{cusip(1)}'")
    assert database.said("figures", rows=ROW) == Said(0, told(FIELDS))
    before = [padded(1000)] * (2 * (BLOCK + PIECE) // 1000)
    said = database.said("figures", "--workers=1", rows=text([*before, ROW.replace(b"123456AA3", cusip(1).encode())]))
    assert said.status == 6
    assert told(*[FIELDS] * len(before)).startswith(said.output) and said.output.count(b"\n") >= BLOCK // 1000


def test_lines_are_written_before_the_next_blocks_come(kept, valued, rows):
    """A block that is whole is answered while the input is still open."""
    process = kept.muni.start("figures", kept.store.word, stdin=subprocess.PIPE, stdout=subprocess.PIPE)
    sent = text(rows)
    came = whole_before(sent[:BLOCK])
    with process:
        process.stdin.write(sent[:BLOCK + PIECE])
        process.stdin.flush()
        assert [process.stdout.readline() for _ in came] == list(valued.lines(came))
        process.stdin.write(sent[BLOCK + PIECE:])
        process.stdin.close()
        assert process.stdout.read().endswith(valued.total(rows))
        assert process.wait(PATIENCE) == 0
