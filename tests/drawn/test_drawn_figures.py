"""Lines that are drawn at random, over issues of every kind: each figure is that of an exact calculator, and so is what
is told of hostile lines."""
from __future__ import annotations

import pathlib
import random
import tempfile

from hypothesis import event, given
from hypothesis import strategies as st

from support.books import Book
from support.drawn import any_of, hostile_fields, many, mutated, one_in, whole
from support.exported import Row, held, issue, text_of
from support.program import Program
from support.reference import Reference
from support.stores import Store, empty_folder
from support.valued import lines, wide

# How many rows are valued in the gate, and by --long. The calculator takes some milliseconds for each.
COUNT, LONG = 1_000, 20_000
ISSUES = 200


def issues(source: random.Random) -> list[Row]:
    return [issue(source, place) for place in range(ISSUES)]


def as_told(reference: Reference, row: bytes) -> tuple[bytes, bool]:
    """What is told of a row by the calculator, and whether nothing else may be told of it."""
    reference.is_sure = True
    output = reference.ran("figures", rows=row)[1]
    return output.split(b"\n")[0].partition(b",")[2], reference.is_sure


def test_each_figure_of_many_rows_is_that_of_an_exact_calculator(muni: Program, request):
    is_long = request.config.getoption("--long")
    source = random.Random() if is_long else random.Random(0)
    kept = issues(source)
    rows = [wide(source, row) if source.randrange(20) == 0 else row
            for row in lines(source, kept, LONG if is_long else COUNT)]
    reference = Reference()
    put_in = held(source, kept)
    assert reference.imported(text_of(put_in))[0] == 0
    with empty_folder() as folder:
        book = Book(muni, Store("journal", pathlib.Path(folder, "S"))).with_rows(put_in)
        said = book.said("figures", "--workers=4", rows=b"\n".join(rows))
    *told, total = said.output.splitlines()
    assert (said.status, len(told)) == (0, len(rows))
    for place, (row, line) in enumerate(zip(rows, told), 1):
        wanted, is_sure = as_told(reference, row)
        assert line == b"%d,%s" % (place, wanted) or not is_sure, row
    priced = [line.rsplit(b",", 1)[1] for line in told if line.split(b",")[1] == b"figures"]
    cents = sum(int(each.replace(b".", b"")) for each in priced)
    assert total == b"TOTAL,%d,%d.%02d,%d" % (len(priced), *divmod(cents, 100), len(rows))


@st.composite
def row(draw) -> bytes:
    """A line of some issue, of which a field may be hostile, or left out, or there twice."""
    source = random.Random(draw(whole(0, 65_535)))
    fields = lines(source, issues(random.Random(0))[:20], 1)[0].split(b",")
    if draw(one_in(3)):
        fields[draw(whole(0, len(fields) - 1))] = draw(hostile_fields)
    if draw(one_in(6)):
        place = draw(whole(0, len(fields)))
        fields[place:place + draw(whole(0, 2))] = draw(any_of((), (b"",), (b"0", b"buy"), (b"990000036",)))
    return b",".join(fields)


@st.composite
def text(draw) -> bytes:
    """Lines with ends of every kind, of which some bytes may be changed."""
    ends = any_of(b"\n", b"\n", b"\r\n", b"\n\n", b"\r", b"\n\r\n")
    found = b"".join(each + draw(ends) for each in draw(many(row(), 8, 60)))
    front = draw(any_of(b"", b"", b"\xef\xbb\xbf", b"\n", b"\xef\xbb"))
    return front + (draw(mutated(st.just(found))) if draw(one_in(3)) else found)


def test_what_is_told_of_any_text_is_that_of_an_exact_calculator(muni: Program):
    kept = text_of(held(random.Random(1), issues(random.Random(0))[:20]))

    @given(text(), whole(1, 16), whole(1, 2**63 - 1))
    def tried(sent: bytes, workers: int, first: int) -> None:
        reference = Reference()
        reference.imported(kept)
        wanted = reference.ran("figures", f"--from={first}", "--header", rows=sent)
        with tempfile.TemporaryDirectory() as folder:
            book = Book(muni, Store("journal", pathlib.Path(folder) / "S"))
            book.said("load", rows=kept)
            said = book.said("figures", f"--workers={workers}", f"--from={first}", "--header", rows=sent)
        if (said.status, said.output) != wanted and not reference.is_sure:
            event("another figure of several that may be right")
            return
        assert (said.status, said.output.splitlines()) == (wanted[0], wanted[1].splitlines())

    tried()
