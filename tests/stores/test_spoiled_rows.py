"""Rows of a database and bytes of a journal that were spoiled by hand, and what is told beside them."""
import pytest

from support.program import Said
from support.stores import REPORT, ROWS

REFUSED = Said(6, b"")
SPOILED = """INSERT INTO issues_3 VALUES ('000000000', 1, 'City of Example', 0, '2020-01-01', '2020-07-01',
    '2035-01-01', 0, '', 0);
INSERT INTO versions_3 VALUES ('ALPHA', 'DATE', 1, 0, '123456AA3', 1, 25000, '2024-02-30', 0, 40000,
    100725, 4000, '2030-01-01', 102500000, 2, 90, 2518125, 31250, 2549375, 0, 0, 1);
INSERT INTO versions_3 VALUES ('ALPHA', 'PAR', 1, 0, '123456AA3', 1, 0, '2024-04-01', 0, 40000,
    100725, 4000, '2030-01-01', 102500000, 2, 90, 2518125, 31250, 2549375, 0, 0, 1);
INSERT INTO versions_3 VALUES ('ALPHA', 'YIELD', 1, 0, '123456AA3', 1, 25000, '2024-04-01', 0, 40000,
    100725, 1000000, '2030-01-01', 102500000, 2, 90, 2518125, 31250, 2549375, 0, 0, 1);
INSERT INTO versions_3 VALUES ('ALPHA', 'TOTAL', 1, 0, '123456AA3', 1, 25000, '2024-04-01', 0, 40000,
    100725, 4000, '2030-01-01', 102500000, 2, 90, 2518125, 31250, -1, 0, 0, 1)"""
FIGURES = ("CONFIRMATION", "DESK", "REFERENCE", "BOUGHT", "SOLD", "CUSIP", "SETTLEMENT", "PRICE", "YIELD",
           "REDEMPTION", "ACCRUED", "PRINCIPAL", "TOTAL")
SIZE = 272


@pytest.fixture
def spoiled(database):
    database.report(ROWS)
    database.sql(SPOILED)
    return database


def test_a_row_reads_again_when_it_is_mended(database):
    database.report(ROWS)
    database.sql("UPDATE versions_3 SET par = 0 WHERE reference = 'T0001'")
    assert database.confirmed("T0001") == REFUSED
    database.sql("UPDATE versions_3 SET par = 25000 WHERE reference = 'T0001'")
    assert database.has("T0001")


@pytest.mark.parametrize("reference", ["DATE", "PAR", "YIELD", "TOTAL"])
def test_a_spoiled_row_does_not_read(spoiled, reference):
    assert spoiled.confirmed(reference) == REFUSED


def test_what_stands_beside_spoiled_rows(spoiled):
    """The trades beside them are told, and what needs all rows or the issue is refused."""
    assert spoiled.has("T0001")
    assert spoiled.said("positions", "--desk=ALPHA") == REFUSED
    assert spoiled.said("mark", rows="000000000,1,2024-04-01,4\n") == REFUSED


@pytest.fixture
def kept(journal):
    journal.report(ROWS)
    return journal


def spoil(journal, place: int, byte: int) -> bytes:
    """Puts a byte in the place of another one. What the file then has."""
    data = bytearray(journal.store.file.read_bytes())
    data[place] = byte
    journal.store.file.write_bytes(data)
    return bytes(data)


def test_a_journal_that_is_cut_off_after_a_gate_and_a_part_of_a_length_is_refused(kept):
    data = kept.store.file.read_bytes()[:167]
    kept.store.file.write_bytes(data)
    assert kept.said("import", rows=ROWS) == REFUSED
    assert kept.store.file.read_bytes() == data


def test_a_journal_that_is_cut_off_within_its_last_slot_is_refused(kept):
    """It is whole without that slot, and without the closed gate after it."""
    data = kept.store.file.read_bytes()
    whole = []
    for size in range(164, SIZE):
        kept.store.file.write_bytes(data[:size])
        if kept.confirmed("T0002").status != 6:
            whole.append(size)
    assert whole == [164, 271]


@pytest.mark.parametrize("place", [4, 5, 6, 61, 62])
def test_a_journal_with_another_length_or_key_is_refused(kept, place):
    data = spoil(kept, place, 255)
    assert kept.said("import", rows=ROWS) == REFUSED
    assert kept.store.file.read_bytes() == data


def test_a_first_gate_that_is_neither_0_nor_1_is_refused(kept):
    data = spoil(kept, 0, 2)
    assert kept.said("import", rows=ROWS) == REFUSED
    assert kept.store.file.read_bytes() == data


@pytest.mark.parametrize("place", [0, 57, 164])
def test_a_closed_gate_ends_a_journal(kept, place):
    """What stands after it stays as it is until something is put."""
    data = spoil(kept, place, 0)
    assert kept.confirmed("T0002") == Said(3, b"REFUSED 2 UnknownTrade\n")
    assert kept.store.file.read_bytes() == data
    assert kept.report(ROWS) == REPORT


def figures(journal, reference: str) -> list[str]:
    """The lines of a confirmation that the trade has, and not the issue."""
    return [line for line in journal.confirmed(reference).text.splitlines() if line.startswith(FIGURES)]


def test_each_byte_of_the_first_slot_is_turned(kept):
    """A record has no sum, so what is turned may read as another coupon; but then the trades after it are told as
    before. The next gate, at 57, ends the journal."""
    good = kept.store.file.read_bytes()
    first, second = figures(kept, "T0001"), figures(kept, "T0002")
    assert first and second
    refused, told = [], []
    for place in range(58):
        kept.store.file.write_bytes(good)
        data = spoil(kept, place, good[place] ^ 255)
        if kept.confirmed("T0002").status == 6:
            refused.append(place)
        if (figures(kept, "T0001"), figures(kept, "T0002")) == (first, second):
            told.append(place)
        assert kept.store.file.read_bytes() == data
    assert refused == [*range(53), 56]
    assert told == [53, 54, 55]
