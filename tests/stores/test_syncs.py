"""When files are synced: a line of a report comes after a sync of what it tells, and a command that only reads writes
nothing to the file of a store."""
import re

import pytest

from support.program import needs_trace
from support.stores import ROWS
from support.trace import Mark, letters

CONFIRM = ("confirm", "--desk=ALPHA", "--ref=T0001")


@pytest.fixture
def of_database(database):
    """The calls of a command over a database: W for what is written to the log, D for what is written to the file, S
    for a sync of either, L for a line."""
    needs_trace()
    path = str(database.store.path)
    marks = [Mark("W", "pwrite64", path + "-wal>"), Mark("D", "pwrite64", path + ">"),
             Mark("S", "fsync|fdatasync", path + "-wal>"), Mark("S", "fsync|fdatasync", path + ">"),
             Mark("L", "write", "1<")]
    return lambda *words, rows=b"": letters(database, *words, rows=rows, marks=marks, once="WDS")


def test_the_syncs_of_a_database(database, of_database):
    database.report(b"")
    assert re.fullmatch("[WS]*WSWSLWSLWSLDS[WS]*", of_database("import", rows=ROWS))
    assert re.fullmatch("[WS]*LLL", of_database("import", rows=ROWS))
    assert re.fullmatch("[WS]*L", of_database(*CONFIRM))
    assert re.fullmatch("[WS]*LLL", of_database("check-store"))


@pytest.fixture
def of_journal(journal):
    """The calls of a command over a journal: R for reads that follow each other, P for a put of bytes, S for a sync of
    the file, F for one of its folder, L for a line."""
    needs_trace()
    file = str(journal.store.file)
    marks = [Mark("R", "pread64", file + ">"), Mark("P", "pwrite64", file + ">"), Mark("S", "fdatasync", file + ">"),
             Mark("F", "fsync", str(journal.store.file.parent) + ">"), Mark("L", "write", "1<")]
    return lambda *words, rows=b"": letters(journal, *words, rows=rows, marks=marks, once="R")


def test_the_syncs_of_a_journal(of_journal):
    """What only reads makes no file. The first read looks what kind of file it is. A folder is synced as long as the
    file is empty, the file before anything in it is believed, and twice within each put."""
    assert of_journal(*CONFIRM) == ""
    assert of_journal("import") == "RFSR"
    assert of_journal(*CONFIRM) == "RFSRL"
    assert of_journal("import", rows=ROWS) == "RFSRPSPSLPSPSLPSPSL"
    assert of_journal("import", rows=ROWS) == "RSRLLL"
    assert of_journal("check-store") == "RSRLLL"
