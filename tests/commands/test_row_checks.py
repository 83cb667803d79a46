"""Each row of tables/check that a body can state, asked of a server: the answer is the line that the table has of it.
A body has no rows before it, so none of a reference that came before is asked."""
from __future__ import annotations

import csv
import json
import re
from typing import NamedTuple

import pytest

from support.program import Program
from support.server import Server
from support.stores import KINDS, Store
from support.tables import Case, bytes_of, cases

# In the order in which the columns of a body are counted.
COLUMNS = ("reference", "cusip", "side", "par", "settle", "basis", "value", "fee", "price", "yield", "redemption", "days",
           "principal", "accrued", "total", "kind", "dated", "first", "maturity", "coupon", "calls", "day_count")


class Row(NamedTuple):
    """A row of the table: its case and its place there, the rows of the store, the body, and the line."""

    name: str
    base: str
    body: dict[str, str]
    line: str


def line_of(told: str, names: list[str]) -> str:
    """The line of a row that is the first, and whose columns stand in their order."""
    rest = told.partition(",")[2]
    bad = re.fullmatch(r"bad,2,(\d+)", rest)
    if bad:
        rest = f"bad,2,{sorted(names, key=COLUMNS.index).index(names[int(bad[1]) - 1]) + 1}"
    return f"1,{rest}\n"


def rows_of(case: Case) -> list[Row]:
    words, sent, _, shown = case.parts
    names, *records = [record for record in csv.reader(bytes_of(sent).decode().splitlines(True)) if record] or [[]]
    told = [line for line in bytes_of(shown).decode().splitlines() if re.match("[1-9]", line)]
    if not set(names) <= set(COLUMNS) or len(set(names)) < len(names) or len(told) != len(records):
        return []
    desk = re.search(r"--desk=(\w+)", words)
    kept = case.base if "--store=S" in words else ""
    return [Row(f"{case.line}-{place}", kept, {**({"desk": desk[1]} if desk else {}), **dict(zip(names, record))},
                line_of(line, names))
            for place, (record, line) in enumerate(zip(records, told), 1)
            if len(record) == len(names) and ",again," not in line]


ROWS = [row for case in cases("check") for row in rows_of(case)]


@pytest.fixture(scope="module", params=KINDS)
def servers(request: pytest.FixtureRequest, muni: Program, tmp_path_factory: pytest.TempPathFactory):
    """A server over a store of a kind for each base."""
    found = {}
    for base in {row.base for row in ROWS}:
        store = Store(request.param, tmp_path_factory.mktemp("checks") / "S")
        assert muni.run("import", store.word, rows=bytes_of(base)).status == 0
        found[base] = Server(muni, store.name)
    yield found
    for server in found.values():
        server.process.kill()
        server.process.wait()


def asked(server: Server, body: dict[str, str]) -> str:
    sent = json.dumps(body).encode()
    return server.ask(b"POST /checks HTTP/1.1\r\nContent-Length: %d\r\n\r\n" % len(sent) + sent).decode()


@pytest.mark.parametrize("row", ROWS, ids=[row.name for row in ROWS])
def test_a_row_has_the_line_that_check_writes_of_it(servers, row):
    head, _, text = asked(servers[row.base], row.body).partition("\r\n\r\n")
    assert (head.split("\r\n")[0], text) == ("HTTP/1.1 200 OK", row.line)


def test_the_order_of_the_members_changes_nothing(servers):
    for row in ROWS:
        assert asked(servers[row.base], dict(reversed(row.body.items()))).endswith("\r\n\r\n" + row.line)


def test_only_rows_that_no_body_can_state_are_left_out():
    assert len(ROWS) == 409
