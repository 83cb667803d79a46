"""A desk that has as many trades as it may have: 100,000, or those of `--desk-limit`. It takes none more, while it
answers what it has and other desks go on."""
import contextlib
import sqlite3

import pytest

from support.answers import TRADE, added, asked, entered, found
from support.books import ISSUE, Book, needs_strict_tables, trade
from support.program import Said

GREATEST = 100_000
FIRST = "000000"
ROWS = ISSUE + """trade,ALPHA,T0001,123456AA3,buy,25000,2024-04-01,yield,4
trade,ALPHA,T0001,000000000,buy,25000,2024-04-01,yield,4
trade,ALPHA,000777,123456AA3,buy,25000,2024-04-01,yield,4
trade,BETA,T0001,123456AA3,buy,25000,2024-04-01,yield,4
"""
REPORT = b"""1,added,123456AA3
2,refused,14,DeskFull
3,refused,1,UnknownIssue
4,confirmed,000777,1,100.725,4.000,2025-01-01,25493.75
5,confirmed,T0001,1,100.725,4.000,2025-01-01,25493.75
"""
HELD = b"123456AA3 100000 2500000000 0 2500000000 2549375000.00\n"
MORE_HELD = b"123456AA3 100001 2500025000 0 2500025000 2549400493.75\n"
# Of these a desk that may have one trade more takes the first alone.
TWO_MORE = trade("T0001") + trade("T0002")
REPORT_ON_TWO = b"""1,confirmed,T0001,1,100.725,4.000,2025-01-01,25493.75
2,refused,14,DeskFull
"""


def fill_database(book: Book, count: int) -> None:
    """Copies the trade under further references of six digits, which no command does in so short a time."""
    needs_strict_tables()
    with contextlib.closing(sqlite3.connect(book.store.file)) as database, database:
        columns = [name for _, name, *_ in database.execute("PRAGMA table_info(versions_3)")]
        place = columns.index("reference")
        [version] = database.execute("SELECT * FROM versions_3").fetchall()
        marks = ", ".join("?" * len(columns))
        database.executemany(f"INSERT INTO versions_3 VALUES ({marks})",
                             ((*version[:place], f"{each:06}", *version[place + 1:]) for each in range(1, count)))


def fill_journal(book: Book, count: int) -> None:
    """The same of the slot of the trade, between the slot of the issue and the closed gate."""
    data = book.store.file.read_bytes()
    issue, slot, gate = data[:57], data[57:-1], data[-1:]
    assert slot.count(FIRST.encode()) == 1 and gate == b"\0"
    before, after = slot.split(FIRST.encode())
    slots = (before + b"%06d" % place + after for place in range(count))
    book.store.file.write_bytes(issue + b"".join(slots) + gate)


def fill(book: Book, count: int) -> None:
    book.report(ISSUE + trade(FIRST))
    (fill_database if book.store.kind == "sqlite" else fill_journal)(book, count)


def test_a_full_desk_takes_no_trade_more(book):
    fill(book, GREATEST)
    assert book.said("import", "--positions=ALPHA", rows=ROWS) == Said(0, REPORT + HELD)


def test_the_last_trade_of_a_desk_is_taken(journal):
    fill(journal, GREATEST - 1)
    assert journal.report(trade("T0001")) == b"1,confirmed,T0001,1,100.725,4.000,2025-01-01,25493.75\n"
    assert journal.report(trade("T0002")) == b"1,refused,14,DeskFull\n"
    assert journal.said("positions", "--desk=ALPHA") == Said(0, HELD)


def test_a_desk_has_one_trade_more_if_the_command_lets_it(book):
    """A command without the option confirms that trade when it is sent again, and takes no other."""
    fill(book, GREATEST)
    said = book.said("import", f"--desk-limit={GREATEST + 1}", "--positions=ALPHA", rows=TWO_MORE)
    assert said == Said(0, REPORT_ON_TWO + MORE_HELD)
    assert book.said("load", rows=TWO_MORE) == Said(0, REPORT_ON_TWO)
    assert book.has("T0001") and not book.has("T0002")


def test_a_desk_with_more_than_the_usual_number_is_listed_whole(book, serve):
    fill(book, GREATEST + 1)
    assert book.said("positions", "--desk=ALPHA") == Said(0, MORE_HELD)
    said = book.said("import", "--positions=ALPHA", rows=trade("T0001"))
    assert said == Said(0, b"1,refused,14,DeskFull\n" + MORE_HELD)
    # The names of the columns, or the issue, stand before the trades.
    assert book.said("list", "--desk=ALPHA").output.count(b"\n") == GREATEST + 2
    assert book.said("export", "--desk=ALPHA").output.count(b"\n") == GREATEST + 2
    server = serve(book.store, connections=3)
    assert asked(server, "/positions/ALPHA") == (200, MORE_HELD)
    assert entered(server, "T0001") == 409
    assert asked(server, "/latest/ALPHA").body.splitlines()[-1].startswith(b"100000 1 LIVE")
    assert server.ended() == 0


@pytest.mark.parametrize("command", ["import", "load"])
def test_a_limit_that_is_less_than_a_desk_has_bars_new_trades_alone(book, command):
    book.report(ISSUE + trade("T0001") + trade("T0002"))
    rows = trade("T0003") + trade("T0002") + "cancel,ALPHA,T0002,2\n" + trade("T0003").replace("ALPHA", "BETA")
    assert book.said(command, "--desk-limit=1", rows=rows).text == """1,refused,14,DeskFull
2,confirmed,T0002,1,100.725,4.000,2025-01-01,25493.75
3,confirmed,T0002,2,100.725,4.000,2025-01-01,25493.75
4,confirmed,T0003,1,100.725,4.000,2025-01-01,25493.75
"""
    # A canceled trade counts.
    assert book.said(command, "--desk-limit=2", rows=trade("T0003")).text == "1,refused,14,DeskFull\n"
    assert book.said(command, "--desk-limit=3", rows=trade("T0003")).text.startswith("1,confirmed,T0003,1,")


def test_a_server_lets_a_desk_have_as_many_trades_as_its_option_says(book, serve):
    server = serve(book.store, connections=9, more=["--desk-limit=1"])
    assert [added(server), entered(server, "T0001")] == [200, 200]
    again = asked(server, "/trades", {**TRADE, "reference": "T0001"})
    assert again.status == 200 and again.body.startswith(b"CONFIRMATION 1\n")
    assert asked(server, "/trades", {**TRADE, "reference": "T0002"}) == (409, b"REFUSED 14 DeskFull\n")
    corrected = asked(server, "/corrections", {**TRADE, "reference": "T0001", "number": "2", "par": "30000"})
    assert corrected.status == 200 and b"TOTAL 30592.50\n" in corrected.body
    assert asked(server, "/trades", {**TRADE, "desk": "BETA", "reference": "T0002"}).status == 200
    assert asked(server, "/cancels", {"desk": "ALPHA", "reference": "T0001", "number": "3"}).status == 200
    assert [entered(server, "T0002"), found(server, "T0002")] == [409, 404]
    assert server.ended() == 0
    # The store does not keep the option.
    server = serve(book.store, connections=1)
    assert entered(server, "T0002") == 200
    assert server.ended() == 0
