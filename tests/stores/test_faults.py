"""Calls of the system that fail under a command over a store and under a server, one name of a call after the other.
The status is that of the documents, nothing that was told is lost, and what is sent again has its whole answer. The
gate tries some calls of each name, and --long all."""
from __future__ import annotations

import errno
import shutil
from collections.abc import Iterator
from typing import NamedTuple

import pytest

from support.answers import added, asked, entered, found
from support.books import Book
from support.faults import Fault
from support.server import Server
from support.stores import KINDS, REPORT, ROWS, Store

TRADES = ("T0001", "T0002")
MARKS = b"123456AA3,25000,2024-04-01,4\n"
HOLDINGS = b"123456AA3,25000,2024-04-01,yield,4\n123456AA3,10000,2024-04-01,price,100.725\n"
PRINTED = b"reference,price,total\nT0001,100.725,25493.75\nT0002,100.725,10197.50\n"
# What a call ends with, but for those that end with an error of the disk alone.
ERRORS = {"open": (errno.EMFILE, errno.EACCES), "write": (errno.ENOSPC, errno.EPIPE),
          "pwrite": (errno.ENOSPC, errno.EIO), "ftruncate": (errno.EIO, errno.ENOSPC),
          "accept": (errno.EMFILE, errno.ENOMEM), "bind": (errno.EADDRINUSE,), "socket": (errno.EMFILE,),
          "recv": (errno.ECONNRESET,), "send": (errno.EPIPE, errno.ECONNRESET)}
DOOR = ("socket", "bind", "listen", "accept")
LINK = ("recv", "send")


class Scene(NamedTuple):
    """A command, its words and its input, and what the store is before: `none`, `kept`, `bare`, which is one without
    its log, or `sealed`, which is one that a command has audited."""

    command: str
    words: tuple[str, ...]
    rows: bytes
    before: str


SCENES = {
    "first-import": Scene("import", (), ROWS, "none"),
    "import-again": Scene("import", (), ROWS, "kept"),
    "confirm": Scene("confirm", ("--desk=ALPHA", "--ref=T0001"), b"", "kept"),
    "positions": Scene("positions", ("--desk=ALPHA",), b"", "kept"),
    "mark": Scene("mark", (), MARKS, "kept"),
    "figures": Scene("figures", (), HOLDINGS, "kept"),
    "check": Scene("check", ("--desk=ALPHA",), PRINTED, "kept"),
    "check-store": Scene("check-store", (), b"", "kept"),
    "import-again-without-a-log": Scene("import", (), ROWS, "bare"),
    "confirm-without-a-log": Scene("confirm", ("--desk=ALPHA", "--ref=T0001"), b"", "bare"),
    "import-again-by-a-seal": Scene("import", (), ROWS, "sealed"),
    "confirm-by-a-seal": Scene("confirm", ("--desk=ALPHA", "--ref=T0001"), b"", "sealed"),
}
READING = "open read write pread pwrite fdatasync fsync"
CALLS = {
    "sqlite": {"first-import": READING + " ftruncate", "import-again": READING, "confirm": READING,
               "positions": READING, "mark": READING, "figures": READING, "check": READING,
               "check-store": READING + " unlink",
               "import-again-without-a-log": READING + " rename unlink",
               "confirm-without-a-log": READING + " rename unlink",
               "confirm-by-a-seal": "open write pread pwrite fdatasync fsync",
               "serve": "open read pread pwrite fdatasync fsync ftruncate socket bind listen accept recv send"},
    "journal": {"first-import": "open read write pread pwrite fdatasync fsync flock",
                "import-again": "open read write pread fdatasync flock", "confirm": "open write pread fdatasync flock",
                "positions": "open write pread fdatasync flock", "mark": "open read write pread fdatasync flock",
                "figures": "open read write pread fdatasync flock",
                "check": "open read write pread fdatasync flock",
                "check-store": "open write pread fdatasync flock",
                "serve": "open pread pwrite fdatasync fsync flock socket bind listen accept recv send"},
}
CASES = [(kind, scene, call) for kind in KINDS for scene, calls in CALLS[kind].items() for call in calls.split()]


@pytest.fixture(scope="module")
def kept(muni, tmp_path_factory) -> dict[str, Book]:
    """A store of each kind with the issue and two trades."""
    books = {kind: Book(muni, Store(kind, tmp_path_factory.mktemp(kind) / "store")) for kind in KINDS}
    for book in books.values():
        assert book.report(ROWS) == REPORT
    return books


@pytest.fixture
def fresh(muni, kept, tmp_path):
    """Makes the store of a scene anew, always at the same path."""

    def make(kind: str, before: str) -> Book:
        book = Book(muni, Store(kind, tmp_path / "store"))
        book.store.remove()
        for file in kept[kind].store.path.parent.iterdir():
            if before != "none" and not (before == "bare" and file.name.endswith("-wal")):
                shutil.copy(file, tmp_path)
        if before == "sealed":
            assert book.confirmed("T0001").status == 0
        return book

    return make


def tried(call: str, count: int, is_long: bool) -> Iterator[Fault]:
    """Faults of a name: at each of so many calls, once and from then on; or at the first, the middle and the last."""
    errors = ERRORS.get(call, (errno.EIO,))
    places = range(1, count + 1) if is_long else sorted({1, count // 2 + 1, count})
    for turn, at in enumerate(places):
        for is_onwards in ((False, True) if is_long else (turn % 2 == 1,)):
            yield Fault(call, at, errors[turn % len(errors)], is_onwards)


def wanted_status(scene: Scene, fault: Fault, count: int) -> int:
    """Of the input, the output or the store. An input is read up to its end, by two calls: the first of all, or the last
    for `figures` and `check`, which open the store before."""
    if fault.call == "write":
        return 5
    inputs = range(count - 1, count + 1) if scene.command in ("figures", "check") else range(1, 3)
    return 4 if fault.call == "read" and fault.at in inputs and scene.rows else 6


def is_harmless(kind: str, scene: Scene, fault: Fault, has_ended_well: bool) -> bool:
    """Whether what failed is not needed: an empty log that was made may stay; the open of a log that is not there fails
    in any case, and that of the folder of one that is removed comes after all else; a look at a file for its seal that
    fails costs the seal alone, and a file that cannot be opened by its seal is audited."""
    if fault.call in ("rename", "unlink"):
        return True
    is_looked_at = kind == "sqlite" and fault.call in ("open", "pread")
    is_left = fault.call == "open" and scene.before == "bare" or scene.before == "sealed" and not fault.is_onwards
    return has_ended_well and (is_looked_at or is_left)


@pytest.mark.parametrize("kind", KINDS)
@pytest.mark.parametrize("name", SCENES)
def test_no_call_of_a_command_is_left_out(faults, fresh, kind, name):
    """A journal has neither a log nor a seal, so without the one and with the other it is as it was."""
    scene = SCENES[name]
    book = fresh(kind, scene.before)
    said = Book(faults.counting(book.muni), book.store).said(scene.command, *scene.words, rows=scene.rows)
    assert said.status == 0
    wanted = CALLS[kind].get(name) or CALLS[kind][name.removesuffix("-without-a-log").removesuffix("-by-a-seal")]
    assert {call for call, count in faults.counts().items() if count.in_all} == set(wanted.split())


@pytest.mark.parametrize(("kind", "name", "call"), [case for case in CASES if case[1] != "serve"])
def test_a_call_that_fails_under_a_command(faults, fresh, pytestconfig, kind, name, call):
    scene = SCENES[name]
    book = fresh(kind, scene.before)
    right = Book(faults.counting(book.muni), book.store).said(scene.command, *scene.words, rows=scene.rows)
    assert right.status == 0
    count = faults.counts()[call]
    for fault in tried(call, count.in_all, pytestconfig.getoption("--long")):
        book = fresh(kind, scene.before)
        said = Book(faults.at(book.muni, fault), book.store).said(scene.command, *scene.words, rows=scene.rows)
        # What fails after the last line does not take it back.
        if fault.at > count.at_answer or is_harmless(kind, scene, fault, said == right):
            assert said == right, fault
        else:
            assert said.status == wanted_status(scene, fault, count.in_all), fault
            is_front = right.output.startswith(said.output) and said.output != right.output
            assert is_front and (said.output.endswith(b"\n") or not said.output), fault
        for reference in TRADES:
            if scene.before != "none" or reference.encode() in said.output:
                assert book.confirmed(reference).status == 0, fault
        assert book.report(ROWS) == REPORT, fault


def status_of(ask, *words: object) -> int:
    """The status of an answer, or 0 if there is none."""
    try:
        answer = ask(*words)
    except OSError:
        return 0
    return answer if isinstance(answer, int) else answer.status


def day(server: Server) -> list[int]:
    """The statuses of a day with six connections: the issue, two trades, and looks at them."""
    return [status_of(added, server), *(status_of(entered, server, each) for each in TRADES),
            *(status_of(found, server, each) for each in TRADES), status_of(asked, server, "/lists/ALPHA")]


WHOLE_DAY = [200] * 6


@pytest.mark.parametrize("kind", KINDS)
def test_no_call_of_a_server_is_left_out(faults, fresh, kind):
    book = fresh(kind, "none")
    with Server(faults.counting(book.muni), book.store.name, 6) as server:
        assert day(server) == WHOLE_DAY
        assert server.ended() == 0
    assert {call for call, count in faults.counts().items() if count.in_all} == set(CALLS[kind]["serve"].split())


@pytest.mark.parametrize(("kind", "call"), [(kind, call) for kind, name, call in CASES if name == "serve"])
def test_a_call_that_fails_under_a_server(faults, fresh, pytestconfig, kind, call):
    book = fresh(kind, "none")
    with Server(faults.counting(book.muni), book.store.name, 6) as server:
        assert day(server) == WHOLE_DAY and server.ended() == 0
    count = faults.counts()[call]
    for fault in tried(call, count.in_all, pytestconfig.getoption("--long")):
        book = fresh(kind, "none")
        with Server(faults.at(book.muni, fault), book.store.name, 6) as server:
            answers = day(server)
            is_right(fault, answers, server.ended())
        # What fails while the store is closed costs no answer. A link is read once more after each answer.
        if call not in LINK:
            assert (answers == WHOLE_DAY) == (fault.at > count.at_answer), fault
        for reference, answer in zip(TRADES, answers[1:3]):
            assert answer != 200 or book.has(reference), fault
        with Server(book.muni, book.store.name, 6) as server:
            assert day(server) == WHOLE_DAY, fault
            assert server.ended() == 0, fault


def is_right(fault: Fault, answers: list[int], status: int | None) -> None:
    """A store that cannot be opened ends a server, and so does a door that fails. What fails later costs an answer: a
    request is answered 503, or its client has no answer, and the others are served. What no request brought is not
    found."""
    told = set(answers)
    if fault.call in DOOR:
        assert status == 7 and told <= {0, 200}, fault
        assert answers == sorted(answers, reverse=True), fault
        assert answers.count(200) == (fault.at - 1 if fault.call == "accept" else 0), fault
    elif fault.call in LINK:
        assert status == 0 and told <= {0, 200, 404}, fault
        assert fault.is_onwards or answers.count(0) <= 1, fault
    elif told == {0}:
        assert status == 6, fault
    else:
        assert status == 0 and told <= {200, 404, 503}, fault
        assert answers[0] == 503 or 404 not in answers[1:3], fault
        assert all(404 not in look or 200 not in look for look in zip(answers[1:3], answers[3:5])), fault
