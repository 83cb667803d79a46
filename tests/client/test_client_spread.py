"""Rows that are valued over workers of Dask, of which one is lost, stands still, has a full disk or a program that
hangs. Whatever happens, the lines are those of the program alone."""
from __future__ import annotations

import pathlib
import signal
import subprocess
import threading
import time
from collections.abc import Iterator
from typing import Any

import pytest

from support.books import Book
from support.dask import Cluster
from support.disks import small_disk
from support.program import PATIENCE, Program, program_path

pytest.importorskip("distributed", reason="distributed is missing")
pandas: Any = pytest.importorskip("pandas", reason="pandas is missing")

import muni
from muni import spread
from muni.parts import PartFault

PROGRAM = Program(program_path())
SIZE = 2_000
COLUMNS = ["cusip", "par", "settle", "basis", "value"]
# One cluster serves all of these.
pytestmark = [pytest.mark.xdist_group("dask"), pytest.mark.filterwarnings("ignore:.* rows have no figures")]


@pytest.fixture(scope="module")
def cluster(tmp_path_factory: pytest.TempPathFactory) -> Iterator[Cluster]:
    found = Cluster(tmp_path_factory.mktemp("dask"))
    yield found
    found.close()


@pytest.fixture
def whole(book: Book, rows: bytes) -> bytes:
    return book.said("figures", rows=rows).output


def folders(folder: pathlib.Path, count: int) -> list[pathlib.Path]:
    found = [folder / f"worker{place}" for place in range(count)]
    for each in found:
        each.mkdir()
    return found


class Holding:
    """A program that holds the first part that it is given, and tells which worker gave it."""

    def __init__(self, folder: pathlib.Path) -> None:
        self.held = folder / "held"
        self.path = folder / "holding"
        self.path.write_text(f'#!/bin/sh\nif [ "$1" = figures ] && mkdir "{self.held}" 2>/dev/null\n'
                             f'then echo $PPID $$ >"{self.held}/new" && mv "{self.held}/new" "{self.held}/by"\n'
                             f'exec sleep {PATIENCE}\nfi\nexec "{PROGRAM.path}" "$@"\n')
        self.path.chmod(0o755)

    def by(self) -> tuple[int, int] | None:
        """The worker and the program that hold a part."""
        path = self.held / "by"
        if not path.exists():
            return None
        worker, program = map(int, path.read_text().split())
        return worker, program


def test_a_file_has_the_lines_of_the_whole(cluster: Cluster, book: Book, file: pathlib.Path, tmp_path: pathlib.Path,
                                           whole: bytes) -> None:
    with cluster.workers(*folders(tmp_path, 2)):
        total = spread.figures(cluster.client, file, book.store.name, tmp_path / "folder", tmp_path / "result",
                               size=SIZE, program=PROGRAM.path)
        copies = list(tmp_path.glob("worker*/**/issues"))
    assert (tmp_path / "result").read_bytes() == whole
    assert f"{total}\n".encode() == whole.splitlines(keepends=True)[-1]
    # A worker has one copy of the store for all its parts.
    assert len(list((tmp_path / "folder/answers").iterdir())) > 5 and len(copies) == 2


def test_sensitivities_are_those_of_the_whole(cluster: Cluster, book: Book, file: pathlib.Path, rows: bytes,
                                              tmp_path: pathlib.Path) -> None:
    frame = frame_of(rows)
    how: dict[str, Any] = {"program": PROGRAM.path, "risk": True}
    with cluster.workers(*folders(tmp_path, 1)):
        spread.figures(cluster.client, file, book.store.name, tmp_path / "folder", tmp_path / "result", size=SIZE, **how)
        found = [spread.frame_figures(cluster.client, frame, book.store.name, rows=200, floats=floats, **how)
                 for floats in (False, True)]
    assert (tmp_path / "result").read_bytes() == book.said("figures", "--risk", rows=rows).output
    for each, floats in zip(found, (False, True)):
        assert each.equals(muni.figures(frame, book.store.name, floats=floats, **how))
        assert each.attrs["total"]["refused"] == each.refusal.notna().sum() > 0


def frame_of(rows: bytes) -> Any:
    """A frame of the rows, without their fees and sides."""
    fields = [row.decode().split(",") for row in rows.splitlines()]
    return pandas.DataFrame([row[:5] for row in fields if len(row) >= 5], columns=COLUMNS)


def test_a_frame_has_the_figures_of_the_whole(cluster: Cluster, book: Book, rows: bytes, tmp_path: pathlib.Path) -> None:
    frame = frame_of(rows)
    frame.index = frame.index[::-1]
    how: dict[str, Any] = {"rows": 60, "program": PROGRAM.path}
    with cluster.workers(*folders(tmp_path, 2)):
        found = spread.frame_figures(cluster.client, frame, book.store.name, **how)
        empty = spread.frame_figures(cluster.client, frame[:0], book.store.name, **how)
        with pytest.raises(ValueError, match="^columns: par missing"):
            spread.frame_figures(cluster.client, frame[["cusip", "settle", "basis", "value"]][:0], book.store.name, **how)
    assert found.equals(muni.figures(frame, book.store.name, program=PROGRAM.path))
    assert (len(empty), list(empty.columns)) == (0, list(found.columns))


@pytest.mark.parametrize("fault", [signal.SIGKILL, signal.SIGSTOP], ids=["killed", "stopped"])
def test_a_part_of_a_worker_that_is_lost_is_valued_by_another(cluster: Cluster, book: Book, file: pathlib.Path,
                                                              tmp_path: pathlib.Path, whole: bytes,
                                                              fault: signal.Signals) -> None:
    holding = Holding(tmp_path)
    with cluster.workers(*folders(tmp_path, 2)) as workers:
        thread = started(cluster, file, book, tmp_path, holding.path)
        deadline = time.monotonic() + PATIENCE
        while holding.by() is None:
            assert time.monotonic() < deadline
            time.sleep(0.02)
        worker, program = holding.by() or (0, 0)
        assert worker in [each.pid for each in workers]
        for process in (worker, program):
            subprocess.run(["kill", f"-{fault.value}", f"{process}"], check=True)
        thread.join(2 * PATIENCE)
        assert not thread.is_alive()
        assert len(cluster.client.nthreads()) == 1
        subprocess.run(["kill", "-9", f"{program}"], capture_output=True)
    assert (tmp_path / "result").read_bytes() == whole


def started(cluster: Cluster, file: pathlib.Path, book: Book, folder: pathlib.Path,
            program: pathlib.Path) -> threading.Thread:
    """A thread in which a file is valued."""
    thread = threading.Thread(target=spread.figures, args=(
        cluster.client, file, book.store.name, folder / "folder", folder / "result"),
        kwargs={"size": SIZE, "program": program})
    thread.start()
    return thread


def test_a_program_that_hangs_is_ended_and_its_part_valued(cluster: Cluster, book: Book, file: pathlib.Path,
                                                           tmp_path: pathlib.Path, whole: bytes) -> None:
    holding = Holding(tmp_path)
    with cluster.workers(*folders(tmp_path, 2)):
        spread.figures(cluster.client, file, book.store.name, tmp_path / "folder", tmp_path / "result", size=SIZE,
                       program=holding.path, patience=0.5)
    assert holding.by() is not None
    assert (tmp_path / "result").read_bytes() == whole


def test_a_worker_with_a_full_disk_leaves_its_parts_to_the_others(cluster: Cluster, book: Book, file: pathlib.Path,
                                                                  tmp_path: pathlib.Path, whole: bytes) -> None:
    with small_disk(tmp_path / "small", "16k") as disk, cluster.workers(disk, *folders(tmp_path, 1)):
        spread.figures(cluster.client, file, book.store.name, tmp_path / "folder", tmp_path / "result", size=SIZE,
                       program=PROGRAM.path, tries=2)
        assert not list(disk.glob("**/issues"))
    assert (tmp_path / "result").read_bytes() == whole


def test_a_part_that_fails_everywhere_is_told_of(cluster: Cluster, book: Book, file: pathlib.Path,
                                                 tmp_path: pathlib.Path, whole: bytes) -> None:
    """What was answered stays, and another run goes on."""
    failing = tmp_path / "failing"
    failing.write_text('#!/bin/sh\n[ "$1 $3" = "figures --from=1" ] && exit 6\n' f'exec "{PROGRAM.path}" "$@"\n')
    failing.chmod(0o755)
    words = (cluster.client, file, book.store.name, tmp_path / "folder", tmp_path / "result")
    with cluster.workers(*folders(tmp_path, 2)):
        with pytest.raises(PartFault, match="^part 0, tried 3 times: tcp://.*: Ended: status 6"):
            spread.figures(*words, size=SIZE, program=failing)
        assert not (tmp_path / "result").exists()
        spread.figures(*words, size=SIZE, program=PROGRAM.path)
    assert (tmp_path / "result").read_bytes() == whole
