"""Rows for `muni figures` over the workers of a Dask cluster, which Debian has as python3-distributed.

    from distributed import Client
    from muni import spread

    total = spread.figures(Client("tcp://head:8786"), "holdings", "D", "/shared/holdings.parts", "valued")

The rows are valued in parts (muni.parts). A worker has one copy of a store with the issues alone for its life, in its
own folder, or one for each of its threads. Each answer is checked against its last line. A part that fails at a
worker, as for a full disk or a program that hangs, is given to another one. Dask itself gives the parts of a worker
that is lost to the others, and after the scheduler's `worker-ttl` those of one that does not answer.

Nothing of Dask is imported before a client is given. This package and the program have to be on each worker.
"""
from __future__ import annotations

import hashlib
import importlib
import itertools
import os
import uuid
import warnings
from collections import Counter, deque
from collections.abc import Iterator
from contextlib import contextmanager
from typing import Any

from ._frames import Answer, Frame, question, rows_of, warn_of_refused
from ._program import Error, Path
from .parts import SIZE, Folder, OwnStore, Part, PartFault, Total, issues, store_of, told, value

# A distributed.Client.
Cluster = Any

# How many rows of a frame a part has.
ROWS = 100_000
# How many parts a thread of a worker is given at a time.
_AHEAD = 3


class WorkerFault(PartFault):
    """What a part failed of at a worker."""

    def __init__(self, said: str, worker: str) -> None:
        super().__init__(f"{worker}: {said}")
        self.said = said
        self.worker = worker

    def __reduce__(self) -> tuple[type[WorkerFault], tuple[str, str]]:
        return type(self), (self.said, self.worker)


def figures(client: Cluster, rows: Path, store: Path, folder: Path, result: Path, *, size: int = SIZE,
            program: Path = "muni", tries: int = 3, patience: float | None = None, risk: bool = False) -> Total:
    """Writes to `result` what `muni figures` writes on the file `rows` with the issues of `store`, and gives its total.
    With `risk` it is what `muni figures --risk` writes.

    `folder` and `rows` are on a file system that all workers see by the same name. The folder keeps the answers: if a
    run fails, the same call goes on with the parts that have none. For another file, other issues or other figures take
    a new folder. `size` is the bytes of a part, about. A part is tried `tries` times, and the last PartFault is raised.
    `patience` is the seconds after which the program on a part is ended. No server may have the store open at the
    begin.
    """
    shared = Folder(os.path.abspath(os.fspath(folder)))
    plan = shared.begin(rows, store, size, program, risk)
    kept = _given(client, shared.issues())
    tasks = ((_value_at, shared, number, kept, program, patience) for number in range(len(plan.parts)))
    for _ in _ended(client, tasks, tries):
        pass
    return shared.join(result)


def frame_figures(client: Cluster, frame: Frame, store: Path, *, rows: int = ROWS, program: Path = "muni",
                  tries: int = 3, patience: float | None = None, risk: bool = False, floats: bool = False) -> Frame:
    """The same as `muni.figures` of a frame, of which each part has so many rows. No file system is shared. The rows go
    to the workers, and the lines come back, as text; they become Decimals here, which takes the time of one processor.
    """
    asked = question(risk, floats)
    kept = _given(client, store_of(issues(store, program), program))
    parts = [Part(0, 0, start + 1, min(rows, len(frame) - start)) for start in range(0, max(1, len(frame)), rows)]
    tasks = ((_answer_at, rows_of(asked, frame.iloc[part.first - 1:part.first - 1 + part.rows]), part, kept, program,
              patience, risk) for part in parts)
    found = {number: future.result() for number, future in _ended(client, tasks, tries)}
    answer, total = Answer(asked), Total()
    for number, part in enumerate(parts):
        total += told(found[number], part)
        answer.add(found.pop(number))
    answer.last = str(total)
    valued = answer.beside(frame)
    warn_of_refused(valued)
    return valued


def _given(client: Cluster, data: bytes) -> Any:
    """A store for every task, by its digest. It is a task itself, so the scheduler has it again if all workers that had
    it are lost."""
    digest = hashlib.sha256(data).hexdigest()
    return _submitted(client, _named, digest, data, key=f"muni-issues-{digest}")


def _named(digest: str, data: bytes) -> tuple[str, bytes]:
    return digest, data


def _submitted(client: Cluster, *task: Any, **how: Any) -> Any:
    """Sends a task with what it needs, which Dask says is large. What is scattered ahead of a task is gone with its
    workers, and the scheduler keeps a task."""
    with warnings.catch_warnings():
        warnings.filterwarnings("ignore", "Large object")
        return client.submit(*task, pure=False, **how)


def _ended(client: Cluster, tasks: Iterator[tuple[Any, ...]], tries: int) -> Iterator[tuple[int, Any]]:
    """Runs tasks, each a function and its words, and gives their numbers and futures as they end well. One that fails
    is meant for another worker than those at which one has failed, as long as there is another. Dask may send it back
    all the same, so that it goes on if the others are lost. That is no further try."""
    distributed = importlib.import_module("distributed")
    run = uuid.uuid4().hex
    waiting = distributed.as_completed(loop=client.loop)
    sent: dict[str, tuple[int, tuple[Any, ...]]] = {}
    times: Counter[int] = Counter()
    faults: Counter[int] = Counter()
    failing: set[str] = set()

    def send(number: int, task: tuple[Any, ...], workers: list[str] | None = None) -> None:
        future = _submitted(client, *task, key=f"muni-{run}-{number}-{times[number]}", workers=workers,
                            allow_other_workers=workers is not None)
        times[number] += 1
        sent[future.key] = number, task
        waiting.add(future)

    def send_on() -> None:
        free = _AHEAD * max(1, sum(client.nthreads().values())) - len(sent)
        for number, task in itertools.islice(numbered, max(0, free)):
            send(number, task)

    numbered = enumerate(tasks)
    send_on()
    for future in waiting:
        number, task = sent.pop(future.key)
        if future.status == "finished":
            yield number, future
        else:
            fault = future.exception()
            was_sent_back = isinstance(fault, WorkerFault) and fault.worker in failing
            failing.update([fault.worker] if isinstance(fault, WorkerFault) else [])
            others = [each for each in client.nthreads() if each not in failing]
            faults[number] += not (was_sent_back and others)
            if faults[number] >= tries:
                raise PartFault(f"part {number}, tried {tries} times: {fault}") from fault
            send(number, task, others or None)
        send_on()


def _value_at(shared: Folder, number: int, kept: tuple[str, bytes], program: Path, patience: float | None) -> Total:
    """Sees to the answer of a part of a folder, at a worker."""
    with _lent(*kept) as store:
        return shared.value(shared.plan(), number, store, program, patience)


def _answer_at(rows: bytes, part: Part, kept: tuple[str, bytes], program: Path, patience: float | None,
               risk: bool) -> bytes:
    """The answer on rows, at a worker."""
    answer: list[bytes] = []
    with _lent(*kept) as store:
        value(rows, part, store, answer.append, program, patience, risk)
    return b"".join(answer)


# The copies of stores of this worker that no thread has now, by the digests of the stores.
_free: dict[str, deque[OwnStore]] = {}


@contextmanager
def _lent(digest: str, data: bytes) -> Iterator[str]:
    """The path of a store that no other thread has meanwhile. After a fault it is removed, and the next one is new."""
    worker = importlib.import_module("distributed").get_worker()
    free = _free.setdefault(digest, deque())
    try:
        try:
            store = free.pop()
        except IndexError:
            store = OwnStore(data, worker.local_directory)
        try:
            yield store.path
        except BaseException:
            store.remove()
            raise
    except (Error, OSError) as fault:
        raise WorkerFault(str(fault), worker.address) from None
    free.append(store)
