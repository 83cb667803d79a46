"""A scheduler of Dask and its workers, each a process of this machine, on loopback."""
from __future__ import annotations

import contextlib
import os
import pathlib
import signal
import subprocess
import sys
from collections.abc import Iterator
from typing import Any

import pytest

from support.program import PATIENCE, ROOT
from support.server import free_port

# After how long a worker that does not answer is given up. Dask waits for ten of its beats, which are half a second.
WORKER_TTL = "2s"


class Cluster:
    """A scheduler, its workers by their names, and a client."""

    def __init__(self, folder: pathlib.Path) -> None:
        distributed: Any = pytest.importorskip("distributed", reason="distributed is missing")
        self.folder = folder
        self.processes: list[subprocess.Popen[bytes]] = []
        self.address = f"tcp://127.0.0.1:{free_port()}"
        self._start("scheduler", "--host", "127.0.0.1", "--port", self.address.rpartition(":")[2], "--no-dashboard")
        self.client = distributed.Client(self.address, timeout=PATIENCE)

    def _start(self, kind: str, *words: str) -> subprocess.Popen[bytes]:
        path = os.pathsep.join([str(ROOT / "clients/python/src"), os.environ.get("PYTHONPATH", "")])
        settings = {"PYTHONPATH": path, "DASK_DISTRIBUTED__SCHEDULER__WORKER_TTL": WORKER_TTL}
        with open(self.folder / f"said.{kind}", "ab") as said:
            self.processes.append(subprocess.Popen(
                [sys.executable, "-m", f"distributed.cli.dask_{kind}", *words], cwd=self.folder,
                env=os.environ | settings, stdin=subprocess.DEVNULL, stdout=said, stderr=said))
        return self.processes[-1]

    @contextlib.contextmanager
    def workers(self, *folders: pathlib.Path) -> Iterator[list[subprocess.Popen[bytes]]]:
        """A worker over each folder, which is there for its own files."""
        started = [self._start("worker", self.address, "--nthreads", "1", "--no-nanny", "--no-dashboard",
                               "--local-directory", str(folder)) for folder in folders]
        try:
            self.client.wait_for_workers(len(folders), timeout=PATIENCE)
            yield started
        finally:
            for worker in started:
                self._end(worker)
            # Each test has workers of its own.
            while self.client.nthreads():
                self.client.sync(self.client._update_scheduler_info)

    def _end(self, process: subprocess.Popen[bytes]) -> None:
        process.send_signal(signal.SIGCONT)
        process.kill()
        process.wait()
        self.processes.remove(process)

    def close(self) -> None:
        self.client.close()
        for process in list(self.processes):
            self._end(process)
