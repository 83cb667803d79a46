"""The program on this machine: what a command of it writes, and how it ended."""
from __future__ import annotations

import importlib
import os
import subprocess
import tempfile
import threading
import time
from collections.abc import Iterator
from contextlib import suppress
from typing import IO, Union

Path = Union[str, "os.PathLike[str]"]

# How many bytes of lines are taken at a time, and how many may wait meanwhile, so that the program goes on.
_TAKEN, _WAITING = 1 << 16, 1 << 20
# How many seconds pass until a file that a program writes is looked at again.
_PAUSE = 0.02


class Error(Exception):
    """What every exception of this module is."""


class Ended(Error):
    """The program ended with another status than 0. docs/FORMATS.md says what each means."""

    def __init__(self, status: int, said: str) -> None:
        super().__init__(f"status {status}: {said.strip()}")
        self.status = status
        self.said = said

    def __reduce__(self) -> tuple[type[Ended], tuple[int, str]]:
        return type(self), (self.status, self.said)


def ran(program: Path, *words: str, rows: bytes = b"") -> bytes:
    """All that a command writes. It is `Ended` if its status is not 0."""
    return b"".join(pieces(program, *words, rows=rows))


def pieces(program: Path, *words: str, rows: bytes, patience: float | None = None) -> Iterator[bytes]:
    """What a command writes, some bytes at a time, while it goes on. It is `Ended` after the last of them if its status
    is not 0, and killed after `patience` seconds, which is subprocess.TimeoutExpired. Whoever leaves off early ends it.
    """
    # By files, so that the program never waits for a pipe.
    with tempfile.TemporaryFile() as sent, tempfile.TemporaryFile() as came, tempfile.TemporaryFile() as said:
        sent.write(rows)
        sent.seek(0)
        process = subprocess.Popen([os.fspath(program), *words], stdin=sent, stdout=came, stderr=said)
        try:
            yield from _written(process, came.fileno(), patience)
        finally:
            process.kill()
            process.wait()
        if process.returncode != 0:
            said.seek(0)
            raise Ended(process.returncode, said.read().decode(errors="replace"))


def _written(process: subprocess.Popen[bytes], file: int, patience: float | None) -> Iterator[bytes]:
    """What a process writes to a file, until it ends."""
    begin, place = time.monotonic(), 0
    while True:
        # Asked before the file is read, which has all then.
        is_over = process.poll() is not None
        while piece := os.pread(file, _TAKEN, place):
            yield piece
            place += len(piece)
        if is_over:
            return
        if patience is not None and time.monotonic() - begin > patience:
            raise subprocess.TimeoutExpired(process.args, patience)
        with suppress(subprocess.TimeoutExpired):
            process.wait(_PAUSE)


def lines(program: Path, *words: str, rows: bytes) -> Iterator[bytes]:
    """The lines that a command writes, some whole ones at a time, while its input is sent. It is `Ended` after the last
    of them if its status is not 0. Whoever leaves off early ends it."""
    with tempfile.TemporaryFile() as said:
        process = subprocess.Popen([os.fspath(program), *words], stdin=subprocess.PIPE, stdout=subprocess.PIPE,
                                   stderr=said, bufsize=_TAKEN)
        assert process.stdin and process.stdout
        sender = threading.Thread(target=_send, args=(process.stdin, rows))
        sender.start()
        try:
            with process.stdout as output:
                _widen(output)
                while some := output.read(_TAKEN) + output.readline():
                    yield some
            status = process.wait()
        finally:
            process.kill()
            process.wait()
            sender.join()
        if status != 0:
            said.seek(0)
            raise Ended(status, said.read().decode(errors="replace"))


def _widen(pipe: IO[bytes]) -> None:
    """Lets more bytes wait in a pipe, where that is possible."""
    with suppress(ImportError, AttributeError, OSError):
        fcntl = importlib.import_module("fcntl")
        fcntl.fcntl(pipe, fcntl.F_SETPIPE_SZ, _WAITING)


def _send(pipe: IO[bytes], rows: bytes) -> None:
    """A program that ends early takes no more, and its status says why."""
    with suppress(BrokenPipeError), pipe:
        pipe.write(rows)
