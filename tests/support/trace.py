"""Calls of the system that a program makes, as strace shows them, and a program that stands still after one."""
from __future__ import annotations

import collections
import contextlib
import dataclasses
import os
import pathlib
import re
import signal
import subprocess
import time
from collections.abc import Iterator, Sequence
from typing import NamedTuple

from support.books import Book
from support.program import PATIENCE


class Mark(NamedTuple):
    """A letter for a call of a name on a file, by its path or as descriptor 1."""

    letter: str
    call: str
    file: str

    def fits(self, line: str) -> bool:
        return re.search(rf"\b(?:{self.call})\((?:\d+<)?{re.escape(self.file)}", line) is not None


def letters(book: Book, command: str, *words: str, rows: bytes = b"", marks: Sequence[Mark], once: str) -> str:
    """The calls of a command in order, by the letters of the first marks that they fit. Of a letter of `once` that
    follows itself only the first is told."""
    calls = "fsync,fdatasync,pread64,pwrite64,write"
    traced = subprocess.run(["strace", "-f", "-y", "-e", f"trace={calls}", "-o", "/dev/stderr", book.muni.path, command,
                             book.store.word, *words], input=rows, capture_output=True, timeout=PATIENCE)
    told = ""
    for line in traced.stderr.decode(errors="replace").splitlines():
        letter = next((mark.letter for mark in marks if mark.fits(line)), "")
        if letter not in once or not told.endswith(letter):
            told += letter
    return told


# Calls that touch no file. A command could not be stopped after its last one.
IN_MEMORY = {"execve", "exit_group", "brk", "mmap", "munmap", "mremap", "madvise", "mprotect", "getrandom"}


class Call(NamedTuple):
    """A call of the system by its name and which of that name it is, counted from the start of the program."""

    name: str
    number: int


def opening_calls(book: Book, command: str, *words: str, rows: str) -> list[Call]:
    """The calls of a command from the first that names the file of its store on. A seal is written again until the
    clock has moved on, so of the calls over an open seal the first of each name alone is told."""
    traced = subprocess.run(["strace", "-y", "-o", "/dev/stderr", book.muni.path, command, book.store.word, *words],
                            input=rows.encode(), capture_output=True, timeout=PATIENCE)
    found, counts, over_seal, has_begun = [], collections.Counter(), set(), False
    for line in traced.stderr.decode(errors="replace").splitlines():
        name = re.match(r"(\w+)\((\d+<[^>]*-seal>)?", line)
        if name and name[1] not in IN_MEMORY:
            counts[name[1]] += 1
            has_begun = has_begun or str(book.store.file) in line
            if has_begun and (name[2] is None or name[1] not in over_seal):
                found.append(Call(name[1], counts[name[1]]))
            if name[2]:
                over_seal.add(name[1])
    return found


def process_at_stop(command: subprocess.Popen[bytes], trace: pathlib.Path, number: int) -> int | None:
    """Waits until a command has stopped so many times, and answers its process, or None if it ended before."""
    while command.poll() is None:
        time.sleep(0.002)
        with contextlib.suppress(FileNotFoundError):
            stops = re.findall(rb"^(\d+) +--- stopped by SIGSTOP", trace.read_bytes(), re.M)
            if len(stops) >= number:
                return int(stops[number - 1])
    return None


@dataclasses.dataclass
class Stopped:
    """A command that stands still: its process, or None if it ended before, and, once it has gone on, what it wrote."""

    process: int | None
    output: bytes = b""


@contextlib.contextmanager
def stopped(book: Book, command: str, *words: str, rows: str, call: Call, is_killed: bool) -> Iterator[Stopped]:
    """A command that stands still after a call, if it comes to it, and goes on at the end of the block. One that is to
    be killed is killed when it has written its first line."""
    folder = book.store.path.parent
    trace, row = folder / "trace", folder / "row"
    stops = [call] + ([Call("write", 1)] if is_killed and call != ("write", 1) else [])
    inject = [word for each in stops for word in ("-e", f"inject={each.name}:signal=STOP:when={each.number}")]
    row.write_text(rows)
    with row.open("rb") as source:
        tracer = subprocess.Popen(
            ["strace", "-f", "-o", trace, "-e", f"trace={call.name},write,exit_group", *inject, book.muni.path, command,
             book.store.word, *words], stdin=source, stdout=subprocess.PIPE, stderr=subprocess.DEVNULL)
    stop = Stopped(process_at_stop(tracer, trace, 1))
    try:
        yield stop
    finally:
        process = stop.process
        with contextlib.suppress(ProcessLookupError):
            for number in range(2, len(stops) + 1):
                send(process, signal.SIGCONT)
                process = process_at_stop(tracer, trace, number)
            send(process, signal.SIGKILL if is_killed else signal.SIGCONT)
        stop.output = tracer.communicate(timeout=PATIENCE)[0]


def send(process: int | None, signal_number: signal.Signals) -> None:
    if process is not None:
        os.kill(process, signal_number)
