"""Commands to which memory is refused, at one call that asks for it or from one on: what they must be and leave."""
from __future__ import annotations

import collections
import os
import pathlib
import subprocess
from collections.abc import Mapping
from typing import NamedTuple

from support.program import PATIENCE, Program
from support.server import free_port, reached, received

Files = Mapping[str, bytes]

# How a command ends, and what it writes to its output or its connection.
Ended = tuple[int, bytes]


class Command(NamedTuple):
    """A command: its words, its input or the request of its one connection, the rows that are kept before it, whether
    it may be answered by a part of its lines, as an import, or of its bytes, as what is written in pieces, and whether
    the store fits its seal before it. Else there is none, as after a restore, and a file of sqlite is audited."""

    name: str
    words: tuple[str, ...]
    data: bytes = b""
    request: bytes | None = None
    before: bytes | None = None
    is_import: bool = False
    is_in_pieces: bool = False
    is_sealed: bool = False

    @property
    def store(self) -> str | None:
        return next((word for word in self.words if word.startswith("--store=")), None)


def compared(left: Files) -> frozenset[tuple[str, bytes | None]]:
    """What tells files apart: of a log without a page, which has 41 bytes, some of them random, its length."""
    return frozenset((name, None if name.endswith("-wal") and len(data) == 41 else data) for name, data in left.items())


def spread(count: int, most: int | None) -> list[int]:
    """Numbers from 1 to a count: as many as are wanted, or all of them."""
    if most is None or count <= most:
        return list(range(1, count + 1))
    return sorted({1 + place * (count - 1) // (most - 1) for place in range(most)})


class Machine:
    """The program with and without memory, over stores in a folder."""

    def __init__(self, program: Program, library: pathlib.Path, folder: pathlib.Path) -> None:
        self.program, self.library, self.folder = program, library, folder

    def run(self, command: Command, **refusal: str) -> Ended:
        """Runs a command. A refusal is the environment of tests/support/refuse.c."""
        port = free_port()
        words = [word.replace("--port=0", f"--port={port}") for word in command.words]
        here = os.environ | {"LD_PRELOAD": str(self.library), **refusal} if refusal else None
        process = self.program.start(*words, stdin=subprocess.PIPE, stdout=subprocess.PIPE, cwd=self.folder, env=here)
        if command.request is None:
            return self.status(process, command.data)
        answer = self.asked(process, port, command.request)
        status, output = self.status(process, b"")
        return status, answer + output

    @staticmethod
    def status(process: subprocess.Popen[bytes], data: bytes) -> Ended:
        output = process.communicate(data, timeout=PATIENCE)[0]
        return process.returncode, output

    @staticmethod
    def asked(process: subprocess.Popen[bytes], port: int, request: bytes) -> bytes:
        """What the server answers, or nothing if it ends before it listens."""
        try:
            with reached(process, port) as link:
                try:
                    link.sendall(request)
                except ConnectionError:
                    pass
                return received(link)
        except ConnectionError:
            return b""

    def calls(self, command: Command) -> tuple[Ended, int]:
        """What a command answers with memory, and how many of its calls ask for some."""
        right = self.run(command, REFUSE="0", REFUSE_COUNT="count")
        return right, int((self.folder / "count").read_text())

    def imported(self, store: str, rows: bytes) -> None:
        self.run(Command("", ("import", store), rows))

    def kept(self, store: str | None) -> list[Ended] | None:
        """What is kept: the positions of the desk, and one of its trades."""
        if store is None:
            return None
        return [self.run(Command("", words)) for words in (
            ("positions", store, "--desk=ALPHA"), ("confirm", store, "--desk=ALPHA", "--ref=T0002"))]

    def files(self) -> dict[str, bytes]:
        """The files of the store but its seal, which no copy fits."""
        return {each.name: each.read_bytes() for each in self.folder.glob("S*") if not each.name.endswith("-seal")}

    def put_back(self, kept: Files) -> None:
        for each in self.folder.glob("S*"):
            each.unlink()
        for name, data in kept.items():
            (self.folder / name).write_bytes(data)

    def seal(self, store: str) -> None:
        """Has the store audited and sealed, by a command that only reads."""
        self.run(Command("", ("positions", store, "--desk=ALPHA")))


class Trial:
    """A command of which calls are refused: what it does with memory, and what it does without."""

    def __init__(self, machine: Machine, command: Command) -> None:
        self.machine, self.command = machine, command
        if command.before:
            machine.imported(command.store, command.before)
        self.start = machine.files()
        self.begin()
        self.right, self.count = machine.calls(command)
        self.begin()
        self.steps = self.kept_after_each_row()
        self.begin()
        machine.run(command)
        self.last = machine.kept(command.store)
        self.ends: collections.Counter[str] = collections.Counter()
        self.tried: dict[object, str] = {}

    def begin(self) -> None:
        """Makes the store as it was before the command."""
        self.machine.put_back(self.start)
        if self.command.is_sealed:
            self.machine.seal(self.command.store)

    def kept_after_each_row(self) -> list[list[Ended] | None]:
        """What is kept if so many rows of an import were done."""
        kept = [self.machine.kept(self.command.store)]
        for row in self.command.data.splitlines(True) if self.command.is_import else []:
            self.machine.imported(self.command.store, row)
            kept.append(self.machine.kept(self.command.store))
        return kept

    def refuse(self, call: int, is_all: bool) -> None:
        """Refuses memory at a call, or from it on, and holds what comes of it against what must."""
        self.begin()
        changes = {"REFUSE": str(call), **({"REFUSE_ALL": "1"} if is_all else {})}
        status, output = self.machine.run(self.command, **changes)
        where = f"refused {'from' if is_all else 'at'} call {call}: "
        if (status, output) == self.right:
            self.ends["right"] += 1
            return
        assert status == 8, f"{where}status {status}, {output[:200]!r}"
        assert self.right[1].startswith(output) and (self.may_stop or not output), f"{where}wrote {output!r}"
        assert not output or self.command.is_in_pieces or output.endswith(b"\n"), f"{where}wrote {output!r}"
        left = self.machine.files()
        if not output and compared(left) == compared(self.start):
            self.ends["nothing touched"] += 1
            return
        # What comes of equal files after equal lines is tried once.
        state = (output, compared(left))
        if state not in self.tried:
            self.tried[state] = self.after(output, where)
        self.ends[self.tried[state]] += 1

    @property
    def may_stop(self) -> bool:
        """Whether a part of the answer may have been written."""
        return self.command.is_import or self.command.is_in_pieces

    def after(self, output: bytes, where: str) -> str:
        """Looks at what is kept after these lines, and at the same command again."""
        kept = self.machine.kept(self.command.store)
        rows = min(output.count(b"\n"), len(self.steps) - 1)
        told, next_one = self.steps[rows], self.steps[min(rows + 1, len(self.steps) - 1)]
        assert kept in (told, next_one, self.last), f"{where}kept {kept!r}"
        assert self.machine.run(self.command) == self.right, f"{where}the same command again"
        assert self.machine.kept(self.command.store) == self.last, f"{where}kept after the same command again"
        return "kept what was told" if kept == told else "kept what was in flight"
