"""Calls of the C library that fail in a program, by the library of fault.c."""
from __future__ import annotations

import errno
import os
import pathlib
import subprocess
from collections.abc import Mapping
from typing import NamedTuple

from support.program import ROOT, Program, Said

# In the order of fault.c.
CALLS = ("open", "read", "write", "pread", "pwrite", "fdatasync", "fsync", "ftruncate", "rename", "unlink", "link",
         "flock", "socket", "bind", "listen", "accept", "recv", "send")
# In place of an error: the program is killed.
KILLED = 0


class Fault(NamedTuple):
    """Which call of a name ends with an error, once or from then on."""

    call: str
    at: int
    error: int = errno.EIO
    is_onwards: bool = False

    def __str__(self) -> str:
        return f"{errno.errorcode.get(self.error, 'a kill')} at {self.call} {self.at}{'+' if self.is_onwards else ''}"


class Count(NamedTuple):
    """How many calls of a name there were in all, and when the last answer was written."""

    in_all: int
    at_answer: int


class FaultyProgram(Program):
    """The program, with what it is started with to have calls that fail."""

    def __init__(self, muni: Program, environment: Mapping[str, str]) -> None:
        super().__init__(muni.path)
        self.environment = environment

    def run(self, *words: str | bytes, rows: bytes | str = b"", **how: object) -> Said:
        return super().run(*words, rows=rows, **{"environment": self.environment, **how})

    def start(self, *words: str | bytes, **how: object) -> subprocess.Popen[bytes]:
        return super().start(*words, **{"env": os.environ | self.environment, **how})


class Faults(NamedTuple):
    """The library, and a folder of its own."""

    library: pathlib.Path

    @classmethod
    def built(cls, folder: pathlib.Path) -> Faults:
        library = folder / "fault.so"
        source = ROOT / "tests/support/fault.c"
        subprocess.run(["gcc", "-O1", "-Wall", "-shared", "-fPIC", "-o", library, source], check=True)
        return cls(library)

    def program(self, muni: Program, environment: Mapping[str, str]) -> FaultyProgram:
        return FaultyProgram(muni, {"LD_PRELOAD": str(self.library), **environment})

    def at(self, muni: Program, fault: Fault) -> FaultyProgram:
        """The program with a fault."""
        environment = {"FAULT_CALLS": fault.call + ",", "FAULT_AT": str(fault.at), "FAULT_ERROR": str(fault.error)}
        return self.program(muni, environment | ({"FAULT_ONWARDS": "1"} if fault.is_onwards else {}))

    def at_seals(self, muni: Program, fault: Fault) -> FaultyProgram:
        """The program with a fault of a call over a seal."""
        faulty = self.at(muni, fault)
        return FaultyProgram(muni, {**faulty.environment, "FAULT_SEALS": "1"})

    def during(self, muni: Program, calls: str, file: pathlib.Path, error: int = errno.EIO) -> FaultyProgram:
        """The program of which calls, each with a comma after it, fail for as long as a file is there."""
        return self.program(muni, {"FAULT_CALLS": calls, "FAULT_WHILE": str(file), "FAULT_ERROR": str(error)})

    def counting(self, muni: Program, over_seals: bool = False) -> FaultyProgram:
        """The program, which leaves the counts of its calls for `counts`."""
        return self.program(muni, {"FAULT_COUNTS": str(self.counted)} | ({"FAULT_SEALS": "1"} if over_seals else {}))

    @property
    def counted(self) -> pathlib.Path:
        return self.library.with_name("counts")

    def counts(self) -> dict[str, Count]:
        """The calls of each name that the program made that ended last."""
        lines = self.counted.read_text().splitlines()
        return {call: Count(*map(int, line.split())) for call, line in zip(CALLS, lines, strict=True)}
