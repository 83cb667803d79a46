"""The program that is tried, and what a command of it says."""
from __future__ import annotations

import os
import pathlib
import shutil
import subprocess
from collections.abc import Mapping
from typing import NamedTuple

import pytest

ROOT = pathlib.Path(__file__).resolve().parents[2]

# What a machine may be slow for without being wrong, in seconds.
PATIENCE = 60


class Said(NamedTuple):
    """How a command ends, and the bytes that it writes."""

    status: int
    output: bytes
    error: bytes = b""

    @property
    def text(self) -> str:
        return self.output.decode()


class Program:
    """The program at a path."""

    def __init__(self, path: pathlib.Path) -> None:
        self.path = path

    def run(self, *words: str | bytes, rows: bytes | str = b"", folder: pathlib.Path | None = None,
            environment: Mapping[str, str] | None = None) -> Said:
        """Runs a command to its end. Its input is `rows`, and its folder the one of the test if none is given."""
        data = rows.encode() if isinstance(rows, str) else rows
        told = subprocess.run([self.path, *words], input=data, capture_output=True, cwd=folder, timeout=PATIENCE,
                              env=None if environment is None else os.environ | environment)
        return Said(told.returncode, told.stdout, told.stderr)

    def start(self, *words: str | bytes, **how: object) -> subprocess.Popen[bytes]:
        """Starts a command. What it writes is dropped if `how`, the words of Popen, does not say where it goes."""
        return subprocess.Popen([self.path, *words], **{"stdin": subprocess.DEVNULL, "stdout": subprocess.DEVNULL,
                                                        "stderr": subprocess.DEVNULL, **how})


def program_path() -> pathlib.Path:
    """MUNI_PROGRAM, or the program of the repository."""
    return pathlib.Path(os.environ.get("MUNI_PROGRAM") or ROOT / "dist/muni").resolve()


def needs(*tools: str) -> None:
    """Skips the test, with a word, if a program is missing on this machine."""
    for tool in tools:
        if shutil.which(tool) is None:
            pytest.skip(f"{tool} is missing")


def needs_trace() -> None:
    """Skips the test if calls of the system cannot be watched here."""
    needs("strace")
    if subprocess.run(["strace", "-o", "/dev/null", "true"], capture_output=True).returncode != 0:
        pytest.skip("strace may not be used")
