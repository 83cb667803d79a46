"""Programs of earlier versions, from the history of the repository."""
from __future__ import annotations

import pathlib
import subprocess

import pytest

from support.program import ROOT, Program, needs

PROGRAM = "dist/muni"


def git(*words: str) -> bytes:
    """What git answers, or nothing if it fails."""
    return subprocess.run(["git", *words], cwd=ROOT, capture_output=True).stdout


def earlier_program(version: str, folder: pathlib.Path) -> Program:
    """The last program of a version, which is put into a folder. Without the history the test is skipped."""
    needs("git")
    for commit in git("log", "--format=%H", "--", PROGRAM).decode().split():
        if git("show", f"{commit}:VERSION").decode().strip() == version:
            program = folder / f"muni-{version}"
            program.write_bytes(git("show", f"{commit}:{PROGRAM}"))
            program.chmod(0o755)
            return Program(program)
    pytest.skip(f"the history has no program of version {version}")
