"""What tests/setup installs, with an apt-get that only writes down what it is asked, and packages that are files."""
from __future__ import annotations

import os
import pathlib
import subprocess

import pytest

from support.program import PATIENCE, ROOT

TOOLS = {
    "dpkg-query": '[ -e "$INSTALLED/$4" ] && printf installed',
    "id": 'echo "${USER_NUMBER:-0}"',
    "apt-get": 'echo "$@" >>"$ASKED"; [ "$1" = update ] || [ "${FAILS:-}" ] || { shift 3; for each; do '
               ': >"$INSTALLED/$each"; done; }',
}
GCC_IS_MISSING = ["update", "install -y --no-install-recommends gcc sqlite3"]


class Machine:
    """A machine on which all packages are installed but gcc and sqlite3."""

    def __init__(self, folder: pathlib.Path) -> None:
        self.asked_file = folder / "asked"
        self.installed = folder / "installed"
        self.installed.mkdir()
        (folder / "bin").mkdir()
        for name, text in TOOLS.items():
            (folder / "bin" / name).write_text(f"#!/bin/sh\n{text}\n")
            (folder / "bin" / name).chmod(0o755)
        self.surroundings = {"PATH": f"{folder}/bin:{os.environ['PATH']}", "ASKED": str(self.asked_file),
                             "INSTALLED": str(self.installed)}
        self.run()
        for package in ("gcc", "sqlite3"):
            (self.installed / package).unlink()
        self.asked_file.unlink()

    def run(self, **changes: str) -> tuple[int, str]:
        """The status, and the last line that is said."""
        told = subprocess.run([ROOT / "tests/setup"], env=os.environ | self.surroundings | changes, capture_output=True,
                              text=True)
        return told.returncode, told.stdout.splitlines()[-1].removeprefix("tests/setup: ")

    def asked(self) -> list[str]:
        return self.asked_file.read_text().splitlines() if self.asked_file.exists() else []


@pytest.fixture
def machine(tmp_path: pathlib.Path) -> Machine:
    return Machine(tmp_path)


def test_root_gets_what_is_missing_and_nothing_the_second_time(machine):
    assert machine.run() == (0, "all packages are installed")
    assert machine.asked() == GCC_IS_MISSING
    assert machine.run() == (0, "all packages are installed")
    assert machine.asked() == GCC_IS_MISSING


def test_another_user_is_told_what_is_missing(machine):
    status, said = machine.run(USER_NUMBER="1000")
    assert (status, said.strip()) == (1, "missing, and only root installs them, by apt-get: gcc sqlite3")
    assert machine.asked() == []


def test_an_install_that_fails_is_no_success(machine):
    status, said = machine.run(FAILS="1")
    assert (status, said.strip()) == (1, "still missing: gcc sqlite3")


TRIED = """import pytest

def test_good(): pass
def test_bad(): assert False
def test_left_out(): pytest.skip("no tool")
def test_broken(missing): pass
"""


@pytest.mark.parametrize(("words", "last", "status"), [
    ((), "1 passed, 2 failed, 1 skipped", 1), (("-k", "good or left"), "1 passed, 0 failed, 1 skipped", 0),
    (("-k", "none"), "0 passed, 1 failed, 0 skipped", 1)])
def test_a_run_ends_with_its_counts(machine, tmp_path, words, last, status):
    """Where all packages are installed. One worker is enough."""
    (tmp_path / "test_tried.py").write_text(TRIED)
    for package in ("gcc", "sqlite3"):
        (machine.installed / package).touch()
    said = subprocess.run([ROOT / "tests/run", tmp_path / "test_tried.py", "-n", "0", *words], capture_output=True,
                          text=True, timeout=PATIENCE, check=False, env=os.environ | machine.surroundings)
    assert (said.stdout.splitlines()[-1], said.returncode) == (last, status)


def test_other_words_of_a_test_are_no_command():
    said = subprocess.run([ROOT / "muni", "test", "--all"], capture_output=True, text=True, timeout=PATIENCE, check=False)
    assert (said.stdout, said.returncode) == ("", 2)
    assert "./muni test [--quick]" in said.stderr
