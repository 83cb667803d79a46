"""The file of a store that is mounted without its folder. Its log would be on another device, and go with that."""
from __future__ import annotations

import os
import pathlib
import subprocess

import pytest

from support.books import Book
from support.program import PATIENCE, needs, program_path
from support.stores import REPORT, ROWS

# A folder of memory of its own with the file alone, as a container has it, a command, and the names in the folder.
MOUNTED = """
mount -t tmpfs none "$1" && touch "$1/store" && mount --bind "$2" "$1/store" || exit 99
folder=$1
shift 2
"$@"
status=$?
ls "$folder" >&2
exit $status
"""
COMMANDS = {
    "import": (), "load": (), "export": (), "check-store": (), "mark": (), "figures": (), "check": (),
    "list": ("--desk=ALPHA",), "positions": ("--desk=ALPHA",), "confirm": ("--desk=ALPHA", "--ref=T0001"),
    "serve": ("--port=1", "--connections=1"),
}


@pytest.fixture
def folder(tmp_path: pathlib.Path) -> pathlib.Path:
    needs("unshare", "mount")
    if os.getuid() != 0 or subprocess.run(["unshare", "--mount", "true"], capture_output=True).returncode != 0:
        pytest.skip("this user may mount nothing")
    made = tmp_path / "mounted"
    made.mkdir()
    return made


@pytest.mark.parametrize("command", COMMANDS)
def test_a_file_without_its_folder_is_refused_and_gets_no_log(database: Book, folder, command):
    assert database.report(ROWS) == REPORT
    before = database.store.state()
    words = [program_path(), command, f"--store={folder}/store", *COMMANDS[command]]
    told = subprocess.run(["unshare", "--mount", "sh", "-c", MOUNTED, "sh", folder, database.store.file, *words],
                          input=ROWS, capture_output=True, timeout=PATIENCE)
    assert (told.returncode, told.stdout, told.stderr) == (6, b"", b"store\n")
    assert database.store.state() == before
    assert database.report(ROWS) == REPORT, "its own folder has it as before"
