"""Links that a desk leaves in the folder of its store lead root nowhere, as root types the commands of the pages."""
from __future__ import annotations

import os
import pathlib
import re
import shutil
import subprocess
from collections.abc import Iterator
from typing import NamedTuple

import pytest

from support.program import ROOT, Program, needs, program_path
from support.stores import ROWS

DESK = 65_101
PAGE = (ROOT / "deploy/README.md").read_text() + (ROOT / "docs/SEVERAL.md").read_text()
# Each command of root that touches the folder of a store.
COMMANDS = [text for text in re.findall(r"`([^`\n]+)`|^    (.+)$", PAGE, re.M) for text in text
            if re.search(r"/var/lib/(private/)?muni", text) and re.search(r"^[a-z/]*(muni|chown|cp|mv|backup|for|as-owner|systemctl)\b", text)
            and not text.startswith("systemctl edit")]


class Machine(NamedTuple):
    """Folders as those of a machine with a desk, in which the desk has left links, and a file of root."""

    root: pathlib.Path
    secret: pathlib.Path
    store: pathlib.Path

    def run(self, command: str) -> subprocess.CompletedProcess[str]:
        """A command of the page, with these folders and without the system's units."""
        for old, new in (("/var/lib/private/", f"{self.root}/lib/"), ("/var/lib/muni", f"{self.root}/lib/muni"),
                         ("/usr/share/muni/deploy", str(ROOT / "deploy")), ("/root/", f"{self.root}/root/"),
                         ("/var/backups", f"{self.root}/backups"), ("FOLDER/", f"{self.root}/copy/"),
                         ("<ROWS", f"<{self.root}/rows")):
            command = command.replace(old, new)
        path = f"{self.root}/bin:/usr/sbin:{os.environ['PATH']}"
        return subprocess.run(["bash", "-c", command], cwd=self.root, env=os.environ | {"PATH": path},
                              stdin=subprocess.DEVNULL, capture_output=True, text=True, timeout=60)


@pytest.fixture
def machine(tmp_path: pathlib.Path, muni: Program) -> Iterator[Machine]:
    needs("setpriv", "unshare")
    if os.getuid() != 0 or subprocess.run(["unshare", "--mount", "true"], capture_output=True).returncode != 0:
        pytest.skip("this user is not root, and cannot be others, or may mount nothing")
    # Whoever is the desk's user has to reach the folders below.
    root = pathlib.Path(subprocess.run(["mktemp", "-d"], capture_output=True, text=True).stdout.strip())
    root.chmod(0o755)
    for name in ("bin", "root", "backups", "copy"):
        (root / name).mkdir()
    shutil.copy(program_path(), root / "bin/muni")
    (root / "bin/systemctl").write_text("#!/bin/sh\n")
    (root / "bin/systemctl").chmod(0o755)
    (root / "rows").write_bytes(ROWS)
    secret = root / "root/secret"
    secret.write_text("of root alone\n")
    secret.chmod(0o600)
    muni.run("import", f"--store={root}/copy/book", rows=ROWS)
    for name in ("root/issues.csv", "root/retail.csv"):
        (root / name).write_bytes(ROWS)
    for folder in ("lib/muni", "lib/muni-second", "lib/muni-quotes1", "lib/muni-quotes2"):
        (root / folder).mkdir(parents=True)
        muni.run("import", f"--store={root}/{folder}/book", rows=ROWS)
        plant(root / folder, secret)
    # As the system has it, so that whoever is the desk's user passes it in his unit alone.
    (root / "lib").chmod(0o700)
    yield Machine(root, secret, root / "lib/muni/book")
    shutil.rmtree(root)


def plant(folder: pathlib.Path, secret: pathlib.Path) -> None:
    """Links as foreign code in the desk may leave: to a file of root, and to one that there is not."""
    for name in ("book-seal", "book-wal"):
        (folder / name).unlink(missing_ok=True)
    for name in ("book.x", "book-wal", "report"):
        (folder / name).symlink_to(secret)
    for name in ("book-seal", "book.journal"):
        (folder / name).symlink_to(secret.with_name("made"))
    for file in (folder, *folder.iterdir()):
        os.chown(file, DESK, DESK, follow_symlinks=False)


def is_as_it_was(machine: Machine) -> bool:
    status = machine.secret.stat()
    return ((status.st_uid, status.st_mode & 0o777, machine.secret.read_text()) == (0, 0o600, "of root alone\n")
            and not machine.secret.with_name("made").exists())


def test_the_page_has_such_commands():
    assert sum("as-owner" in command for command in COMMANDS) == 3
    assert sum("backup " in command for command in COMMANDS) >= 4
    assert len(COMMANDS) >= 11


@pytest.mark.parametrize("command", COMMANDS, ids=range(len(COMMANDS)))
def test_a_command_of_root_follows_no_link(machine, command):
    machine.run(command)
    assert is_as_it_was(machine)
    copies = [file for folder in ("backups", "root") for file in (machine.root / folder).rglob("*")
              if file.is_file() and file != machine.secret and "muni-before" not in file.parts]
    assert [file for file in copies if "of root alone" in file.read_bytes().decode("latin-1")] == []


def test_going_back_to_a_copy_as_the_page_says(machine, muni):
    line = next(line for line in PAGE.splitlines() if line.startswith("To go back to a copy"))
    for command in re.findall(r"`([^`]+)`", line):
        assert machine.run(command).returncode == 0, command
    assert is_as_it_was(machine)
    folder = machine.store.parent
    assert {file.stat().st_uid for file in (folder, *folder.iterdir())} == {DESK}
    assert not any(file.is_symlink() for file in folder.iterdir())
    assert muni.run("export", f"--store={machine.store}").text == muni.run("export", f"--store={machine.root}/copy/book").text


def test_rows_are_imported_by_whom_the_store_is(machine, muni):
    folder = machine.store.parent
    for file in folder.iterdir():
        if file.is_symlink():
            file.unlink()
    [command] = [each for each in COMMANDS if "muni import" in each]
    told = machine.run(command)
    assert told.returncode == 0 and told.stdout.splitlines()[0].startswith("1,added,")
    assert {file.stat().st_uid for file in folder.iterdir()} == {DESK}


def test_a_backup_has_files_alone(machine):
    told = machine.run("/usr/share/muni/deploy/backup /var/lib/muni/book /root/first")
    assert told.returncode == 1 and told.stderr.startswith(f"backup: {machine.store}-wal is no file")
    assert not (machine.root / "root/first").exists()
    machine.store.unlink()
    machine.store.symlink_to(machine.secret)
    assert machine.run("/usr/share/muni/deploy/backup /var/lib/muni/book /root/first").returncode == 1
