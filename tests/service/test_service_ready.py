"""What the unit of a desk says, once, of a store that is not there or cannot be opened."""
from __future__ import annotations

import os
import pathlib
import subprocess

import pytest

from support.program import ROOT, Program
from support.several import give
from support.site import Site
from support.stores import ROWS
from support.trading import add_issue, tell, trade, until

READY = ROOT / "deploy/ready"


def ready(folder: pathlib.Path, *words: str, status: str = "") -> tuple[int, str]:
    (folder / "run").mkdir(exist_ok=True)
    more = {"RUNTIME_DIRECTORY": str(folder / "run"), "MUNI_PAUSE": "0"} | ({"EXIT_STATUS": status} if status else {})
    told = subprocess.run([READY, *words], env=os.environ | more, capture_output=True, text=True)
    return told.returncode, told.stderr


@pytest.mark.parametrize(("kept", "named"), [
    ("book", "journal:{}/book"), ("book", "{}/bok"), ("journal:book", "{}/book"), ("journal:book", "journal:{}/bok")])
def test_a_desk_does_not_start_beside_a_store_of_another_name_or_kind(muni: Program, tmp_path, kept, named):
    folder = tmp_path / "lib"
    folder.mkdir()
    muni.run("import", f"--store={'journal:' * ('journal' in kept)}{folder}/book", rows=ROWS)
    before = sorted(folder.iterdir())
    status, told = ready(tmp_path, "before", named.format(folder))
    assert status == 6 and told.startswith(f"muni: there is no {folder}/bo") and "MUNI_STORE has another name" in told
    assert ready(tmp_path, "before", named.format(folder)) == (6, ""), "it is told once"
    assert sorted(folder.iterdir()) == before
    assert ready(tmp_path, "before", f"{'journal:' * ('journal' in kept)}{folder}/book") == (0, "")


def test_a_first_start_makes_a_store_unless_one_must_exist(tmp_path):
    store = f"{tmp_path}/lib/book"
    (tmp_path / "lib").mkdir()
    assert ready(tmp_path, "before", store) == (0, "")
    assert ready(tmp_path, "before", "--must-exist", store) == (
        6, f"muni: there is no {store}, and the unit says --must-exist\n")


@pytest.mark.parametrize(("spoil", "why"), [
    (lambda file: file.write_text("a text\n"), "{} is no store"),
    (lambda file: (file.rename(file.with_name("x")), file.symlink_to("x")), "{} is no file"),
    (lambda file: None, "another program has it, or it is of a later version or spoiled: `muni check-store` says more"),
], ids=["text", "link", "store"])
def test_a_store_that_cannot_be_opened_is_told_once(muni: Program, tmp_path, spoil, why):
    file = tmp_path / "book"
    muni.run("import", f"--store={file}", rows=ROWS)
    spoil(file)
    told = f"muni: the store {file} cannot be opened: {why.format(file)}\n"
    assert ready(tmp_path, "after", str(file), status="6") == (0, told)
    assert ready(tmp_path, "after", str(file), status="6") == (0, "")
    assert ready(tmp_path, "after", str(file), status="TERM") == (0, "")
    assert ready(tmp_path, "after", str(file), status="6") == (0, told), "the desk has served since"


@pytest.fixture(scope="module")
def desk(site) -> Site:
    if os.getuid() != 0:
        pytest.skip("this user is not root, and cannot be others")
    return add_issue(site)


def test_a_store_of_another_owner_is_told_in_the_log_of_the_unit_and_heals(desk):
    folder, log = desk.folder / "lib", desk.folder / "log/muni"
    assert desk.ask("POST", "/trades", trade("O1")).status == 200
    for file in folder.iterdir():
        os.chown(file, 0, 0)
    tell(desk, 15)
    assert until(lambda: "cannot be opened" in log.read_text())
    told = f"muni: the store {folder}/book cannot be opened: {folder}/book is of the user 0, and the desk's user is 65101"
    assert not until(lambda: log.read_text().count("cannot be opened") > 1, seconds=3)
    assert told in log.read_text().splitlines()
    give(folder)
    assert until(lambda: desk.ask("GET", "/trades/ALPHA/O1").status == 200)
