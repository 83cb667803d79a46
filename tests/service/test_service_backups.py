"""Backups of a store that a desk serves."""
from __future__ import annotations

import pathlib
import subprocess
from typing import NamedTuple

import pytest

from support.program import Program
from support.rules import UNLIMITED
from support.site import Site
from support.trading import add_issue, clients, until

# These clients ask more than an address may.
EDITS = (UNLIMITED,)
CLIENTS, COUNT = 4, 6


class Copy(NamedTuple):
    """A backup: how it ended, how many trades it has, and how many there were at least and at most."""

    ended: tuple[int, str]
    kept: int
    least: int
    most: int
    answered: int


class Backups:
    """The script and the program on a site of a kind, and a folder for the copies."""

    def __init__(self, site: Site, program: Program, folder: pathlib.Path) -> None:
        self.site, self.program, self.folder = site, program, folder
        self.store = site.told["store"]
        self.prefix = "journal:" if self.store.startswith("journal:") else ""

    def copied(self, store: str, name: str) -> tuple[int, str]:
        came = subprocess.run([self.site.deploy / "backup", store, self.folder / name], stdin=subprocess.DEVNULL,
                              stderr=subprocess.PIPE, text=True)
        return came.returncode, came.stderr

    def trades_of(self, name: str) -> int:
        """How many trades stand in a copy, or -1 if it is none."""
        said = self.program.run("positions", f"--store={self.prefix}{self.folder / name}/book", "--desk=ALPHA")
        return int(said.text.split()[1]) if said.status == 0 and said.text else -1

    def copies(self) -> tuple[list[Copy], set[int | str]]:
        """Backups while clients enter trades, up to one that fails, and what these are answered other than 200."""
        found: list[Copy] = []
        with clients(self.site, CLIENTS) as entered:
            for place in range(COUNT):
                count = len(entered)
                until(lambda: len(entered) > count + 4)
                least = len(entered.accepted())
                ended = self.copied(self.store, str(place))
                # Of each client one more may have been at the desk.
                most = len(entered.accepted()) + CLIENTS
                answered = self.site.ask("GET", "/lists/ALPHA").status
                found.append(Copy(ended, self.trades_of(str(place)), least, most, answered))
                if ended != (0, "") or answered != 200:
                    break
        return found, entered.others()


@pytest.fixture(scope="module", params=["sqlite", "journal"])
def site(request, deploy) -> Site:
    """The desk over a store of each kind."""
    return add_issue(deploy(EDITS, *(["--journal"] if request.param == "journal" else [])))


@pytest.fixture(scope="module")
def backups(site, muni, tmp_path_factory) -> Backups:
    return Backups(site, muni, tmp_path_factory.mktemp("backups"))


def test_copies_have_what_was_acknowledged_and_the_desk_goes_on(backups):
    copies, others = backups.copies()
    for copy in copies:
        assert (copy.ended, copy.answered) == ((0, ""), 200)
        assert 0 < copy.least <= copy.kept <= copy.most
    assert len(copies) == COUNT
    assert others == set()


def test_a_store_that_no_desk_serves_is_copied(backups):
    with clients(backups.site, 1) as entered:
        until(lambda: len(entered) > 0)
    assert backups.copied(backups.store, "first") == (0, "")
    assert backups.copied(f"{backups.prefix}{backups.folder}/first/book", "second") == (0, "")
    assert backups.trades_of("second") == backups.trades_of("first") > 0


def test_a_folder_that_is_there_is_refused(backups):
    (backups.folder / "there").mkdir()
    assert backups.copied(backups.store, "there")[0] == 1
    assert list((backups.folder / "there").iterdir()) == []


def test_a_store_that_is_not_there_is_refused(backups):
    assert backups.copied(f"{backups.store}2", "none")[0] == 1
