"""A desk that is moved from one store to another, as docs/SEVERAL.md says."""
from __future__ import annotations

import pathlib
import subprocess
from typing import NamedTuple

import pytest

from support.books import sql
from support.program import ROOT, Program, Said
from support.several import SOON, ask_store, away, lead, store_of
from support.site import Site
from support.trading import trade

# Its desks take long to start.
pytestmark = pytest.mark.xdist_group("moved desk")

DESK = "RETAIL"
ISSUES, QUOTES = "/issues issues", "/quotes quotes"
TABLE = f"SELECT * FROM versions_3 WHERE desk = '{DESK}' ORDER BY reference, number"


class Moved(NamedTuple):
    """The desk after its move, with its list before and what the user was answered meanwhile."""

    site: Site
    before: str
    meanwhile: list[int]
    folder: pathlib.Path


@pytest.fixture(scope="module", params=["sqlite", "journal"])
def site(request, deploy, muni) -> Site:
    """Three desks with corrections and cancels, all in the first store. The second has their issues."""
    site = deploy(SOON, "--stores=2", *(["--journal"] if request.param == "journal" else []))
    with away(site, "desk", "second"):
        muni.run("import", f"--store={store_of(site, 'desk')}", rows=(ROOT / "examples/book.csv").read_bytes())
        issues = ran(muni, "export", store_of(site, "desk"), "--issues").output
        ran(muni, "load", store_of(site, "second"), rows=issues)
    lead(site, ISSUES, QUOTES)
    return site


@pytest.fixture(scope="module")
def moved(site, muni, tmp_path_factory) -> Moved:
    folder = tmp_path_factory.mktemp("moved")
    before = site.ask("GET", f"/lists/{DESK}", user="rita").text
    lead(site, f"{DESK} moves", ISSUES, QUOTES)
    meanwhile = [site.ask("POST", "/trades", trade("M1", DESK), user="rita").status]
    rows = ran(muni, "export", copy_of(site, "desk", folder / "from"), f"--desk={DESK}").output
    with away(site, "second"):
        meanwhile.append(site.ask("GET", "/lists/ALPHA").status)
        ran(muni, "load", store_of(site, "second"), rows=rows)
    copy_of(site, "second", folder / "to")
    lead(site, f"{DESK} second", ISSUES, QUOTES)
    return Moved(site, before, meanwhile, folder)


def ran(muni: Program, command: str, store: str, *words: str, rows: bytes = b"") -> Said:
    said = muni.run(command, f"--store={store}", *words, rows=rows)
    assert said.status == 0
    return said


def copy_of(site: Site, store: str, folder: pathlib.Path) -> str:
    """The name of a copy of a store, which a desk may serve."""
    name = store_of(site, store)
    subprocess.run([site.deploy / "backup", name, folder], check=True)
    return f"{'journal:' * name.startswith('journal:')}{folder}/book"


def copies(moved: Moved) -> list[str]:
    prefix = "journal:" * moved.site.told["store"].startswith("journal:")
    return [f"{prefix}{moved.folder}/{name}/book" for name in ("from", "to")]


def test_who_asks_meanwhile_is_told_to_ask_again_and_others_are_answered(moved):
    assert moved.meanwhile == [503, 200]


@pytest.mark.parametrize("command", ["export", "list", "positions"])
def test_what_both_stores_say_of_the_desk_is_the_same(moved, muni, command):
    first, second = [ran(muni, command, copy, f"--desk={DESK}").output for copy in copies(moved)]
    assert first == second != b""


def test_the_tables_of_versions_are_the_same(moved):
    first, second = copies(moved)
    if first.startswith("journal:"):
        pytest.skip("a journal has no table")
    rows = [sql(copy, TABLE) for copy in (first, second)]
    assert rows[0] == rows[1] and len(rows[0]) == 14


def test_the_desk_goes_on_in_the_other_store_alone(moved):
    site = moved.site
    assert site.ask("GET", f"/lists/{DESK}", user="rita").text == moved.before
    body = trade("M2", DESK, cusip="990021AA5")
    assert site.ask("POST", "/trades", body, user="rita").status == 200
    found = [ask_store(site, store, "GET", f"/trades/{DESK}/M2").status for store in ("desk", "second")]
    assert found == [404, 200]
