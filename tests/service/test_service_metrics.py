"""The text for Prometheus that deploy/metrics makes of the log and the newest copy, and what goes by it."""
from __future__ import annotations

import json
import os
import pathlib
import re
import subprocess

import pytest

from support.program import ROOT, program_path
from support.stores import KINDS, ROWS, Store

PAGE = (ROOT / "deploy/README.md").read_text()


def line(status: str, seconds: str, by: str = "desk") -> str:
    return json.dumps({"at": "2026-01-01T00:00:00+00:00", "user": 'a"}\n', "status": status, "by": by, "seconds": seconds}) + "\n"


class Metrics:
    """The script over a log and copies in a folder."""

    def __init__(self, folder: pathlib.Path) -> None:
        self.folder, self.log, self.text = folder, folder / "desk.log", folder / "muni.prom"

    def add(self, *lines: str) -> None:
        with self.log.open("a") as file:
            file.writelines(lines)

    def run(self) -> dict[str, str]:
        subprocess.run([ROOT / "deploy/metrics", self.text, self.log, f"{self.folder}/muni-*"], check=True,
                       env=os.environ | {"MUNI_PROGRAM": str(program_path())})
        lines = [each for each in self.text.read_text().splitlines() if not each.startswith("#")]
        return {name: value for name, _, value in (each.rpartition(" ") for each in lines)}


@pytest.fixture
def metrics(tmp_path) -> Metrics:
    return Metrics(tmp_path)


def date(copy: pathlib.Path, seconds: int) -> None:
    """Makes the files of a copy as old as if it had been made then."""
    for file in copy.rglob("*"):
        os.utime(file, (seconds, seconds))


def requests(samples: dict[str, str]) -> dict[str, str]:
    return {name: value for name, value in samples.items() if name.startswith("muni_requests_total")}


def test_requests_are_counted_by_who_answered_and_status_and_by_seconds(metrics):
    metrics.add(line("200", "0.004"), line("200", "0.200"), line("503", "30.001", "queue"), "no JSON\n")
    samples = metrics.run()
    assert requests(samples) == {'muni_requests_total{by="desk",status="200"}': "2",
                                 'muni_requests_total{by="queue",status="503"}': "1"}
    buckets = {bound: samples.get(f'muni_request_seconds_bucket{{le="{bound}"}}') for bound in ("0.005", "0.25", "30", "+Inf")}
    assert buckets == {"0.005": "1", "0.25": "2", "30": "2", "+Inf": "3"}
    assert (samples["muni_request_seconds_count"], samples["muni_request_seconds_sum"]) == ("3", "30.205")
    assert samples["muni_log_unread_total"] == "1"


def test_what_was_counted_is_counted_on_and_a_rotated_log_loses_nothing(metrics):
    counted = 'muni_requests_total{by="desk",status="200"}'
    assert metrics.run().get(counted) is None
    metrics.add(line("200", "0.1"), line("200", "0.1")[:20])
    assert metrics.run()[counted] == "1", "a line that is being written is left"
    metrics.add(line("200", "0.1")[20:])
    assert metrics.run()[counted] == "2"
    assert metrics.run()[counted] == "2"
    metrics.add(line("200", "0.1"))
    metrics.log.rename(metrics.log.with_name("desk.log.1"))
    metrics.add(line("200", "0.1"))
    assert metrics.run()[counted] == "4"
    metrics.add(line("200", "0.1"))
    assert metrics.run()[counted] == "5"
    metrics.log.write_text(line("200", "0.1"))
    assert metrics.run()[counted] == "6", "it was emptied"


def test_the_newest_copy_is_checked_once(metrics, muni):
    for name, rows in (("muni-2026-01-01", ROWS), ("muni-2026-01-02", ROWS)):
        for store in ("muni", "muni-second"):
            (metrics.folder / name / store).mkdir(parents=True)
            muni.run("import", f"--store={metrics.folder}/{name}/{store}/book", rows=rows)
        date(metrics.folder / name, int(name[-1]) * 1_000_000)
    samples = metrics.run()
    assert samples["muni_copy_time_seconds"] == "2000000"
    assert {samples[f'muni_copy_sound{{store="{store}"}}'] for store in ("muni", "muni-second")} == {"1"}
    checked = muni.run("check-store", f"--store={metrics.folder}/muni-2026-01-01/muni/book").text
    kept = dict(re.findall(r"^DESK (\w+) (\d+)$", checked, re.M))
    assert kept and {desk: samples[f'muni_versions_kept{{store="muni",desk="{desk}"}}'] for desk in kept} == kept
    (metrics.folder / "muni-2026-01-02/muni/book").write_bytes(b"spoiled")
    assert metrics.run()['muni_copy_sound{store="muni"}'] == "1", "it was checked already"
    (metrics.folder / "muni-2026-01-02").rename(metrics.folder / "muni-2026-01-03")
    assert metrics.run()['muni_copy_sound{store="muni"}'] == "0"


@pytest.mark.parametrize("kind", KINDS)
def test_a_look_at_an_old_copy_makes_it_no_newer_and_a_store_has_one_name_each_day(metrics, muni, kind):
    for day in (1, 2):
        copy = metrics.folder / f"muni-2026-01-0{day}"
        copy.mkdir()
        store = Store(kind, copy / "book")
        muni.run("import", store.word, rows=ROWS)
        date(copy, day * 1_000_000)
        assert metrics.run()['muni_copy_sound{store="book"}'] == "1"
        assert metrics.run()["muni_copy_time_seconds"] == f"{day}000000"
    (metrics.folder / "muni-2026-01-03").mkdir()
    assert muni.run("check-store", Store(kind, metrics.folder / "muni-2026-01-01/book").word).status == 0
    metrics.text.unlink()
    assert metrics.run()["muni_copy_time_seconds"] == "2000000"


def test_dashboard_and_page_ask_for_what_there_is(metrics, muni):
    metrics.add(line("200", "0.1"))
    (metrics.folder / "muni-1").mkdir()
    muni.run("import", f"--store={metrics.folder}/muni-1/book", rows=ROWS)
    there = {re.split(r"[{ ]", name)[0] for name in metrics.run()}
    dashboard = json.loads((ROOT / "deploy/dashboard.json").read_text())
    asked = [target["expr"] for panel in dashboard["panels"] for target in panel["targets"]]
    rows = re.findall(r"^\| `([^`]*muni_[^`]*)` \|", PAGE, re.M)
    assert len(asked) >= 10 and len(rows) >= 6
    assert {name for text in asked + rows for name in re.findall(r"\bmuni_\w+", text)} <= there


def test_the_text_is_one_that_prometheus_takes(metrics):
    metrics.add(line("200", "0.1", 'a"\\b'))
    metrics.run()
    form = r'(# .*|[a-z_]+(\{[a-z]+="([^"\\]|\\.)*"(,[a-z]+="([^"\\]|\\.)*")*\})? [0-9.]+)'
    assert [each for each in metrics.text.read_text().splitlines() if not re.fullmatch(form, each)] == []
