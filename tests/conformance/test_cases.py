"""The cases for other firms: what the program answers, what the calculator draws, and what is said of wrong answers."""
import re
import subprocess
import sys
from collections import Counter

import cases
import pytest

from support.program import ROOT, Said

ROWS = cases.read()
FAMILIES = list(dict.fromkeys(cases.family(row) for row in ROWS))


def ran(*words: object) -> Said:
    """A program of the folder `conformance`."""
    told = subprocess.run([sys.executable, "-B", *map(str, words)], cwd=ROOT / "conformance", capture_output=True)
    return Said(told.returncode, told.stdout, told.stderr)


def of_family(name: str) -> list[dict[str, str]]:
    return [row for row in ROWS if cases.family(row) == name]


@pytest.fixture
def written(tmp_path):
    """Writes cases into a file of their own."""
    def write(rows: list[dict[str, str]]) -> object:
        path = tmp_path / "cases.csv"
        with open(path, "w", newline="", encoding="ascii") as file:
            cases.write(file, rows)
        return path

    return write


def test_there_are_as_many_cases_as_the_page_says():
    page = (ROOT / "conformance" / "README.md").read_text()
    found = re.findall(r"^\| `(\w+)` \| ([\d,]+) \|", page, re.M)
    listed = {name: int(count.replace(",", "")) for name, count in found}
    assert listed == Counter(map(cases.family, ROWS))
    assert sum(listed.values()) == len(ROWS) == 6630
    assert "`cases.csv` has 6,630 cases" in page


@pytest.mark.parametrize("family", FAMILIES)
def test_the_program_answers_the_cases_of_a_family(muni, written, family):
    rows = of_family(family)
    said = ran("check", "--jobs=2", "--all", f"--cases={written(rows)}", muni.path)
    assert (said.status, said.text) == (0, f"{len(rows)} passed, 0 failed\n")


@pytest.mark.parametrize("family", FAMILIES)
def test_the_calculator_draws_the_cases_of_a_family(family):
    assert ran("draw", "--compare", family) == (0, b"1 passed, 0 failed\n", b"")


def test_the_file_has_the_families_in_order_and_no_other_bytes(written):
    drawn = [name for name in re.findall(r'^    \("(\w+)",', (ROOT / "conformance" / "draw").read_text(), re.M)]
    assert FAMILIES == drawn
    assert written(ROWS).read_bytes() == cases.FILE.read_bytes()


@pytest.mark.parametrize("words", [["draw", "--compare", "nothing"], ["check"], ["check", "nothing"],
                                   ["check", "--cases=nothing", "check"]])
def test_words_that_are_wrong_are_refused(words):
    said = ran(*words)
    assert (said.status, said.output) == (2, b"") and b"usage:" in said.error


def test_a_family_that_is_not_what_is_drawn_is_named():
    said = ran("draw", "--seed=2", "--compare", "sum")
    assert (said.status, said.text.splitlines()[-1]) == (1, "0 passed, 1 failed")
    assert "the family sum" in said.text


@pytest.mark.parametrize(("spoiled", "families"), [
    ("sed 's/^PRICE \\(.*\\)[0-8] /PRICE \\19 /' \"$0.$$\"; exit $status", {"yield"}),
    ("cat \"$0.$$\"; exit 0", {"refused"}),
    ("exit $status", {"yield", "refused"}),
], ids=["a last digit", "the status of a refusal", "nothing written"])
def test_wrong_answers_are_shown_and_counted(muni, written, tmp_path, spoiled, families):
    rows = of_family("yield")[:20] + [row for row in of_family("refused") if row["refusal"]][:20]
    program = tmp_path / "wrong"
    program.write_text(f'#!/bin/sh\n{muni.path} "$@" >"$0.$$"\nstatus=$?\n{spoiled}\n')
    program.chmod(0o755)
    said = ran("check", "--jobs=2", f"--cases={written(rows)}", program)
    passed, failed = map(int, re.fullmatch(r"(\d+) passed, (\d+) failed", said.text.splitlines()[-1]).groups())
    assert (said.status, passed + failed) == (1, 40) and failed > 0
    assert said.text.count("failed: ") == min(failed, 20)
    assert f"{failed - 20} more failed" in said.text or failed <= 20
    wrong = dict(re.findall(r"^(yield|refused) +\d+ +(\d+)  ", said.text, re.M))
    assert {name for name, count in wrong.items() if count != "0"} == families


def test_a_certificate_has_the_sums_of_cases_and_program(muni, written, tmp_path):
    file, page = written(of_family("par")), tmp_path / "certificate"
    said = ran("check", f"--cases={file}", f"--certificate={page}", muni.path)
    assert said.status == 0
    text = page.read_text()
    for path in (file, muni.path):
        assert subprocess.run(["sha256sum", path], capture_output=True, text=True).stdout.split()[0] in text
    assert "passed             120 of 120 cases" in text
    assert re.search(r"^par +120 +0  par bonds", text, re.M)
    again = tmp_path / "again"
    ran("check", f"--cases={file}", f"--certificate={again}", "--jobs=1", muni.path)
    assert again.read_text() == text
