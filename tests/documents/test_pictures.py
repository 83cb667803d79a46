"""The pictures of the documents, which docs/pictures/make draws of crates.txt, of answers and of what was measured."""
import re
import subprocess

import pytest

from support.program import PATIENCE, ROOT

PICTURES = sorted(each.name for each in (ROOT / "docs" / "pictures").glob("*.svg"))


@pytest.fixture(scope="module")
def compared(muni) -> subprocess.CompletedProcess:
    return subprocess.run([ROOT / "docs" / "pictures" / "make", "--compare"], capture_output=True, text=True,
                          timeout=10 * PATIENCE)


@pytest.mark.parametrize("picture", PICTURES)
def test_a_picture_is_as_it_is_drawn(compared, picture):
    assert compared.stderr == ""
    assert f"failed: {picture}" not in compared.stdout


def test_each_picture_is_drawn(compared):
    assert (compared.returncode, compared.stdout) == (0, f"{len(PICTURES)} passed, 0 failed\n")


@pytest.mark.parametrize("picture", PICTURES)
def test_a_picture_is_shown_by_a_document(picture):
    shown = [page for page in (ROOT / "docs").glob("*.md") if re.search(rf"!\[.+\]\(pictures/{picture}\)",
                                                                      page.read_text())]
    assert shown
