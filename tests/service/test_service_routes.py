"""Each request of examples/http is answered through nginx as the desk itself does."""
from __future__ import annotations

import pytest

from support.program import ROOT

FOLDER = ROOT / "examples/http"
REQUESTS = [line.split() for line in (FOLDER / "requests").read_text().splitlines()]


@pytest.fixture(scope="module")
def answers(site):
    """The answers in the order of the file, since the later ones need what the first ones enter."""
    def body(name: str) -> str | None:
        file = FOLDER / f"{name}.json"
        return file.read_text() if file.exists() else None

    return [site.ask(method, path, body(name), user="rita") for _, method, path, name in REQUESTS]


@pytest.mark.parametrize("place", range(len(REQUESTS)), ids=[line[3] for line in REQUESTS])
def test_a_request_is_answered_as_by_the_desk(answers, place):
    status, _, _, name = REQUESTS[place]
    assert (answers[place].status, answers[place].text) == (int(status), (FOLDER / f"{name}.answer").read_text())


def test_a_path_that_is_none_is_not_found(site):
    assert site.ask("GET", "/nothing")[::2] == (404, "404 Not Found\n")
