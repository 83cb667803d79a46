"""./muni of a copy in which nothing is remembered: by which path it is started, and with which streams."""
from __future__ import annotations

import fnmatch
import os
import subprocess

import pytest

from support.copies import Copy
from support.launcher import QUOTE, Launcher, check
from support.program import PATIENCE, Said
from support.stores import REPORT, ROWS

FULL_OR_CLOSED = "muni: status 5: the output could not be written"


@pytest.fixture(scope="module")
def made(tmp_path_factory: pytest.TempPathFactory) -> Copy:
    """A copy in FOLDER/a copy, and a link FOLDER/linked to its folder of documents."""
    copy = Copy(tmp_path_factory.mktemp("starts"))
    (copy.root.parent / "linked").symlink_to(copy.root / "docs")
    (copy.root.parent / "link to it").symlink_to("a copy/muni")
    (copy.root / "docs/deep").mkdir()
    return copy


@pytest.fixture
def fresh(made: Copy) -> Copy:
    made.has_program()
    return made


# The folder in which it is started, below that of the copy, its path, and what the environment has besides.
PLACES = {
    "from its folder": ("a copy", "./muni", {}),
    "from the folder above": (".", "a copy/muni", {}),
    "from the folder above, by a dot": (".", "./a copy/muni", {}),
    "from a folder below": ("a copy/docs", "../muni", {}),
    "from two folders below": ("a copy/docs/deep", "../../muni", {}),
    "from a folder below that a link leads to": ("linked", "../muni", {"PWD": "{}/linked"}),
    "by a folder that a link leads to": (".", "linked/../muni", {}),
    "by a link": (".", "./link to it", {}),
    "by a link, from another folder": ("a copy/docs/deep", "../../../link to it", {}),
    "by its whole path": ("/", "{}/a copy/muni", {}),
    "by the path of commands": ("/", "muni", {"PATH": "{}/a copy:{PATH}"}),
    "by the path of commands, which is relative": (".", "muni", {"PATH": "a copy:{PATH}"}),
    "where cd goes to other folders": (".", "a copy/muni", {"CDPATH": "{}/a copy:{}/bin"}),
}


@pytest.mark.parametrize("place", PLACES)
def test_it_starts_by_any_path_with_nothing_remembered(fresh, place):
    folder, path, changes = PLACES[place]
    above = str(fresh.root.parent)
    there = {name: value.format(above, above, PATH=os.environ["PATH"]) for name, value in changes.items()}
    muni = Launcher(path.format(above), fresh.muni.changes | there)
    words = ["sh", "-c", 'exec "$0" "$@"', *muni.words(QUOTE, muni.environment(None))]
    for _ in range(2):
        told = subprocess.run(words, cwd=fresh.root.parent / folder, env=muni.environment(None), capture_output=True,
                              timeout=PATIENCE)
        check(Said(told.returncode, told.stdout, told.stderr), 0, "100.235")
        assert (fresh.root / "crates/muni_prog/out/muni.known").read_text() == "dist/muni\n"
    assert fresh.asked() == []


# Words, which streams are closed or full, and how the command ends.
STREAMS = [
    (QUOTE, "<&-", 0, "100.235", ""),
    (QUOTE, ">&-", 5, "", FULL_OR_CLOSED),
    (QUOTE, "2>&-", 0, "100.235", ""),
    (QUOTE, ">/dev/full", 5, "", FULL_OR_CLOSED),
    (QUOTE, "2>/dev/full", 0, "100.235", ""),
    (QUOTE, "<&- >&- 2>&-", 5, "", ""),
    (QUOTE[:2], "<&-", 2, "", "muni: status 2: the words are no command: NEXT is missing*"),
    (QUOTE[:2], ">&-", 2, "", "muni: status 2: the words are no command: NEXT is missing*"),
    (QUOTE[:2], "2>&-", 2, "", ""),
    (QUOTE[:2], "2>/dev/full", 2, "", ""),
    (("import", "--store=S"), "<&-", 4, "", "muni: status 4: the input could not be read"),
    (("import", "--store=S"), "<&- 2>&-", 4, "", ""),
    (("import", "--store=S"), ">&-", 5, "", FULL_OR_CLOSED),
    (("import", "--store=S"), "2>&-", 0, REPORT.decode().rstrip("\n"), ""),
    (("positions", "--store=none/S", "--desk=A"), "<&-", 6, "",
     "muni: status 6: the store failed: the folder none is not there"),
    (("load", "--store=S"), "<&-", 4, "", "muni: status 4: the input could not be read"),
    (("--version",), "<&-", 0, "muni *\na kit", ""),
    (("--version",), ">&-", 5, "", FULL_OR_CLOSED),
    (("--version",), ">/dev/full", 5, "", FULL_OR_CLOSED),
    (("--help",), "<&- 2>&-", 0, "muni computes *", ""),
    (("--help",), ">&-", 5, "", FULL_OR_CLOSED),
    (("--help",), ">/dev/full", 5, "", FULL_OR_CLOSED),
    (("quote", "--help"), ">/dev/full", 5, "", FULL_OR_CLOSED),
    (("quote", "--help"), ">/dev/full 2>/dev/full", 5, "", ""),
]


@pytest.mark.parametrize(("words", "streams", "status", "output", "error"), STREAMS,
                         ids=[f"{' '.join(words)} {streams}" for words, streams, *_ in STREAMS])
def test_streams_that_are_closed_or_full_are_told_as_they_are(fresh, tmp_path, words, streams, status, output, error):
    there = fresh.muni.environment(None)
    shell = ["sh", "-c", f'exec "$0" "$@" {streams}', *fresh.muni.words(words, there)]
    told = subprocess.run(shell, cwd=tmp_path, env=there, input=ROWS, capture_output=True, timeout=PATIENCE)
    said = Said(told.returncode, told.stdout, told.stderr)
    assert fnmatch.fnmatchcase(said.text.rstrip("\n"), output)
    check(said, status, said.text.rstrip("\n"), error)
