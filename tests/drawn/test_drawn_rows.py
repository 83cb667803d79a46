"""Texts of rows that are drawn at random, most of them hostile: each report is that of an exact calculator. And what
was acknowledged is kept if an import is killed."""
from __future__ import annotations

import os
import pathlib
import signal
import subprocess
import tempfile
import time

import pytest
from hypothesis import event, given
from hypothesis import strategies as st

from support.drawn import texts
from support.program import Program
from support.reference import Reference
from support.stores import KINDS, Store

# A hundred and one rows, whose import is killed.
ROWS = b"issue,123456AA3,X,zero,2020-01-01,,2030-01-01,,\n" + b"".join(
    b"trade,ALPHA,T%d,123456AA3,buy,%d,2024-01-01,yield,4\n" % (each, each + 1) for each in range(100))


@pytest.mark.parametrize("kind", KINDS)
def test_the_report_of_any_text_is_that_of_an_exact_calculator(muni: Program, kind: str):
    @given(st.lists(texts, min_size=1, max_size=3))
    def tried(several: list[bytes]) -> None:
        reference = Reference()
        with tempfile.TemporaryDirectory() as folder:
            store = Store(kind, pathlib.Path(folder) / "S")
            for text in several:
                wanted = reference.imported(text)
                said = muni.run("import", store.word, rows=text)
                if (said.status, said.output) != wanted and not reference.is_sure:
                    event("another figure of several that may be right")
                    return
                assert (said.status, said.output.splitlines()) == (wanted[0], wanted[1].splitlines())

    tried()


@pytest.mark.parametrize("kind", KINDS)
def test_what_was_acknowledged_is_kept_if_an_import_is_killed(muni: Program, tmp_path: pathlib.Path, kind: str):
    rows = tmp_path / "rows"
    rows.write_bytes(ROWS)
    whole = muni.run("import", Store(kind, tmp_path / "whole").word, rows=ROWS).output

    @given(st.integers(0, 59), st.integers(0, 5000))
    def tried(lines: int, microseconds: int) -> None:
        with tempfile.TemporaryDirectory() as folder:
            store = Store(kind, pathlib.Path(folder) / "S")
            with rows.open("rb") as source:
                process = muni.start("import", store.word, stdin=source, stdout=subprocess.PIPE, start_new_session=True)
            for _ in range(lines):
                process.stdout.readline()
            # The kill is to come at any moment, also within a line.
            time.sleep(microseconds / 1e6)
            os.killpg(process.pid, signal.SIGKILL)
            told = process.communicate()[0].split(b"\n")[:-1]
            if told and b",confirmed," in told[-1]:
                reference = told[-1].split(b",")[2].decode()
                assert muni.run("confirm", store.word, "--desk=ALPHA", f"--ref={reference}").status == 0
            again = muni.run("import", store.word, rows=ROWS)
            assert (again.status, again.output) == (0, whole)

    tried()
