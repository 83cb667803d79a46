"""What the client exports of a store of this machine."""
from __future__ import annotations

import pytest

import muni
from support.program import Program, program_path
from support.server import Server
from support.stores import AMENDED_ROWS, Store

PROGRAM = Program(program_path())


def test_an_export_is_what_the_program_writes(store: Store) -> None:
    assert PROGRAM.run("import", store.word).status == 0
    assert muni.export(store.name, program=PROGRAM.path) == ""
    assert PROGRAM.run("import", store.word, rows=AMENDED_ROWS).status == 0
    assert muni.export(store.name, program=PROGRAM.path) == PROGRAM.run("export", store.word).text
    assert muni.export(store.name, program=PROGRAM.path).count("\n") == AMENDED_ROWS.count(b"\n")
    one = PROGRAM.run("export", store.word, "--desk=ALPHA")
    assert muni.export(store.name, "ALPHA", program=PROGRAM.path) == one.text


def test_a_store_that_is_not_there_is_not_exported(store: Store) -> None:
    with pytest.raises(muni.Ended) as ended:
        muni.export(store.name, program=PROGRAM.path)
    assert ended.value.status == 6
    assert list(store.path.parent.iterdir()) == []


def test_a_store_that_is_served_is_not_exported(store: Store) -> None:
    with Server(PROGRAM, store.name, connections=2) as server:
        server.connect().close()
        with pytest.raises(muni.Ended) as ended:
            muni.export(store.name, program=PROGRAM.path)
    assert ended.value.status == 6


def test_a_desk_that_is_none_is_not_asked_for(store: Store) -> None:
    with pytest.raises(ValueError):
        muni.export(store.name, "alpha", program=PROGRAM.path)
