"""Command lines of tables/words, which need no store and no input, and what they write."""
import pathlib

import pytest

from support.tables import TABLES, bytes_of, cases

LINES = [(table.name, case) for table in sorted((TABLES / "words").iterdir()) for case in cases(f"words/{table.name}")]


@pytest.mark.parametrize(("table", "case"), LINES, ids=[f"{table}-{case.line}" for table, case in LINES])
def test_a_command_line_ends_and_writes_as_the_table_has_it(muni, tmp_path: pathlib.Path, table, case):
    line, status, shown = case.parts
    words = bytes_of(f"{case.base} {line}" if case.base else line).split(b" ")
    said = muni.run(*words, folder=tmp_path)
    assert (said.status, said.output) == (int(status), bytes_of(shown))
    assert not list(tmp_path.iterdir())
