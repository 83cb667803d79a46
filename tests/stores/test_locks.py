"""Stores on which another process has a lock."""
import fcntl

import pytest

from support.program import Said
from support.stores import ROWS


@pytest.mark.parametrize("lock", [fcntl.LOCK_SH, fcntl.LOCK_EX], ids=["shared", "exclusive"])
def test_a_journal_with_a_lock_is_refused_at_once(journal, lock):
    journal.report(ROWS)
    with journal.store.file.open("rb") as file:
        fcntl.flock(file, lock)
        assert journal.confirmed("T0001") == Said(6, b"")
    assert journal.has("T0001")
