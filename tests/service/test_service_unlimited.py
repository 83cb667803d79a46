"""An address that is named in nginx.conf is not limited."""
from __future__ import annotations

import pytest

from support.rules import UNLIMITED
from test_service_limits import SLOWER, Guesses, status

# It counts what comes within a second.
pytestmark = pytest.mark.xdist_group("alone")

EDITS = (SLOWER, UNLIMITED)


def test_guesses_of_an_address_that_is_not_limited_are_all_answered(site):
    assert set(map(status, Guesses(site).told)) == {401}
