"""Stores of both kinds, each at a path of its own."""
from __future__ import annotations

import pathlib
import tempfile
from typing import NamedTuple

KINDS = ("sqlite", "journal")

# An issue and two trades, and what an import of them into an empty store reports.
ROWS = b"""issue,123456AA3,RIVERTON WATER 5S 2025,periodic,2020-01-01,2020-07-01,2025-01-01,5,
trade,ALPHA,T0001,123456AA3,buy,25000,2024-04-01,yield,4
trade,ALPHA,T0002,123456AA3,sell,10000,2024-04-01,price,100.725
"""
REPORT = b"""1,added,123456AA3
2,confirmed,T0001,1,100.725,4.000,2025-01-01,25493.75
3,confirmed,T0002,1,100.725,4.001,2025-01-01,10197.50
"""

# The same trades, in a book in which the coupon of the issue was mended before them, and a trade that is corrected and
# one that is canceled.
AMENDED_ROWS = b"""issue,123456AA3,RIVERTON WATER 4S 2025,periodic,2020-01-01,2020-07-01,2025-01-01,4,
amend,123456AA3,2,RIVERTON WATER 5S 2025,periodic,2020-01-01,2020-07-01,2025-01-01,5,
trade,ALPHA,T0003,123456AA3,buy,5000,2024-04-01,yield,4
correct,ALPHA,T0003,2,123456AA3,buy,25000,2024-04-01,yield,4
trade,ALPHA,T0004,123456AA3,sell,5000,2024-04-01,yield,4
cancel,ALPHA,T0004,2
""" + b"".join(ROWS.splitlines(keepends=True)[1:])


def empty_folder() -> tempfile.TemporaryDirectory[str]:
    """A folder in memory if there is one, where a sync takes no time."""
    memory = pathlib.Path("/dev/shm")
    return tempfile.TemporaryDirectory(prefix="muni-stores-", dir=memory if memory.is_dir() else None)


class Store(NamedTuple):
    """A store of a kind at a path, which may not exist yet."""

    kind: str
    path: pathlib.Path

    @property
    def name(self) -> str:
        """What `--store=` is given."""
        return f"journal:{self.path}" if self.kind == "journal" else str(self.path)

    @property
    def word(self) -> str:
        return f"--store={self.name}"

    @property
    def file(self) -> pathlib.Path:
        """Its first file."""
        return self.path.with_name(self.path.name + ".journal") if self.kind == "journal" else self.path

    @property
    def seal(self) -> pathlib.Path:
        """The file that says how its files were left."""
        return self.path.with_name(self.path.name + "-seal")

    def state(self) -> dict[str, bytes]:
        """The bytes of its file and of each file beside it but its seal, by their names."""
        files = sorted(self.path.parent.glob(self.path.name + "*"))
        return {each.name: each.read_bytes() for each in files if each != self.seal}

    def remove(self) -> None:
        for each in self.path.parent.glob(self.path.name + "*"):
            each.unlink()
