"""Seals that are written by hand, for a file that no command has audited."""
from __future__ import annotations

import os
import time

from support.stores import Store


def sealed(store: Store) -> None:
    """Writes the seal of a store without a log as it is now."""
    about = os.stat(store.path)
    times = [divmod(nanoseconds, 10**9) for nanoseconds in (about.st_mtime_ns, about.st_ctime_ns)]
    store.path.with_name(store.path.name + "-wal").unlink(missing_ok=True)
    # The seal counts if it is later than what it tells of.
    time.sleep(0.05)
    store.seal.write_text(
        f"muni seal 2\nstore device {about.st_dev} inode {about.st_ino} size {about.st_size}\n"
        f"modified {times[0][0]} {times[0][1]} changed {times[1][0]} {times[1][1]}\n"
        f"head {store.path.read_bytes()[:100].hex()}\nno log\n")
