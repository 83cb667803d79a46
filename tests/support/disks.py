"""Disks that fill up."""
from __future__ import annotations

import contextlib
import pathlib
import subprocess
from collections.abc import Iterator

import pytest


@contextlib.contextmanager
def small_disk(path: pathlib.Path, size: str) -> Iterator[pathlib.Path]:
    """A disk of so many bytes, as `80k`, at a new folder. Without the right to mount one the test is skipped."""
    path.mkdir()
    mounted = subprocess.run(["mount", "-t", "tmpfs", "-o", f"size={size}", "none", path], capture_output=True)
    if mounted.returncode != 0:
        pytest.skip("a disk may not be mounted")
    try:
        yield path
    finally:
        subprocess.run(["umount", "--lazy", path], check=True)
