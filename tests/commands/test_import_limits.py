"""Imports at the ends of what they take, over a disk that is full, and which files they write."""
from __future__ import annotations

import os
import pathlib
import subprocess

import pytest

from support.program import PATIENCE, Program, Said, needs_trace
from support.stores import KINDS, Store

ISSUE = b"issue,123456AA3,X,zero,2020-01-01,,2030-01-01,,\n"

# The calls of the system that may make, change or remove a file, or open a connection.
CALLS = ("open,openat,openat2,creat,rename,renameat,unlink,unlinkat,mkdir,mkdirat,link,linkat,symlink,symlinkat,socket,"
         "connect")
WRITES = ("O_WRONLY", "O_RDWR", "O_CREAT", "creat(", "rename", "unlink", "mkdir", "link", "socket(", "connect(")


def trades(count: int) -> bytes:
    return ISSUE + b"".join(b"trade,ALPHA,T%d,123456AA3,buy,1,2024-01-01,yield,4\n" % each for each in range(count))


@pytest.mark.parametrize(("rows", "status", "report"), [
    (b"\n" * 4_194_304, 0, b""),
    (b"\n" * 4_194_305, 9, b""),
    (b"," * 4_194_304, 0, b"1,bad,2,1\n"),
], ids=["the longest text", "one byte more", "the widest row"])
def test_a_text_is_read_up_to_its_greatest_length(muni, store, rows, status, report):
    said = muni.run("import", store.word, rows=rows)
    assert (said.status, said.output) == (status, report)


def test_each_of_many_rows_has_a_line(muni, store, request):
    count = 2_097_152 if request.config.getoption("--long") else 20_000
    said = muni.run("import", store.word, rows=b"x\n" * count)
    assert (said.status, said.output.count(b"\n")) == (0, count)


def test_an_input_that_cannot_be_read_and_an_output_that_is_full_have_their_status(muni, store, tmp_path):
    folder = os.open(tmp_path, os.O_RDONLY)
    with open("/dev/full", "wb") as full:
        with muni.start("import", store.word, stdin=subprocess.PIPE, stdout=full) as process:
            process.communicate(b"x\n", timeout=PATIENCE)
            assert process.returncode == 5
    with muni.start("import", store.word, stdin=folder, stdout=subprocess.PIPE) as process:
        assert (process.communicate(timeout=PATIENCE)[0], process.returncode) == (b"", 4)
    os.close(folder)


@pytest.mark.parametrize("name", ["", "a b", "\u00e9", "x" * 201])
def test_a_name_that_no_store_has_is_refused(muni, tmp_path, name):
    said = muni.run("import", f"--store={name}", folder=tmp_path)
    assert (said.status, said.output, list(tmp_path.iterdir())) == (2, b"", [])


def limited(muni: Program, blocks: int, *words: str, rows: bytes) -> Said:
    """Runs a command whose files may not grow past so many blocks of 1,024 bytes. The signal of it is ignored, so that
    the write fails as on a full disk."""
    shell = ["bash", "-c", f"trap '' XFSZ; ulimit -f {blocks}; exec \"$@\"", "bash"]
    told = subprocess.run([*shell, muni.path, *words], input=rows, capture_output=True, timeout=PATIENCE)
    return Said(told.returncode, told.stdout, told.stderr)


# The log of sqlite begins with a quarter of a megabyte, and a trade takes some 16,000 bytes of it.
@pytest.mark.parametrize("blocks", [0, 100, 400, 600])
def test_a_full_disk_loses_no_trade_that_was_acknowledged(muni, tmp_path, blocks, request):
    count = 1000 if request.config.getoption("--long") else 100
    store = Store("sqlite", tmp_path / "S")
    came = limited(muni, blocks, "import", store.word, rows=trades(count))
    told = [line.split(",")[2] for line in came.text.splitlines() if ",confirmed," in line]
    assert came.status == 6 and len(told) < count
    for reference in told:
        assert muni.run("confirm", store.word, "--desk=ALPHA", f"--ref={reference}").status == 0
    again = muni.run("import", store.word, rows=trades(count))
    assert (again.status, again.output.count(b",confirmed,")) == (0, count)


@pytest.mark.parametrize("kind", KINDS)
def test_an_import_writes_no_file_but_those_of_its_store(muni, tmp_path: pathlib.Path, kind):
    needs_trace()
    (tmp_path / "inside").mkdir()
    store = Store(kind, tmp_path / "inside/S")
    trace = ["strace", "-f", "-o", tmp_path / "calls", "-e", f"trace={CALLS}"]
    subprocess.run([*trace, muni.path, "import", store.word], input=ISSUE, capture_output=True, timeout=PATIENCE)
    calls = [call for call in (tmp_path / "calls").read_text().splitlines() if any(word in call for word in WRITES)]
    named = [(call.split('"')[1] if '"' in call else call) for call in calls]
    assert any(name.startswith(str(store.path)) for name in named)
    assert [name for name in named
            if not name.startswith(str(store.path)) and name not in ("/dev/null", "/dev/tty")] == []
