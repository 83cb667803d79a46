"""Commands over a store, which the tables of them give with their input, their end and what they write."""
from __future__ import annotations

import pathlib
import subprocess

import pytest

from support.program import PATIENCE, Program, Said
from support.server import ended, free_port, reached, received
from support.stores import KINDS
from support.tables import bytes_of, cases

TABLES = ("stores", "amendments", "confirmations", "exports", "figures", "check", "one_trade", "portfolios", "positions",
          "terms", "versions")
LINES = [(table, case) for table in TABLES for case in cases(table)]

# The greatest input of a command that reads one, and what it answers to so many letters.
LONGEST = {"import": (4_194_304, "1,bad,2,1\n"), "mark": (1_048_576, "1,bad,1\nTOTAL,0,0.00\n")}


def served(muni: Program, words: list[bytes], data: bytes, folder: pathlib.Path) -> Said:
    """How a server ends to which a client sends the data, and what it writes. One that waits for a third client after
    two has not failed, and is stopped."""
    port = free_port()
    words = [b"--port=%d" % port if word.startswith(b"--port=") else word for word in words]
    process = muni.start(*words, cwd=folder, stdout=subprocess.PIPE)
    clients = 1 if b"--connections=1" in words else 2
    for _ in range(clients):
        with reached(process, port) as link:
            link.sendall(data)
            link.shutdown(1)
            received(link)
    if clients == 2 and process.poll() is None:
        process.kill()
        return Said(0, process.communicate(timeout=PATIENCE)[0])
    status = ended(process)
    return Said(-1 if status is None else status, process.communicate(timeout=PATIENCE)[0])


@pytest.mark.parametrize("kind", KINDS)
@pytest.mark.parametrize(("table", "case"), LINES, ids=[f"{table}-{case.line}" for table, case in LINES])
def test_a_command_over_a_store_ends_and_writes_as_the_table_has_it(muni, tmp_path: pathlib.Path, table, case, kind):
    line, sent, status, shown = case.parts
    prefix = b"journal:" if kind == "journal" else b""
    words = [b"--store=" + prefix + word[-1:] if word in (b"--store=S", b"--store=R") else word
             for word in bytes_of(line).split(b" ")]
    assert muni.run("import", b"--store=" + prefix + b"S", rows=bytes_of(case.base), folder=tmp_path).status == 0
    if words[0] == b"serve" and status == "0":
        said = served(muni, words, bytes_of(sent), tmp_path)
    else:
        said = muni.run(*words, rows=bytes_of(sent), folder=tmp_path)
    assert (said.status, said.output) == (int(status), bytes_of(shown))


@pytest.mark.parametrize("command", LONGEST)
def test_the_longest_input_is_read_and_one_byte_more_is_not(muni, store, command):
    length, answer = LONGEST[command]
    assert muni.run("import", store.word).status == 0
    said = muni.run(command, store.word, rows=b"a" * length)
    assert (said.status, said.text) == (0, answer)
    said = muni.run(command, store.word, rows=b"a" * (length + 1))
    assert (said.status, said.text) == (9, "")
