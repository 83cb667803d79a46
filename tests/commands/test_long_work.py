"""Long work of ./muni: the rows that it shows at a terminal while it runs, and what it says if it is interrupted."""
from __future__ import annotations

import fcntl
import os
import pathlib
import pty
import re
import signal
import subprocess
import termios
import time
from collections.abc import Callable, Iterator

import pytest

from support.launcher import Launcher, heeds_signals
from support.program import PATIENCE, Said
from support.stores import REPORT, ROWS, Store

# A program that answers each row of its input by a line. After an odd row it waits until so many rows were seen.
SLOW = """#!/bin/sh
count=0
while read -r row; do
    echo "$row,added"
    count=$((count + 1))
    rest=${REST:-200}
    while [ $((row % 2)) -eq 1 ] && [ ! -e "seen $count" ] && [ "$rest" -gt 0 ]; do
        sleep 0.1
        rest=$((rest - 1))
    done
done
exit 3
"""
ROWS_OF_IT = "".join(f"{place}\n" for place in range(4))
LINES_OF_IT = "".join(f"{place},added\n" for place in range(4))
KEPT = "muni: rows: 4 kept, 0 refused, 0 bad\n"
STATUS = "muni: status 3: the answer is a refusal: the line has its number and name\n"
STOPPED = ("muni: interrupted: each row that is kept has its line, but perhaps the last. "
           "Send the same rows again: those that are kept are answered as before\n")
COUNTED = ("import", "load", "mark")


@pytest.fixture
def slow(tmp_path: pathlib.Path) -> Launcher:
    """./muni, which starts that program."""
    program = tmp_path / "slow"
    program.write_text(SLOW)
    program.chmod(0o755)
    (tmp_path / "rows").write_text(ROWS_OF_IT)
    return Launcher(changes={"MUNI_PROGRAM": str(program)})


def takes_the_terminal() -> None:
    """The terminal at standard error becomes that of the session."""
    fcntl.ioctl(2, termios.TIOCSCTTY, 0)


def at_terminal(muni: Launcher, folder: pathlib.Path, command: str, most: int = 4) -> Said:
    """How a command of the shell ends that names ./muni, and what a terminal got at which its standard error is. The
    counts of rows up to the most are seen there."""
    leader, follower = pty.openpty()
    here = muni.environment(None)
    path = " ".join(str(word) for word in muni.words((), here))
    shell = ["sh", "-c", command.replace("./muni", path)]
    with subprocess.Popen(shell, cwd=folder, env=here, start_new_session=True, preexec_fn=takes_the_terminal,
                          stdin=subprocess.DEVNULL, stdout=subprocess.PIPE, stderr=follower) as process:
        os.close(follower)
        told = b""
        for data in read_on(leader):
            told += data
            for count in re.findall(rb"muni: (\d+) rows, \d+ a second", told):
                if int(count) <= most:
                    (folder / f"seen {int(count)}").touch()
        output = process.stdout.read()
        return Said(process.wait(timeout=PATIENCE), output, told.replace(b"\r\n", b"\n"))


def read_on(leader: int) -> Iterator[bytes]:
    """What a terminal gets until nobody has it open."""
    try:
        while data := os.read(leader, 65_536):
            yield data
    except OSError:
        os.close(leader)


def counts_of(error: bytes, more: str) -> list[int]:
    """The counts of rows that were shown one over the other, the last one taken away before more is said."""
    *lines, taken, end = error.decode().split("\r")[1:]
    found = [re.fullmatch(r"muni: (\d+) rows, (\d+) a second *", each) for each in lines]
    assert all(each and int(each[2]) <= int(each[1]) for each in found), lines
    assert (taken, end) == (" " * len(found[0][0]), more)
    return sorted({int(each[1]) for each in found})


@pytest.mark.parametrize("command", [*COUNTED, "figures", "export"])
def test_rows_are_shown_by_the_output_if_it_is_a_file(slow, tmp_path, command):
    said = at_terminal(slow, tmp_path, f"exec ./muni {command} --store=S <rows >lines")
    counts = counts_of(said.error, (KEPT if command in COUNTED else "") + STATUS)
    assert (said.status, counts, (tmp_path / "lines").read_text()) == (3, [2, 4], LINES_OF_IT)


@pytest.mark.parametrize("command", ["load", "figures"])
def test_rows_are_shown_by_the_input_if_the_output_is_no_file(slow, tmp_path, command):
    # Another has read the first row.
    said = at_terminal(slow, tmp_path, f"{{ read -r row; exec ./muni {command} --store=S; }} <rows")
    counts = counts_of(said.error, STATUS)
    assert (said.status, counts, said.text) == (3, [1, 3], LINES_OF_IT.partition("\n")[2])


@pytest.mark.parametrize(("command", "told"), [
    ("./muni load --store=S <rows >lines 2>told; exit $?", ""),
    ("exec ./muni figures --store=S <rows >&2", LINES_OF_IT + STATUS),
    ("exec ./muni import --store=S <rows", STATUS),
    ("cat rows | ./muni figures --store=S", STATUS),
    ("exec ./muni positions --store=S --desk=A <rows >lines", STATUS),
    ("set -m; ./muni figures --store=S <rows >lines & wait $!", STATUS),
], ids=["at no terminal", "whose lines are at the terminal", "that are read at once", "with neither in a file",
        "of a short command", "of a job in the background"])
def test_rows_are_not_shown(slow, tmp_path, command, told):
    slow.changes["REST"] = "8"
    said = at_terminal(slow, tmp_path, command)
    assert (said.status, said.error.decode()) == (3, told)
    if not told:
        assert ((tmp_path / "told").read_text(), (tmp_path / "lines").read_text()) == (KEPT + STATUS, LINES_OF_IT)


def wait_for(is_so: Callable[[], bool]) -> None:
    end_by = time.monotonic() + PATIENCE
    while not is_so():
        assert time.monotonic() < end_by
        time.sleep(0.01)


@pytest.mark.parametrize("name", ["SIGINT", "SIGTERM"])
@pytest.mark.parametrize("lines", ["in a file", "in a pipe"])
def test_an_interrupt_of_a_load_says_what_is_kept_and_to_send_it_again(store: Store, tmp_path, lines, name):
    muni, report = Launcher(), tmp_path / "lines"
    report.touch()
    here = muni.environment(None)
    with report.open("r+b") as file, subprocess.Popen(
            muni.words(("load", store.word), here), env=here, stdin=subprocess.PIPE, stderr=subprocess.PIPE,
            stdout=file if lines == "in a file" else subprocess.PIPE, preexec_fn=heeds_signals) as process:
        process.stdin.write(ROWS)
        process.stdin.flush()
        if lines == "in a file":
            wait_for(lambda: report.read_bytes() == REPORT)
        else:
            assert process.stdout.read(len(REPORT)) == REPORT
        process.send_signal(getattr(signal, name))
        assert process.wait(timeout=PATIENCE) == -getattr(signal, name)
        told = process.stderr.read().decode()
    assert told == ("muni: rows: 3 kept, 0 refused, 0 bad\n" if lines == "in a file" else "") + STOPPED
    # The program has ended too, since it has the store no more.
    assert muni.run("load", store.word, rows=ROWS) == Said(0, REPORT, b"")


def test_an_interrupt_before_the_first_row_counts_none(tmp_path):
    program, report = tmp_path / "program", tmp_path / "lines"
    program.write_text(f"#!/bin/sh\n: >{tmp_path}/begun\nexec sleep {PATIENCE}\n")
    program.chmod(0o755)
    muni = Launcher(changes={"MUNI_PROGRAM": str(program)})
    here = muni.environment(None)
    with report.open("wb") as file, subprocess.Popen(muni.words(("import", "--store=S"), here), env=here, stdout=file,
                                                     stderr=subprocess.PIPE, preexec_fn=heeds_signals) as process:
        wait_for((tmp_path / "begun").exists)
        process.send_signal(signal.SIGINT)
        assert process.wait(timeout=PATIENCE) == -signal.SIGINT
        assert process.stderr.read().decode() == f"muni: rows: 0 kept, 0 refused, 0 bad\n{STOPPED}"


def test_what_is_shown_is_taken_away_at_an_interrupt(slow, tmp_path):
    wait_for_it = "until [ -e 'seen 2' ]; do sleep 0.1; done; kill -TERM $!; wait $! 2>/dev/null"
    said = at_terminal(slow, tmp_path, f"./muni load --store=S <rows >lines & {wait_for_it}", most=2)
    kept = (tmp_path / "lines").read_text().count("\n")
    counts = counts_of(said.error, f"muni: rows: {kept} kept, 0 refused, 0 bad\n{STOPPED}")
    assert (said.status, counts[0]) == (128 + signal.SIGTERM, 2) and kept >= 2
