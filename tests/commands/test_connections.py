"""What connections cost a server and what they leave: its address, its memory, its time, and a disk that is full."""
from __future__ import annotations

import json
import os
import pathlib
import subprocess
import threading

import pytest

from support.program import PATIENCE, Program
from support.server import Server, ended, free_port, listening, reached, received
from support.stores import Store

LIST = b"GET /lists/ALPHA HTTP/1.1\r\nHost: localhost\r\n\r\n"
ISSUE = {"cusip": "123456AA3", "name": "X", "kind": "zero", "dated": "2020-01-01", "maturity": "2030-01-01"}
TRADE = {"desk": "ALPHA", "cusip": "123456AA3", "side": "buy", "par": "1", "settle": "2024-04-01", "basis": "yield",
         "value": "4"}


def post(path: str, members: dict[str, str]) -> bytes:
    body = json.dumps(members).encode()
    return f"POST {path} HTTP/1.1\r\nHost: localhost\r\nContent-Length: {len(body)}\r\n\r\n".encode() + body


def test_only_the_loopback_is_bound_and_a_port_that_is_taken_is_refused(muni, tmp_path):
    with Server(muni, str(tmp_path / "S"), 2) as server:
        server.connect().close()
        assert listening(server.port) == [("tcp", "0100007F")]
        assert ended(server.beside(str(tmp_path / "other"), 1)) == 7


def test_a_client_that_sends_nothing_keeps_no_one_waiting_once_it_goes(muni, tmp_path):
    with Server(muni, str(tmp_path / "S"), 3) as server:
        idle = server.connect()
        answers: list[bytes] = []
        other = threading.Thread(target=lambda: answers.append(server.ask(LIST)), daemon=True)
        other.start()
        idle.close()
        other.join(PATIENCE)
        assert [answer[:12] for answer in answers] == [b"HTTP/1.1 200"]
        # A client that does not read its answer: the system takes it whole.
        with server.connect() as deaf:
            deaf.sendall(LIST)
            assert server.ended() == 0


def state_of(process: int) -> tuple[int, int]:
    """The greatest memory of a process, in kilobytes, and how many descriptors it has open."""
    status = pathlib.Path(f"/proc/{process}/status").read_text()
    peak = next(int(line.split()[1]) for line in status.splitlines() if line.startswith("VmHWM"))
    return peak, len(os.listdir(f"/proc/{process}/fd"))


def test_connections_leave_no_memory_and_no_descriptor(muni, tmp_path, request):
    count = 10_000 if request.config.getoption("--long") else 1000
    with Server(muni, str(tmp_path / "S"), count) as server:
        for place in range(count - 1):
            server.ask(LIST if place % 3 else LIST[:place % 40])
            if place == count // 4:
                first = state_of(server.process.pid)
        # A whole answer has come when the server is looked at, and the last connection is open.
        with server.connect() as last:
            last.sendall(LIST)
            assert received(last)[:12] == b"HTTP/1.1 200"
            peak, descriptors = state_of(server.process.pid)
        assert peak <= first[0] + 64 and descriptors <= first[1] + 1
        assert server.ended() == 0


class Threads:
    """The threads of a process."""

    def __init__(self, process: int) -> None:
        self.tasks = pathlib.Path(f"/proc/{process}/task")
        self.states = [os.open(task / "stat", os.O_RDONLY) for task in self.tasks.iterdir()]

    def time(self) -> float:
        """Their processor time, in milliseconds."""
        return sum(int((task / "schedstat").read_text().split()[0]) for task in self.tasks.iterdir()) / 1e6

    def wait(self) -> None:
        """Comes back when none of them runs."""
        for state in self.states:
            while os.pread(state, 512, 0).rpartition(b")")[2].split()[0] == b"R":
                pass

    def close(self) -> None:
        for state in self.states:
            os.close(state)


def cost_singly(server: Server, threads: Threads, data: bytes) -> tuple[bytes, float]:
    """The begin of the answer, and the processor time, if each byte is sent when the server waits for it."""
    with server.connect() as link:
        before = threads.time()
        for each in range(len(data)):
            link.sendall(data[each:each + 1])
            threads.wait()
        answer = received(link)
        return answer[:12], threads.time() - before


# It measures processor time, which other work on the machine adds to.
@pytest.mark.xdist_group("alone")
def test_bytes_that_come_one_by_one_cost_time_in_proportion_to_their_number(muni: Program, tmp_path):
    if not pathlib.Path("/proc/self/schedstat").exists():
        pytest.skip("the system does not tell processor time")
    start = b"GET /lists/ALPHA HTTP/1.1\r\n"
    fields = start + b"".join(b"x%02d: %s\r\n" % (each, b"y" * 200) for each in range(63))

    def filled(begin: bytes) -> bytes:
        return begin + b"z: " + b"y" * (16_384 - len(begin) - 7) + b"\r\n\r\n"

    def body(length: int) -> bytes:
        text = b'{"cusip":"' + b"x" * (length - 12) + b'"}'
        return b"POST /quotes HTTP/1.1\r\nContent-Length: %d\r\n\r\n" % length + text

    kinds = {"line": filled(start), "fields": filled(fields), "body": body(16_384), "long body": body(65_535)}
    least = dict.fromkeys(kinds, float("inf"))
    with Server(muni, str(tmp_path / "S"), 3 * len(kinds) + 1) as server:
        server.connect().close()
        threads = Threads(server.process.pid)
        for name in 3 * list(kinds):
            answer, cost = cost_singly(server, threads, kinds[name])
            assert answer == (b"HTTP/1.1 400" if "body" in name else b"HTTP/1.1 200")
            least[name] = min(least[name], cost)
        threads.close()
        assert server.ended() == 0
    assert max(least["line"], least["fields"]) <= 2 * least["body"]
    assert least["long body"] <= 2 * 4 * least["body"]


def test_a_full_disk_is_answered_503_and_loses_no_trade_that_was_acknowledged(muni, tmp_path):
    store, port, count = Store("sqlite", tmp_path / "S"), free_port(), 200
    # The log of sqlite begins with a quarter of a megabyte, and a trade takes some 16,000 bytes of it.
    shell = ["bash", "-c", "trap '' XFSZ; ulimit -f 600; exec \"$@\"", "bash"]
    words = ["serve", store.word, f"--port={port}", f"--connections={count + 1}"]
    process = subprocess.Popen([*shell, muni.path, *words], stdin=subprocess.DEVNULL, stderr=subprocess.DEVNULL)
    told, statuses = [], set()
    for place, data in enumerate([post("/issues", ISSUE)] + [post("/trades", {**TRADE, "reference": f"T{each}"})
                                                            for each in range(count)]):
        with reached(process, port) as link:
            link.sendall(data)
            answer = received(link)
        statuses.add(answer[:12])
        if place and answer.startswith(b"HTTP/1.1 200"):
            told.append(f"T{place - 1}")
    assert ended(process) == 0
    assert statuses == {b"HTTP/1.1 200", b"HTTP/1.1 503"}
    for reference in told:
        assert muni.run("confirm", store.word, "--desk=ALPHA", f"--ref={reference}").status == 0
