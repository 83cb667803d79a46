"""The desk in a container, as deploy/container has it: in an empty root, with a folder for its store."""
from __future__ import annotations

import json
import os
import pathlib
import re
import shutil
import signal
import subprocess
import time
from collections.abc import Iterator

import pytest

from support.program import PATIENCE, ROOT, Program, needs, program_path
from support.stores import ROWS
from support.trading import until

FILE = (ROOT / "deploy/container").read_text()
DESK = 65_101


def words_of(name: str) -> list[str]:
    """The words of an instruction."""
    found: list[str] = json.loads(re.search(rf"^{name} .*?(\[.*\])$", FILE, re.M)[1])
    return found


class Container:
    """An empty root with what the file copies, and namespaces of its own for processes, mounts and the network."""

    def __init__(self, folder: pathlib.Path) -> None:
        self.root, self.data = folder / "root", folder / "data"
        sources = {"muni": program_path(), "busybox": "/bin/busybox", "ld-linux-x86-64.so.2": "/lib64/ld-linux-x86-64.so.2",
                   "libc.so.6": "/lib/x86_64-linux-gnu/libc.so.6"}
        for names, place in re.findall(r"^COPY (.*) (/\S+)$", FILE, re.M):
            (self.root / place[1:]).mkdir(parents=True, exist_ok=True)
            for name in names.split():
                shutil.copy(sources[name], self.root / place[1:])
        for name in ("data", "dev", "proc"):
            (self.root / name).mkdir()
        (self.root / "dev/null").touch()
        self.data.mkdir()
        os.chown(self.data, DESK, DESK)
        folder.chmod(0o755)
        folder.parent.chmod(0o755)

    def start(self) -> None:
        inside = " ".join((f"mount --bind {self.data} {self.root}/data && mount --bind /dev/null {self.root}/dev/null &&",
                           f"mount -t proc proc {self.root}/proc && ip link set lo up && exec chroot --userspec={DESK}:{DESK}",
                           f"{self.root} /bin/busybox env -i MUNI_STORE=/data/book \"$@\""))
        self.process = subprocess.Popen(["unshare", "--pid", "--fork", "--kill-child", "--mount", "--net", "bash", "-c",
                                         inside, "bash", *words_of("ENTRYPOINT")])
        assert until(lambda: self.health() == 0), "it has no health"

    def first(self) -> int:
        """The process that is the first one in the container."""
        children = pathlib.Path(f"/proc/{self.process.pid}/task/{self.process.pid}/children")
        assert until(lambda: children.read_text() != "")
        return int(children.read_text().split()[0])

    def enter(self, *words: str, rows: bytes = b"") -> subprocess.CompletedProcess[bytes]:
        within = ["nsenter", f"--target={self.first()}", "--pid", "--mount", "--net", "--root",
                  f"--setuid={DESK}", f"--setgid={DESK}"]
        return subprocess.run([*within, *words], input=rows, capture_output=True, timeout=PATIENCE)

    def health(self) -> int:
        return self.enter(*words_of("HEALTHCHECK")).returncode

    def fill(self, muni: Program) -> None:
        """Keeps an issue in the store."""
        muni.run("import", f"--store={self.data}/book", rows=ROWS.splitlines(True)[0])
        for file in self.data.iterdir():
            os.chown(file, DESK, DESK)

    def post(self, reference: str) -> subprocess.CompletedProcess[bytes]:
        """Enters a trade."""
        row = json.dumps({"desk": "ALPHA", "reference": reference, "cusip": "123456AA3", "side": "buy", "par": "25000",
                          "settle": "2024-04-01", "basis": "yield", "value": "4"})
        return self.enter("/bin/busybox", "wget", "-q", "-O", "-", f"--post-data={row}", "http://127.0.0.1:8735/trades")


@pytest.fixture
def container(tmp_path: pathlib.Path) -> Iterator[Container]:
    needs("unshare", "nsenter", "busybox", "ip")
    if os.getuid() != 0 or subprocess.run(["unshare", "--pid", "--fork", "--mount", "--net", "true"]).returncode != 0:
        pytest.skip("this user may make no namespaces")
    made = Container(tmp_path)
    yield made
    if made.process.poll() is None:
        # With the first process all of the container end. That of the desk's user does not end with its parent.
        os.kill(made.first(), signal.SIGKILL)
    made.process.wait()


def test_a_desk_in_a_container_ends_in_order_and_leaves_its_store_in_the_folder(container, muni):
    container.fill(muni)
    container.start()
    post = container.post("K1")
    assert post.stdout.startswith(b"CONFIRMATION 1\n"), post.stderr
    began = time.monotonic()
    os.kill(container.first(), signal.SIGTERM)
    assert container.process.wait(timeout=PATIENCE) == 0
    assert time.monotonic() - began < 10, "podman kills after ten seconds"
    assert muni.run("confirm", f"--store={container.data}/book", "--desk=ALPHA", "--ref=K1").status == 0
    assert {file.name for file in container.data.iterdir()} >= {"book", "book-wal"}


def test_a_desk_in_a_container_that_is_killed_loses_nothing(container, muni):
    container.fill(muni)
    container.start()
    replies = [container.post(f"K{number}") for number in range(50)]
    assert all(reply.stdout.startswith(b"CONFIRMATION 1\n") for reply in replies)
    os.kill(container.first(), signal.SIGKILL)
    container.process.wait(timeout=PATIENCE)
    container.start()
    found = container.enter("/bin/busybox", "wget", "-q", "-O", "-", "http://127.0.0.1:8735/lists/ALPHA")
    assert {line.split()[0].decode() for line in found.stdout.splitlines()} == {f"K{number}" for number in range(50)}


def test_a_desk_in_a_container_that_does_not_answer_has_no_health(container):
    container.start()
    program = container.enter("/bin/busybox", "pidof", "muni").stdout.split()[0].decode()
    container.enter("/bin/busybox", "kill", "-STOP", program)
    health = container.enter("/bin/busybox", "timeout", "2", *words_of("HEALTHCHECK"))
    assert health.returncode != 0


def test_the_file_is_of_an_empty_base_and_a_folder():
    assert re.findall(r"^FROM (.*)$", FILE, re.M) == ["scratch"]
    assert "VOLUME /data\n" in FILE and "ENV MUNI_STORE=/data/book\n" in FILE
    assert "STOPSIGNAL SIGTERM\n" in FILE and "\nUSER 65101:65101\n" in FILE
