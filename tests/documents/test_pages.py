"""The commands that the pages of the documents show, and what they show that these write."""
from __future__ import annotations

import os
import pathlib
import re
import shutil
import signal
import subprocess
import time
from collections.abc import Iterator

import pytest

from support.pages import Step, pieces, steps, tour
from support.program import PATIENCE, ROOT
from support.server import free_port

PAGES = ["README.md", "docs/TUTORIAL.md", "docs/OPERATING.md", "docs/FORMATS.md", "docs/STORES.md", "docs/HTTP.md",
         "docs/COMPARISON.md", "examples/quotes.md", "examples/worked.md", "conformance/calculator/README.md"]
# What stands in the folder in which a page is followed.
LINKS = ("muni", "examples", "docs", "deploy", "conformance")
# How long servers are given to close, in seconds.
CLOSING = 2
# Tools of the pages that may be missing.
OPTIONAL = ("curl", "sqlite3")


class Walk:
    """Follows pages in a folder of their own, in which nothing else may be left."""

    def __init__(self, folder: pathlib.Path) -> None:
        self.folder = folder
        self.groups: list[int] = []
        for name in LINKS:
            (folder / name).symlink_to(ROOT / name)

    def follow(self, page: str) -> set[str]:
        """Runs the commands of a page. It returns the tools that are missing, whose commands are passed over."""
        missing, wrong = set(), []
        for step in steps(with_free_ports((ROOT / page).read_text())):
            tool = step.command.split(" ")[0]
            if tool in OPTIONAL and shutil.which(tool) is None:
                missing.add(tool)
                continue
            status, output = self.run(step.command)
            if not step.is_right(status, output):
                wrong.append(f"{step.command}\nends in {status} and writes\n{output}and shown is\n{step.shown}")
        self.end()
        assert not wrong, f"{page}:\n" + "\n".join(wrong)
        assert {each.name for each in self.folder.iterdir()} == set(LINKS), f"{page} leaves files"
        return missing

    def run(self, command: str) -> tuple[int, str]:
        if command.startswith("rm "):
            self.let_servers_close()
        # The output goes to a file, so that a command that is left in the background does not hold it open.
        path = self.folder.parent / f"output of {self.folder.name}"
        with open(path, "wb") as output:
            process = subprocess.Popen(["bash", "-c", command], cwd=self.folder, stdin=subprocess.DEVNULL,
                                       stdout=output, stderr=subprocess.DEVNULL, start_new_session=True)
        self.groups.append(process.pid)
        status = process.wait(timeout=5 * PATIENCE)
        port = re.search(r"--port=(\d+)", command)
        if command.rstrip().endswith("&") and port:
            wait_for(int(port[1]))
        return status, path.read_text(errors="replace")

    def let_servers_close(self) -> None:
        """A server answers its last connection before it closes its store and leaves a seal, which takes no longer than
        somebody who types."""
        deadline = time.monotonic() + CLOSING
        while any(is_there(group, 0) for group in self.groups) and time.monotonic() < deadline:
            time.sleep(0.02)

    def end(self) -> None:
        """Ends what still runs, and waits until it is gone."""
        for group in self.groups:
            deadline = time.monotonic() + PATIENCE
            while is_there(group, signal.SIGTERM) and time.monotonic() < deadline:
                time.sleep(0.02)
        self.groups.clear()


def is_there(group: int, sent: int) -> bool:
    """Sends a signal to a group of processes, or none if it is 0, and tells whether there is one that gets it."""
    try:
        os.killpg(group, sent)
    except ProcessLookupError:
        return False
    return True


def with_free_ports(page: str) -> str:
    """The page with its ports replaced by ports that are free now, so that pages may be followed side by side."""
    for port in set(re.findall(r"--port=(\d+)", tour(page))):
        page = re.sub(rf"\b{port}\b", str(free_port()), page)
    return page


def wait_for(port: int) -> None:
    """Waits until a port of the loopback is bound."""
    deadline = time.monotonic() + PATIENCE
    while f":{port:04X} 00000000:0000 0A" not in pathlib.Path("/proc/net/tcp").read_text():
        assert time.monotonic() < deadline, f"nothing listens at port {port}"
        time.sleep(0.02)


@pytest.fixture
def walk(muni, tmp_path) -> Iterator[Walk]:
    folder = tmp_path / "tour"
    folder.mkdir()
    found = Walk(folder)
    yield found
    found.end()


@pytest.mark.parametrize("page", PAGES)
def test_the_commands_of_a_page_write_what_it_shows(walk, page):
    assert list(steps((ROOT / page).read_text())), "the page shows no command"
    missing = walk.follow(page)
    if missing:
        pytest.skip(f"{' and '.join(sorted(missing))} is missing, whose commands were not run")


def test_the_pages_can_be_followed_one_after_the_other(walk):
    """As by somebody who stays in one folder."""
    for page in PAGES:
        walk.follow(page)


@pytest.mark.parametrize(("page", "found"), [
    ("    ./muni help\n\n    one\n    two\n", [Step("./muni help", "one\ntwo\n")]),
    ("    ./muni help\ntext\n", [Step("./muni help")]),
    ("    ./muni a \\\n        --b\n    ./muni c\n", [Step("./muni a \\\n    --b\n./muni c")]),
    ("```\n$ ./muni a\nA\n\nB\n$ cat b \\\n  c\n```\n", [Step("./muni a", "A\n\nB\n"), Step("cat b \\\n  c", "")]),
    ("| words after `./muni` | a line |\n|---|---|\n| `help` | `help` |\n", [Step("./muni help", "help\n", True)]),
    ("| words | line |\n|---|---|\n| `help` | `help` |\n", []),
    ("    echo a\n", []),
    ("    rm a\n## A tour\n    rm b\n## After\n    rm c\n", [Step("rm b")]),
])
def test_a_page_is_read_as_it_is_meant(page, found):
    assert list(steps(page)) == found


def test_blocks_of_code_part_at_other_lines():
    assert [piece.kind for piece in pieces("    a\n    b\n\n    c\n| d |\n| e |\ntext\ntext\n")] == [
        "code", "code", "table", "text", "text"]


@pytest.mark.parametrize(("step", "status", "output", "is_right"), [
    (Step("a"), 0, "anything", True), (Step("a"), 3, "", True), (Step("a"), 2, "", False),
    (Step("a", "x\n"), 0, "x\n", True), (Step("a", "x\n"), 0, "x\ny\n", False),
    (Step("a", "x\n", True), 0, "w\nx\n", True), (Step("a", "x\n", True), 0, "w x\n", False),
])
def test_an_output_is_compared_with_what_is_shown(step, status, output, is_right):
    assert step.is_right(status, output) == is_right
