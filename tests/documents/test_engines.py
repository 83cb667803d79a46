"""The commands of the page on many rows and many machines, by each engine that is installed, and a node of Slurm that is
lost with a part in hand."""
from __future__ import annotations

import os
import pathlib
import re
import signal
import subprocess
import time
from collections.abc import Iterator

import pytest

from support.pages import Step, pieces
from support.program import PATIENCE, ROOT, needs, program_path
from support.server import free_port
from support.slurm import Slurm

PAGE = (ROOT / "examples/spread/README.md").read_text()
# The first words of commands.
WORDS = ("examples/spread/", "cmp ", "/usr/bin/python3 ", "export ")


def section(title: str) -> str:
    return re.search(rf"^## {title}\n(.*?)(?=^## |\Z)", PAGE, re.M | re.S)[1]


def steps(text: str) -> Iterator[Step]:
    """The commands of a section, each with what it shows behind it."""
    found = [piece.lines for piece in pieces(text) if piece.kind == "code"]
    for lines, after in zip(found, [*found[1:], [""]]):
        if lines[0].startswith("$ "):
            for part in re.split(r"^\$ ", "\n".join(lines), flags=re.M)[1:]:
                command, _, shown = part.rstrip("\n").partition("\n")
                yield Step(command, shown + "\n" if shown else "")
        elif lines[0].startswith(WORDS):
            is_output = not after[0].startswith(("$ ", *WORDS)) and after != [""]
            yield Step("\n".join(lines), "\n".join([*after, ""]) if is_output else "")


class Desk:
    """A folder in which the page is followed."""

    def __init__(self, folder: pathlib.Path) -> None:
        self.folder = folder
        self.environment = dict(os.environ)
        self.groups: list[subprocess.Popen[bytes]] = []
        for name in ("muni", "examples", "clients"):
            (folder / name).symlink_to(ROOT / name)

    def follow(self, text: str) -> None:
        for step in steps(text):
            if step.command.startswith("export "):
                self.export(step.command)
            else:
                assert (step.command, self.run(step.command)) == (step.command, step.shown)

    def export(self, command: str) -> None:
        said = subprocess.run(["bash", "-c", f"{command}; env -0"], cwd=self.folder, env=self.environment,
                              capture_output=True, check=True)
        self.environment = dict(each.split("=", 1) for each in said.stdout.decode().split("\0") if each)

    def run(self, command: str) -> str:
        if command.endswith("&"):
            self.groups.append(subprocess.Popen(["bash", "-c", command.rstrip("& ")], cwd=self.folder,
                                                env=self.environment, start_new_session=True))
            return ""
        said = subprocess.run(["bash", "-c", command], cwd=self.folder, env=self.environment, capture_output=True,
                              text=True, stdin=subprocess.DEVNULL, timeout=5 * PATIENCE)
        assert said.returncode == 0, (command, said.stdout, said.stderr)
        return said.stdout

    def has_risk(self, words: str) -> None:
        """Sees that a script writes what the program writes with sensitivities."""
        name = f"{words.split()[0].rpartition('/')[2]}.risk"
        total = self.run(f"{words} {name}.parts {name}.valued")
        self.run(f"./muni figures --store=D --risk <holdings | cmp - {name}.valued")
        assert total == self.run(f"tail -n 1 {name}.valued")

    def instead(self, folder: pathlib.Path, text: str) -> dict[str, str]:
        """The environment with a script for the program."""
        path = folder / "bin/muni"
        path.parent.mkdir()
        path.write_text("#!/bin/sh\n" + text)
        path.chmod(0o755)
        return self.environment | {"PATH": f"{path.parent}:{self.environment['PATH']}"}

    def end(self) -> None:
        for process in self.groups:
            os.killpg(process.pid, signal.SIGKILL)
            process.wait()


@pytest.fixture(scope="module")
def begun(tmp_path_factory: pytest.TempPathFactory) -> Iterator[Desk]:
    """A folder with the file and the store with which the page begins."""
    desk = Desk(tmp_path_factory.mktemp("engines"))
    desk.follow(section("Begin"))
    yield desk
    desk.end()


@pytest.mark.xdist_group("engines")
class TestPage:
    """One worker follows the page, whose begin takes a second or two."""

    def test_a_frame(self, begun: Desk) -> None:
        if subprocess.run(["/usr/bin/python3", "-c", "import pandas"], capture_output=True).returncode != 0:
            pytest.skip("pandas is missing")
        begun.follow(section("A frame"))

    def test_parallel(self, begun: Desk) -> None:
        needs("parallel")
        if not subprocess.run(["parallel", "--version"], capture_output=True).stdout.startswith(b"GNU parallel"):
            pytest.skip("parallel is not that of GNU")
        begun.follow(section("GNU parallel"))
        begun.has_risk("examples/spread/over-parallel --risk holdings D")
        assert len(list((begun.folder / "parallel.parts/answers").iterdir())) > 4

    def test_dask(self, begun: Desk) -> None:
        needs("dask-scheduler", "dask-worker")
        port = f"{free_port()}"
        begun.follow(section("Dask").replace("8786", port))
        begun.has_risk(f"examples/spread/over-dask --risk tcp://127.0.0.1:{port} holdings D")

    def test_a_pipe(self, begun: Desk) -> None:
        begun.follow(section("Spark"))
        begun.run("examples/spread/pipe --risk issues <holdings | cmp - <(./muni figures --store=D --risk <holdings | "
                  "head -n -1)")

    @pytest.mark.parametrize("fault", ["| head -c 900", "| sed 3d", "| sed '$d'", "; exit 5"])
    def test_a_pipe_that_is_cut_has_a_status(self, begun: Desk, tmp_path: pathlib.Path, fault: str) -> None:
        failing = begun.instead(tmp_path, f'"{program_path()}" "$@" {fault}\n')
        told = subprocess.run(["examples/spread/pipe", "D"], cwd=begun.folder, stdout=subprocess.DEVNULL, env=failing,
                              input=(begun.folder / "holdings").read_bytes()[:40_000])
        assert told.returncode != 0

    def test_slurm_and_a_node_that_is_lost(self, begun: Desk, tmp_path: pathlib.Path) -> None:
        """The first part of a node never ends there, and the node is lost."""
        held = tmp_path / "held"
        holding = begun.instead(tmp_path, (
            f'if [ "$1" = figures ] && mkdir "{held}" 2>/dev/null\n'
            f'then echo "$SLURMD_NODENAME" >"{held}/new" && mv "{held}/new" "{held}/by"\n'
            f'exec sleep {5 * PATIENCE}\nfi\nexec "{program_path()}" "$@"\n'))
        with Slurm() as slurm:
            first, compared = steps(section("Slurm"))
            process = subprocess.Popen(first.command.split(), cwd=begun.folder, stdout=subprocess.PIPE,
                                       env=holding | slurm.environment)
            deadline = time.monotonic() + PATIENCE
            while not (held / "by").exists():
                assert time.monotonic() < deadline and process.poll() is None, slurm.told()
                time.sleep(0.02)
            slurm.lose(int((held / "by").read_text().strip().removeprefix("n")))
            output, _ = process.communicate(timeout=5 * PATIENCE)
            assert process.returncode == 0, slurm.told()
            assert output.decode() == first.shown
            assert slurm.restarts() == 1
            environment = begun.environment
            begun.environment = environment | slurm.environment
            begun.has_risk("examples/spread/over-slurm --risk holdings D")
            begun.environment = environment
        assert begun.run(compared.command) == ""
