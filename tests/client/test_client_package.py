"""The client as a package: its examples, its words, its version, its wheel, its types, and what Debian makes of it."""
from __future__ import annotations

import doctest
import importlib.util
import os
import pathlib
import re
import shutil
import subprocess
import sys
import types
import zipfile
from collections.abc import Iterator

import pytest

import muni
from muni import parts
from support.program import ROOT, needs, program_path
from support.server import Server, free_port, reached

FOLDER = ROOT / "clients/python"
VERSION = (ROOT / "VERSION").read_text().strip()
TYPED = ("clients/python/src/muni", "clients/python/compare.py", "tests/client/test_client_desk.py",
         "tests/client/test_client_checked.py", "tests/client/test_client_cuts.py", "tests/client/test_client_each.py",
         "tests/client/test_client_kept.py", "tests/client/test_client_frames.py", "tests/client/test_client_parts.py",
         "tests/client/test_client_risk.py", "tests/client/test_client_spread.py")
BONDS = 100


def compare() -> types.ModuleType:
    """The module of compare.py, which belongs to no package."""
    spec = importlib.util.spec_from_file_location("compare", FOLDER / "compare.py")
    assert spec and spec.loader
    module = importlib.util.module_from_spec(spec)
    spec.loader.exec_module(module)
    return module


EXAMPLES = [case for module in (muni, parts, compare()) for case in doctest.DocTestFinder().find(module) if case.examples]


def python(*words: str | pathlib.Path, folder: pathlib.Path | None = None,
           path: pathlib.Path | None = None) -> subprocess.CompletedProcess[str]:
    """A run of the Python that runs these tests, with a path of modules."""
    environment = os.environ | ({} if path is None else {"PYTHONPATH": str(path)})
    return subprocess.run([sys.executable, "-B", *words], cwd=folder, env=environment, capture_output=True, text=True)


def readme_blocks() -> list[str]:
    """The blocks of the README, without what indents them."""
    found = re.findall(r"((?:^(?:    .*)?\n)+)", (FOLDER / "README.md").read_text(), re.M)
    return ["\n".join(line[4:] for line in block.splitlines()).strip("\n") for block in found if block.strip()]


@pytest.mark.parametrize("case", EXAMPLES, ids=[case.name for case in EXAMPLES])
def test_an_example_of_the_code_gives_what_it_shows(case: doctest.DocTest) -> None:
    told: list[str] = []
    failed = doctest.DocTestRunner().run(case, out=told.append, clear_globs=False).failed
    assert not failed, "".join(told)


def test_no_example_of_the_code_is_left_out() -> None:
    assert len(EXAMPLES) == 19


@pytest.fixture
def readme_desk(tmp_path: pathlib.Path) -> Iterator[int]:
    """The port of the desk that the README starts, by its words but for the port."""
    port = free_port()
    words = next(block for block in readme_blocks() if block.startswith("./muni serve"))
    (tmp_path / "muni").symlink_to(program_path())
    process = subprocess.Popen(words.replace("8735", f"{port}").split(), cwd=tmp_path)
    try:
        reached(process, port).close()
        yield port
    finally:
        process.kill()
        process.wait()


def test_the_program_of_the_readme_prints_the_same_twice(readme_desk: int) -> None:
    blocks = readme_blocks()
    place = next(place for place, block in enumerate(blocks) if "import muni" in block)
    program, shown = blocks[place].replace(":8735", f":{readme_desk}"), blocks[place + 1]
    for _ in range(2):
        told = python("-c", program, path=FOLDER / "src")
        assert (told.stdout.strip("\n"), told.stderr) == (shown, "")


def test_it_has_the_version_of_the_repository() -> None:
    assert muni.__version__ == VERSION


def refusal_rows() -> list[tuple[str, ...]]:
    text = (ROOT / "docs/FORMATS.md").read_text()
    return re.findall(r"^\| (\d+) \| (\w+) \|[^|]*\| ([^|]*) \| ([^|]*) \|$", text, re.M)


@pytest.mark.parametrize(("number", "name", "means", "todo"), refusal_rows(), ids=[row[1] for row in refusal_rows()])
def test_a_refusal_says_what_the_page_of_formats_says(number: str, name: str, means: str, todo: str) -> None:
    refusal = muni.REFUSALS[int(number)]
    assert refusal.__name__ == name
    assert means.startswith(refusal.means)
    # A link to another page is left out.
    assert re.sub(r"\[.*?\]\((.*?)#.*?\)", r"docs/\1", todo).startswith(refusal.todo)


def test_the_page_of_formats_has_each_refusal() -> None:
    assert [int(row[0]) for row in refusal_rows()] == sorted(muni.REFUSALS) == list(range(1, 16))


def test_a_wheel_has_the_module_its_types_and_the_version(tmp_path: pathlib.Path) -> None:
    for module in ("setuptools", "wheel", "pip"):
        if importlib.util.find_spec(module) is None:
            pytest.skip(f"{module} is missing")
    shutil.copytree(FOLDER, tmp_path / "client", ignore=shutil.ignore_patterns("__pycache__", "build", "*.egg-info"))
    told = python("-m", "pip", "wheel", "-q", "--no-build-isolation", "--no-deps", "--no-index", "--wheel-dir", "out",
                  "./client", folder=tmp_path)
    wheels = list((tmp_path / "out").glob("*.whl"))
    assert [each.name for each in wheels] == [f"muni-{VERSION}-py3-none-any.whl"], told.stderr
    names = {each for each in zipfile.ZipFile(wheels[0]).namelist() if "dist-info" not in each}
    assert names == {f"muni/{each}" for each in ("__init__.py", "_checks.py", "_frames.py", "_program.py", "_refusals.py",
                                                 "parts.py", "py.typed", "spread.py")}
    # It can be imported as it is.
    told = python("-c", "import muni; print(muni.__version__, muni.__file__)", folder=tmp_path, path=wheels[0])
    assert told.stdout == f"{VERSION} {wheels[0]}/muni/__init__.py\n"


def test_the_prices_of_drawn_bonds_are_those_of_quantlib(served: Server) -> None:
    pytest.importorskip("QuantLib", reason="QuantLib is missing")
    told = python(FOLDER / "compare.py", f"--url={served.address}", f"--bonds={BONDS}")
    assert told.returncode == 0, told.stderr
    assert re.search(rf"^\d+ of {BONDS} prices are the same", told.stdout, re.M), told.stdout


def types_of(*words: str | pathlib.Path) -> tuple[int, str]:
    """The status and the words of a strict look at types. What is imported is looked at without a word."""
    path = os.pathsep.join([str(FOLDER / "src"), str(ROOT / "tests")])
    told = subprocess.run(["mypy", "--strict", "--cache-dir=/dev/null", "--follow-imports=silent", *words], cwd=ROOT,
                          env=os.environ | {"MYPYPATH": path}, capture_output=True, text=True)
    return told.returncode, told.stdout if told.returncode else ""


def test_its_types_and_those_of_its_callers_fit() -> None:
    needs("mypy")
    assert types_of(*TYPED) == (0, "")


def test_the_program_of_the_readme_has_the_types(tmp_path: pathlib.Path) -> None:
    needs("mypy")
    program = tmp_path / "program.py"
    program.write_text(next(block for block in readme_blocks() if "import muni" in block) + "\n")
    assert types_of(program) == (0, "")
    program.write_text('import muni\nmuni.Client("http://127.0.0.1:8735").cancel("RETAIL", "H0001", "2")\n')
    status, told = types_of(program)
    assert (status, 'incompatible type "str"; expected "int"' in told) == (1, True)
