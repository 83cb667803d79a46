"""What every test is given: the program, a folder of its own, a store of either kind, and a server over it."""
from __future__ import annotations

import os
import pathlib
from collections.abc import Callable, Iterator, Sequence

import pytest
from hypothesis import HealthCheck, settings

from support import covered, launcher
from support.program import Program, program_path
from support.rules import RULES
from support.server import MOST, Server
from support.stores import KINDS, Store

# Before a test imports the client.
COUNTER = covered.begin()


# In the gate the same is drawn in each run. What is drawn is large, and slow beside what hypothesis expects.
FIXED = {"deadline": None, "database": None, "print_blob": False,
         "suppress_health_check": [HealthCheck.too_slow, HealthCheck.data_too_large, HealthCheck.large_base_example]}
settings.register_profile("gate", derandomize=True, max_examples=50, **FIXED)
settings.register_profile("long", max_examples=2000, **FIXED)


def pytest_addoption(parser: pytest.Parser) -> None:
    parser.addoption("--long", action="store_true", help="draws more at random, and other cases in each run")
    parser.addoption("--coverage", action="store_true",
                     help="tells which lines of the client and of the scripts of the page ran")
    parser.addoption("--shots", metavar="FOLDER", help="keeps pictures of the page in a folder")
    parser.addoption("--launcher-lines", metavar="FILE",
                     help="writes each line of ./muni that is run to a new file, and says at the end which are not")
    parser.addoption("--without", metavar="RULE", choices=RULES,
                     help="takes a rule out of the files of deploy/ and runs the tests of which one has to fail then")
    parser.addoption("--without-each", action="store_true", help="takes each rule out, and sees that its test fails")


def pytest_configure(config: pytest.Config) -> None:
    """Chooses what is drawn, and names the mark of xdist, which may be missing."""
    settings.load_profile("long" if config.getoption("--long") else "gate")
    config.addinivalue_line("markers", "xdist_group(name): one worker runs all of these, if there are several")
    if config.getoption("--launcher-lines"):
        os.environ[launcher.TRACE] = str(pathlib.Path(config.getoption("--launcher-lines")).resolve())


def pytest_sessionfinish() -> None:
    """Keeps what this process has counted."""
    if COUNTER:
        COUNTER.stop()
        COUNTER.save()


def pytest_terminal_summary(terminalreporter: pytest.TerminalReporter, config: pytest.Config) -> None:
    if config.getoption("--coverage") and not hasattr(config, "workerinput"):
        terminalreporter.write(covered.figures())
    trace = config.getoption("--launcher-lines")
    if trace and os.path.exists(trace):
        for line in launcher.coverage(pathlib.Path(trace)):
            terminalreporter.write_line(line)


@pytest.fixture(scope="session")
def muni() -> Program:
    """The program that is tried."""
    return Program(program_path())


@pytest.fixture(params=KINDS)
def store(request: pytest.FixtureRequest, tmp_path) -> Store:
    """A store that does not exist yet, once of each kind."""
    return Store(request.param, tmp_path / "store")


@pytest.fixture
def serve(muni: Program) -> Iterator[Callable[..., Server]]:
    """Starts servers, which end with the test."""
    servers: list[Server] = []

    def start(store: Store, connections: int = MOST, more: Sequence[str] = ()) -> Server:
        servers.append(Server(muni, store.name, connections, more))
        return servers[-1]

    yield start
    for server in servers:
        server.__exit__()
