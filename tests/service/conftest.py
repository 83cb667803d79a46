"""The desk behind nginx and haproxy as the files of deploy/ have it, once for each module."""
from __future__ import annotations

import contextlib
from collections.abc import Callable, Iterator

import pytest

from support.rules import RULES, Edit, edited
from support.site import Site, deployed


def pytest_configure(config: pytest.Config) -> None:
    config.addinivalue_line("markers", "without_each: runs with --without-each alone")


def pytest_collection_modifyitems(config: pytest.Config, items: list[pytest.Item]) -> None:
    """Leaves the tests of the rule that is taken out, or those that take each rule out, or all but these."""
    rule = config.getoption("--without")
    is_each = config.getoption("--without-each")

    def is_left(item: pytest.Item) -> bool:
        if not item.path.is_relative_to(__file__.removesuffix("/conftest.py")):
            return True
        if (item.get_closest_marker("without_each") is not None) != is_each:
            return False
        return rule is None or item.path.name == RULES[rule].module

    left = [item for item in items if is_left(item)]
    config.hook.pytest_deselected(items=[item for item in items if item not in left])
    items[:] = left


@pytest.fixture(scope="module")
def deploy(request: pytest.FixtureRequest, tmp_path_factory: pytest.TempPathFactory) -> Iterator[Callable[..., Site]]:
    """Starts desks with edits of the files, and without the rule that is taken out. They end with the module."""
    rule = request.config.getoption("--without")
    without = RULES[rule].edits if rule else ()
    with contextlib.ExitStack() as stack:

        def start(edits: tuple[Edit, ...] = (), *words: str) -> Site:
            folder = edited(edits + without, tmp_path_factory.mktemp("site") / "deploy")
            return stack.enter_context(deployed(f"--deploy={folder}", *words))

        yield start


@pytest.fixture(scope="module")
def site(request: pytest.FixtureRequest, deploy: Callable[..., Site]) -> Site:
    """The desk with the EDITS of the module, if it has any."""
    return deploy(getattr(request.module, "EDITS", ()))
