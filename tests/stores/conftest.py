"""Books that are not begun yet, over a store of either kind or of one; and calls of the program that fail."""
import pytest

from support.books import Book
from support.faults import Faults
from support.program import needs
from support.stores import Store


@pytest.fixture
def book(muni, store) -> Book:
    return Book(muni, store)


@pytest.fixture
def database(muni, tmp_path) -> Book:
    return Book(muni, Store("sqlite", tmp_path / "store"))


@pytest.fixture
def journal(muni, tmp_path) -> Book:
    return Book(muni, Store("journal", tmp_path / "store"))


@pytest.fixture(scope="session")
def faults(tmp_path_factory) -> Faults:
    """The library that lets calls of the program fail."""
    needs("gcc")
    return Faults.built(tmp_path_factory.mktemp("faults"))
