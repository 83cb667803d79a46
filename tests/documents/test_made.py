"""Files and parts of pages that programs make of others, and which are as these make them."""
import pytest

import made_debian
import made_notice
import made_pages
from support.program import ROOT, needs

PAGES = ("docs/FORMATS.md", "docs/RULES.md", "docs/muni.1", "docs/muni.bash", "web/refusals.js",
         "clients/python/src/muni/_refusals.py")
FILES = ("debian/changelog", "debian/copyright")


def kept(path: str) -> str:
    return (ROOT / path).read_text(encoding="utf-8")


@pytest.fixture(scope="module")
def pages() -> dict[str, str]:
    return made_pages.pages()


@pytest.mark.parametrize("path", PAGES)
def test_a_page_is_made_of_its_tables(pages, path):
    assert kept(path) == pages[path], "tests/documents/made_pages.py makes it"


@pytest.mark.parametrize("path", FILES)
def test_a_file_of_the_package_is_made_of_the_texts_of_the_repository(path):
    assert kept(path) == made_debian.files()[path], "tests/documents/made_debian.py makes it"


def test_no_page_and_no_file_is_left_out(pages):
    assert (set(pages), set(made_debian.files())) == (set(PAGES), set(FILES))


def test_the_notice_has_the_licences_of_the_kit():
    needs("rt")
    notice = made_notice.notice(made_notice.kit())
    assert kept("NOTICE") == notice, "tests/documents/made_notice.py makes it"
