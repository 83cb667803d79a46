"""What other users of the machine reach of the parts within."""
from __future__ import annotations

import os
import pathlib
import stat
import subprocess

import pytest

from support.trading import add_issue

NOBODY, NGINX = 65_534, 33


@pytest.fixture(scope="module", autouse=True)
def desk(site):
    if os.getuid() != 0:
        pytest.skip("this user is not root, and cannot be others")
    return add_issue(site)


@pytest.fixture(scope="module")
def through() -> list[str]:
    """The words that ask for a list and write its status."""
    return ["curl", "-s", "-o", "/dev/null", "-w", "%{http_code}", "-H", "X-Allowed: yes"]


@pytest.fixture(scope="module")
def by_port(site, through) -> list[str]:
    """The words that ask the desk at its port."""
    is_guarded = "PrivateNetwork=yes" in (site.deploy / "muni.service").read_text()
    if is_guarded and not site.told["isolated"]:
        pytest.skip("this machine gives no network of its own")
    return [*through, f"http://127.0.0.1:{site.told['desk_port']}/lists/RETAIL"]


@pytest.fixture(scope="module")
def by_socket(site, through) -> list[str]:
    """The words that ask the queue at its socket."""
    return [*through, "--unix-socket", f"{site.folder}/queue/queue.sock", "http://queue/lists/RETAIL"]


def said(*words: str | pathlib.Path) -> tuple[int, str]:
    came = subprocess.run(words, stdin=subprocess.DEVNULL, capture_output=True, text=True)
    return came.returncode, came.stdout


def said_to(user: int, *words: str | pathlib.Path) -> tuple[int, str]:
    """What is said to another user."""
    return said("setpriv", f"--reuid={user}", f"--regid={user}", "--clear-groups", *words)


@pytest.mark.parametrize(("name", "rights"), [
    ("queue", 0o750), ("queue/queue.sock", 0o660), ("lib", 0o700), ("lib/book", 0o600)])
def test_the_rights_of_a_folder_the_socket_and_the_store(site, name, rights):
    assert stat.S_IMODE((site.folder / name).stat().st_mode) == rights


def test_the_socket_is_reached_by_nginx_alone(by_socket):
    assert said_to(NGINX, *by_socket) == (0, "200")
    assert said_to(NOBODY, *by_socket) == (7, "000")


def test_the_store_is_not_read_by_another_user(site):
    assert said_to(NOBODY, "cat", site.folder / "lib/book")[0] == 1


def test_the_port_is_not_reached_by_another_user(by_port):
    assert said_to(NOBODY, *by_port) == (7, "000")


def test_the_port_is_reached_within_its_network_which_another_user_does_not_enter(site, by_port):
    within = ["nsenter", f"--net=/proc/{site.process_of('muni')}/ns/net"]
    assert said(*within, *by_port) == (0, "200")
    assert said_to(NOBODY, *within, "true")[0] == 1
