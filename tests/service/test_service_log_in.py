"""Who logs in to the desk behind nginx, and what the page may run."""
from __future__ import annotations

import time

import pytest


def test_without_a_password_a_browser_is_told_to_ask_for_one(site):
    none = site.ask("GET", "/lists/ALPHA", user=None)
    assert (none.status, none.text) == (401, "401 Unauthorized\n")
    assert none.fields["WWW-Authenticate"] == 'Basic realm="desk"'


@pytest.mark.parametrize(("method", "path"), [
    ("GET", "/"), ("GET", "/page/desk.js"), ("GET", "/me"), ("POST", "/issues")])
def test_without_a_password_nothing_is_answered(site, method, path):
    assert site.ask(method, path, user=None).status == 401


def test_a_wrong_password_is_told_after_a_second(site):
    begin = time.monotonic()
    assert site.ask("GET", "/lists/ALPHA", user=None, **site.log_in("alice", "wrong")).status == 401
    assert time.monotonic() - begin > 0.9


@pytest.mark.parametrize(("user", "other"), [("alice", "rita"), ("eve", "")], ids=["another's", "of an unknown user"])
def test_a_password_that_is_not_the_users_is_refused(site, user, other):
    password = site.passwords[other] if other else ""
    assert site.ask("GET", "/lists/ALPHA", user=None, **site.log_in(user, password)).status == 401


def test_the_right_password_is_let_in_and_the_answer_is_not_stored(site):
    right = site.ask("GET", "/lists/ALPHA")
    assert (right.status, right.text) == (200, "")
    assert right.fields["Cache-Control"] == "no-store"


@pytest.mark.parametrize(("user", "told"), [("alice", "alice ALPHA BETA\n"), ("otto", "otto \n")])
def test_a_user_is_told_his_desks(site, user, told):
    assert site.ask("GET", "/me", user=user).text == told


def test_the_page_runs_nothing_of_others(site):
    assert "default-src 'self'" in site.ask("GET", "/me").fields["Content-Security-Policy"]


@pytest.mark.parametrize(("path", "kind"), [("/", "text/html"), ("/page/desk.js", "text/javascript")])
def test_the_page_and_its_scripts_are_there(site, path, kind):
    answer = site.ask("GET", path)
    assert (answer.status, answer.fields["Content-Type"]) == (200, kind)
