"""Users that deploy/user adds, changes and removes, in files that nginx reads again."""
from __future__ import annotations

import contextlib
import itertools
import os
import pty
import signal
import subprocess

import pytest

from support.site import Site
from support.trading import until

FILES = ("users", "desks.map", "issuers.map")
# Longer than nginx's maps take without another setting.
LONG = "l" * 60
NAMES = (f"una{number}" for number in itertools.count(1))


class Hand:
    """Who uses the script on a site."""

    def __init__(self, site: Site) -> None:
        self.site, self.etc = site, site.folder / "etc"
        words = f"nginx -p {site.folder} -e {site.folder}/log/error.log -c {site.folder}/etc/nginx.conf"
        self.environment = os.environ | {"MUNI_ETC": str(self.etc), "MUNI_NGINX": words,
                                         "MUNI_GROUP": self.etc.joinpath("users").group()}

    def user(self, *words: str, password: str | None = None) -> tuple[int, str]:
        """The status, and what is written or the first line that is complained of."""
        came = subprocess.run([self.site.deploy / "user", *words], input="" if password is None else f"{password}\n",
                              capture_output=True, text=True, env=self.environment)
        if password is not None and came.returncode == 0 and words[0] in ("add", "password"):
            self.site.passwords.setdefault(words[1], password)
            if words[0] == "password":
                self.site.passwords[words[1]] = password
        return came.returncode, came.stdout if came.returncode == 0 else came.stderr.partition("\n")[0]

    def typed(self, *words: str, lines: list[str]) -> tuple[int, bool]:
        """The status of a run in a terminal, and whether what is typed is shown."""
        process, terminal = pty.fork()
        if process == 0:
            os.execve(self.site.deploy / "user", ["user", *words], self.environment)
        shown = b""
        with contextlib.suppress(OSError):    # which tells the end
            while piece := os.read(terminal, 4096):
                shown += piece
                if shown.endswith(b": "):
                    os.write(terminal, lines.pop(0).encode() + b"\n")
        os.close(terminal)
        return os.waitstatus_to_exitcode(os.waitpid(process, 0)[1]), b"typed" in shown

    def kept(self) -> dict[str, tuple[bytes, int, int]]:
        """Each file of the folder with its rights and its group."""
        found = {}
        for file in sorted(self.etc.iterdir()):
            state = file.stat()
            found[file.name] = (file.read_bytes() if file.is_file() else b"", state.st_mode, state.st_gid)
        return found

    def lines_of(self, name: str, user: str) -> list[str]:
        lines = self.etc.joinpath(name).read_text().splitlines()
        return [line for line in lines if line.lower().startswith((f"{user} ", f"{user}:"))]

    def master(self) -> int | None:
        try:
            return int((self.site.folder / "nginx.pid").read_text())
        except (OSError, ValueError):
            return None

    def restarts(self) -> bool:
        """Whether nginx, ended as a stop of the machine would, is there again and serves."""
        before = self.master()
        if before is None:
            return False
        os.kill(before, signal.SIGTERM)
        return until(lambda: self.master() not in (None, before) and self.status("GET", "/me") == 200)

    def status(self, method: str, path: str, body: str | None = None, user: str = "alice") -> int:
        """The status of an answer, or 0 if nginx does not run."""
        try:
            return self.site.ask(method, path, body, user).status
        except OSError:
            return 0

    def lists(self, user: str, *desks: str) -> list[int]:
        return [self.status("GET", f"/lists/{desk}", user=user) for desk in desks]

    def reads(self, user: str, *statuses: int) -> bool:
        """Whether the user gets these statuses of two desks, after the reload and after a restart."""
        wanted = list(statuses)
        return (until(lambda: self.lists(user, "GAMMA", "DELTA") == wanted) and self.restarts()
                and self.lists(user, "GAMMA", "DELTA") == wanted)

    def added_an_issue(self, user: str) -> int:
        """A body that is none is refused by the desk, and not by the queue, if the user may add issues."""
        return self.status("POST", "/issues", "{}", user)


@pytest.fixture(scope="module")
def hand(site) -> Hand:
    return Hand(site)


@pytest.fixture
def una(hand) -> str:
    """The name of a new user, who has the desk GAMMA and the password `first`."""
    name = next(NAMES)
    assert hand.user("add", name, "GAMMA", password="first") == (0, f"{name}: desks GAMMA\n")
    return name


def test_a_user_reads_the_desks_that_she_is_given(hand, una):
    assert hand.reads(una, 200, 403)
    assert hand.user("give", una, "DELTA") == (0, f"{una}: desks GAMMA DELTA\n")
    assert hand.reads(una, 200, 200)
    assert hand.lines_of("desks.map", una) == [f'{una} "GAMMA DELTA";'], "she has one line"
    assert hand.etc.joinpath("users").stat().st_mode & 0o777 == 0o640, "nginx may read the passwords, and others not"


def test_what_is_there_already_changes_nothing(hand, una):
    before = hand.kept()
    assert hand.user("add", una, "GAMMA", password="other") == (0, f"{una}: desks GAMMA\n")
    assert hand.user("give", una, "GAMMA", "GAMMA") == (0, f"{una}: desks GAMMA\n")
    assert hand.kept() == before


def test_a_desk_is_taken(hand, una):
    hand.user("give", una, "DELTA")
    assert hand.user("take", una, "GAMMA") == (0, f"{una}: desks DELTA\n")
    assert hand.reads(una, 403, 200)


def test_the_right_to_add_issues_is_given_and_taken(hand, una):
    assert until(lambda: hand.added_an_issue(una) == 403)
    assert hand.user("give", una, "--issues") == (0, f"{una}: desks GAMMA, may add issues\n")
    assert until(lambda: hand.added_an_issue(una) == 400)
    assert hand.restarts()
    assert hand.user("take", una, "--issues") == (0, f"{una}: desks GAMMA\n")
    assert until(lambda: hand.added_an_issue(una) == 403)


def test_another_password_takes_the_place_of_the_first(hand, una):
    assert hand.user("password", una, password="second") == (0, f"{una}: desks GAMMA\n")
    assert hand.reads(una, 200, 403)
    hand.site.passwords[una] = "first"
    assert hand.status("GET", "/me", user=una) == 401


def test_a_password_that_is_typed_twice_is_taken_and_not_shown(hand, una):
    assert hand.typed("password", una, lines=["typed here", "typed here"]) == (0, False)
    assert hand.typed("password", una, lines=["typed here", "typed there"]) == (1, False)
    hand.site.passwords[una] = "typed here"
    assert hand.reads(una, 200, 403)


NO_DESK = "is no name of a desk: 1 to 16 capitals and digits"
NO_NAME = "is no name: letters, digits and . _ @ - after a letter or a digit"
# In a text and in a word UNA is the user of the test.
REFUSED = {
    ("give", "UNA", "gamma"): "'gamma' has small letters: the name of a desk is capitals and digits",
    ("give", "UNA", "GA-MMA"): f"'GA-MMA' {NO_DESK}",
    ("give", "UNA", "GAMMA;"): f"'GAMMA;' {NO_DESK}",
    ("give", "UNA", "A2345678901234567"): f"'A2345678901234567' {NO_DESK}",
    ("give", "UNA", ""): f"'' {NO_DESK}",
    ("give", "vera", "GAMMA"): "there is no user vera: add him first",
    ("take", "UNA", "GAMMA", "DELTA"): "UNA may not use DELTA. Nothing is changed",
    ("add", "Alice", "GAMMA"): "there is alice already, and the maps do not tell capitals from small letters",
    ("add", "Default"): "'Default' has a meaning of its own in a map of nginx, so no user has this name",
    ("add", "~u", "GAMMA"): f"'~u' {NO_NAME}",
    ("add", "u:x", "GAMMA"): f"'u:x' {NO_NAME}",
    ("add", "u\nx", "GAMMA"): "'u",
}


@pytest.mark.parametrize("words", REFUSED, ids=" ".join)
def test_words_are_refused_and_nothing_is_changed(hand, una, words):
    before = hand.kept()
    told = hand.user(*[una if word == "UNA" else word for word in words], password="words")
    assert told == (1, "user: " + REFUSED[words].replace("UNA", una))
    assert hand.kept() == before


@pytest.mark.parametrize("words", [
    ("give", "alice"), ("make", "alice", "GAMMA"), ("remove", "alice", "DELTA"), ("add",), ()], ids=" ".join)
def test_what_is_no_act_ends_with_status_2(hand, words):
    before = hand.kept()
    assert hand.user(*words, password="words")[0] == 2
    assert hand.kept() == before


@pytest.mark.parametrize(("password", "told"), [
    ("", "there is no password"), ("x" * 73, "a password has 72 bytes at most")], ids=["none", "73 bytes"])
def test_a_password_is_refused(hand, password, told):
    before = hand.kept()
    assert hand.user("add", "vera", "GAMMA", password=password) == (1, f"user: {told}. Nothing is changed")
    assert hand.kept() == before


@pytest.mark.parametrize("more", [(), ("--issues",)], ids=["", "--issues"])
def test_a_name_that_nginxs_maps_do_not_take_is_put_back(hand, more):
    before = hand.kept()
    status, told = hand.user("add", LONG, "GAMMA", *more, password="words")
    assert (status, "map_hash" in told) == (1, True), "nginx's words are told"
    assert hand.kept() == before
    assert hand.restarts()


@pytest.fixture
def desks(hand):
    """The file of desks, into which another hand may write. Its lines of vera are gone at the end."""
    file = hand.etc / "desks.map"
    yield file
    file.write_text("".join(line for line in file.read_text().splitlines(True) if not line.startswith("vera")))


def test_a_line_that_nginx_does_not_take_leaves_all_as_it_was(hand, una, desks):
    desks.write_text(desks.read_text() + "vera ALPHA BETA;\n")
    before = hand.kept()
    assert hand.user("give", una, "DELTA")[0] == 1
    assert hand.kept() == before
    assert hand.status("GET", "/me") == 200


def test_a_line_of_another_form_is_told_with_its_place(hand, una, desks):
    text = desks.read_text() + "vera alpha;\n"
    desks.write_text(text)
    assert hand.user("give", una, "DELTA") == (1, f"user: {desks}, line {len(text.splitlines())}, has another form than"
                                                  " its first lines say: vera alpha;")


def test_two_lines_of_a_user_with_which_nginx_would_not_start_are_made_one(hand, una, desks):
    desks.write_text(desks.read_text() + f"{una} GAMMA;\n")
    assert hand.user("give", una, "DELTA") == (0, f"{una}: desks GAMMA DELTA\n")
    assert hand.lines_of("desks.map", una) == [f'{una} "GAMMA DELTA";']
    assert hand.restarts()
    assert hand.lists(una, "GAMMA", "DELTA") == [200, 200]


def test_what_a_map_has_of_a_user_who_is_gone_is_not_given_to_one_of_his_name(hand, desks):
    desks.write_text(desks.read_text() + "vera RETAIL;\n")
    assert hand.user("add", "vera", password="words") == (0, "vera: desks none\n")
    assert hand.lines_of("desks.map", "vera") == []
    assert hand.user("remove", "vera")[0] == 0


def test_a_user_is_removed_and_others_have_what_they_had(hand, una):
    assert hand.user("remove", una) == (0, f"{una} is removed\n")
    assert hand.reads(una, 401, 401)
    assert [line for name in FILES for line in hand.lines_of(name, una)] == []
    assert hand.user("remove", una) == (1, f"user: there is no user {una}")
    assert hand.lists("alice", "ALPHA", "BETA", "RETAIL") == [200, 200, 403]


def test_all_users_are_listed_with_what_they_may_do(hand):
    status, told = hand.user("list")
    assert status == 0
    lines = told.splitlines()
    assert "alice: desks ALPHA BETA" in lines and "rita: desks RETAIL, may add issues" in lines
    names = [line.partition(":")[0] for line in lines]
    assert "otto: desks none" in lines and names == sorted(names)
    assert hand.user("list", "alice")[0] == 2
