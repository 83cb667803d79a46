"""Memory that is refused to each command, over stores of both kinds: at a call that asks for it, and from one on.

A command ends with its right answer, or in status 8. Then it wrote a front part of that answer, what is kept is what
it told, and the same command again, with memory, has the right answer. The calls are spread from the first to the last,
and `--long` tries each of them.
"""
from __future__ import annotations

import json
import pathlib
import subprocess

import pytest

from support.program import ROOT, needs
from support.refused import Command, Machine, Trial, spread

# How many calls of a command are refused in the gate.
SAMPLE = 20

ISSUE = b"issue,123456AA3,RIVERTON WATER 5S 2025,periodic,2020-01-01,2020-07-01,2025-01-01,5,\n"
CALLED = (b"issue,990021AA5,LAKESIDE SCHOOLS,periodic,2020-01-15,2020-07-15,2040-01-15,4.125,"
          b"2030-01-15:102 2032-01-15:100\n")
TRADES = (b"trade,ALPHA,T0001,123456AA3,buy,25000,2024-04-01,yield,4\n"
          b"trade,ALPHA,T0002,123456AA3,sell,10000,2024-04-01,price,100.725\n")
LATER = (b"trade,ALPHA,T0003,1234\n"
         b"correct,ALPHA,T0001,2,123456AA3,buy,30000,2024-04-01,yield,4,0.125\n"
         b"cancel,ALPHA,T0002,2\n"
         b"trade,ALPHA,T0004,990021AA5,buy,5000,2024-04-01,price,104.5\n")
KEPT = ISSUE + CALLED + TRADES
PORTFOLIO = (b"123456AA3,25000,2024-04-01,4\n990021AA5,10000,2024-04-01,4\n000000000,1,2024-04-01,4\n"
             b"123456AA3,0,2024-04-01,4\n")
HOLDINGS = (b"123456AA3,25000,2024-04-01,yield,4\n990021AA5,10000,2024-04-01,price,104.5,0.125,sell\n"
            b"000000000,1,2024-04-01,yield,4\n123456AA3,0,2024-04-01,yield,4\n")
ASKED = {"cusip": "123456AA3", "par": "25000", "settle": "2024-04-01", "basis": "yield", "value": "4"}
TRADE = {"desk": "ALPHA", "reference": "T0009", "side": "buy", **ASKED}
QUOTE = ("quote", "--kind=periodic", "--dated=2020-01-01", "--first=2020-07-01", "--maturity=2045-01-01", "--coupon=5",
         "--call=2030-01-01:101", "--settle=2024-04-01", "--price=104.5", "--workers=1")


def post(path: str, members: dict[str, object]) -> bytes:
    body = json.dumps(members).encode()
    return f"POST {path} HTTP/1.1\r\nHost: localhost\r\nContent-Length: {len(body)}\r\n\r\n".encode() + body


def get(path: str) -> bytes:
    return f"GET {path} HTTP/1.1\r\nHost: localhost\r\n\r\n".encode()


REQUESTS = {
    "an issue": post("/issues", {"cusip": "990010AA8", "name": "HARBOR", "kind": "periodic", "dated": "2020-01-01",
                                 "first": "2020-07-01", "maturity": "2045-01-01", "coupon": "4",
                                 "calls": [{"date": "2030-01-01", "price": "101"}]}),
    "a trade": post("/trades", TRADE),
    "a trade at a price": post("/trades", {**TRADE, "basis": "price", "value": "101.25", "fee": "0.1"}),
    "a correction": post("/corrections", {**TRADE, "reference": "T0001", "par": "30000", "number": "2"}),
    "a cancel": post("/cancels", {"desk": "ALPHA", "reference": "T0002", "number": "2"}),
    "a quote": post("/quotes", ASKED),
    "a check": post("/checks", {**ASKED, "price": "100.725", "total": "25493.75"}),
    "a check of a trade": post("/checks", {"desk": "ALPHA", "reference": "T0001", "price": "100.725"}),
    "a confirmation": get("/trades/ALPHA/T0001"),
    "a list": get("/lists/ALPHA"),
    "a list after a trade": get("/lists/ALPHA/T0001"),
    "an issue's row": get("/issues/123456AA3"),
    "a version": get("/trades/ALPHA/T0001/1"),
    "positions": get("/positions/ALPHA"),
    "the last trades": get("/latest/ALPHA"),
    "no route": get("/nothing"),
    "no body": post("/trades", {"desk": "ALPHA"}),
}

# The requests that are tried over a file that fits its seal too.
SEALED = ("a trade", "a cancel", "a confirmation", "a list")


def commands() -> list[Command]:
    """Every command, over stores of both kinds if it has one."""
    found = [Command("quote-one", ("quote-one", "5", "2024-07-01", "2024-04-01", "100", "4")),
             Command("quote", QUOTE), Command("drill", ("drill", "--count=3", "--seed=7", "--workers=1")),
             Command("help", ("help",))]
    for kind in ("", "journal:"):
        store = f"--store={kind}S"
        importing = ("import", store, "--workers=1")
        found += [
            Command(f"{kind}import", importing, KEPT + LATER, is_import=True),
            Command(f"{kind}import again", importing, KEPT + LATER, None, KEPT + LATER, True),
            Command(f"{kind}import with positions", (*importing, "--positions=ALPHA"), LATER, None, KEPT, True),
            Command(f"{kind}load", ("load", store), KEPT + LATER, is_import=True),
            Command(f"{kind}confirm", ("confirm", store, "--desk=ALPHA", "--ref=T0001"), before=KEPT),
            Command(f"{kind}positions", ("positions", store, "--desk=ALPHA"), before=KEPT),
            Command(f"{kind}export", ("export", store), before=KEPT, is_in_pieces=True),
            Command(f"{kind}export of a desk", ("export", store, "--desk=ALPHA"), before=KEPT, is_in_pieces=True),
            Command(f"{kind}list", ("list", store, "--desk=ALPHA"), before=KEPT, is_in_pieces=True),
            Command(f"{kind}confirm all", ("confirm", store, "--desk=ALPHA", "--all"), before=KEPT, is_in_pieces=True),
            Command(f"{kind}mark", ("mark", store), PORTFOLIO, before=KEPT),
            Command(f"{kind}figures", ("figures", store, "--workers=1"), HOLDINGS, before=KEPT, is_in_pieces=True),
            Command(f"{kind}check-store", ("check-store", store), before=KEPT, is_in_pieces=True),
        ]
        serving = ("serve", store, "--port=0", "--connections=1", "--workers=1")
        found += [Command(f"{kind}serve: {name}", serving, request=request, before=KEPT)
                  for name, request in REQUESTS.items()]
    return found + [each._replace(name=f"{each.name}, sealed", is_sealed=True) for each in found if may_be_sealed(each)]


def may_be_sealed(command: Command) -> bool:
    """Whether a command is tried over a file of sqlite that fits its seal too. Of requests some are."""
    is_of_sqlite = command.before is not None and command.store == "--store=S"
    return is_of_sqlite and (command.request is None or command.name.removeprefix("serve: ") in SEALED)


COMMANDS = commands()


@pytest.fixture(scope="session")
def refusing(tmp_path_factory: pytest.TempPathFactory) -> pathlib.Path:
    """The library that counts and refuses the calls."""
    needs("cc")
    library = tmp_path_factory.mktemp("refusing") / "refuse.so"
    subprocess.run(["cc", "-O1", "-shared", "-fPIC", "-o", library, ROOT / "tests/support/refuse.c"], check=True)
    return library


@pytest.mark.parametrize("command", COMMANDS, ids=[command.name for command in COMMANDS])
def test_a_command_without_memory_is_answered_right_or_ends_in_status_8(muni, refusing, tmp_path, request, command):
    trial = Trial(Machine(muni, refusing, tmp_path), command)
    assert trial.right[0] == 0 and trial.count > 0
    calls = spread(trial.count, None if request.config.getoption("--long") else SAMPLE)
    for is_all in (False, True):
        for call in calls:
            trial.refuse(call, is_all)
    assert sum(trial.ends.values()) == 2 * len(calls)
    # Of the calls that are refused at least one is missed.
    assert trial.ends["right"] < 2 * len(calls)
