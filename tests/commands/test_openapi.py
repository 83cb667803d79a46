"""docs/openapi.yaml against the program: what it says of bodies, and of answers.

Of each body of examples/http the members are left out and spoiled one by one, and the schema and the program have to
refuse the same. Each answer to examples/http and to tables/replies has to be one that its operation lists, with a text
of that form.
"""
from __future__ import annotations

import json
import re
from collections.abc import Iterator
from typing import NamedTuple

import pytest

from support.program import ROOT, Program
from support.server import Server
from support.stores import Store
from support.tables import bytes_of, cases

jsonschema = pytest.importorskip("jsonschema")
yaml = pytest.importorskip("yaml")

COMMANDS = ("issue", "amend", "trade", "correct", "cancel", "quote", "check")
REFUSALS = json.loads((ROOT / "docs/refusals.json").read_text())["refusals"]


class Request(NamedTuple):
    """A request: its method, its path without a query, its body, and all its bytes."""

    method: str
    path: str
    body: bytes
    sent: bytes


def request_of(sent: bytes) -> Request:
    head, body = re.split(rb"\r?\n\r?\n", sent.lstrip(b"\r\n"), maxsplit=1)
    method, target = head.split(b"\n")[0].decode("latin-1").split(" ")[:2]
    length = re.search(rb"\ncontent-length:\s*(\d+)", head, re.I)
    return Request(method, target.partition("?")[0], body[:int(length[1])] if length else body, sent)


def request(method: str, path: str, body: bytes = b"") -> Request:
    length = f"Host: localhost\r\nContent-Length: {len(body)}\r\n" if method == "POST" else ""
    return Request(method, path, body, f"{method} {path} HTTP/1.1\r\n{length}\r\n".encode() + body)


def examples() -> Iterator[tuple[int, Request]]:
    """The requests of examples/http, each with its status."""
    folder = ROOT / "examples/http"
    for line in (folder / "requests").read_text().splitlines():
        status, method, path, name = line.split()
        body = (folder / f"{name}.json").read_bytes() if method == "POST" else b""
        yield int(status), request(method, path, body)


def spoiled(body: dict[str, object]) -> Iterator[tuple[str, dict[str, object]]]:
    """Bodies that differ from one in a member that is left out or is no text of its form."""
    for name in body:
        yield f"without {name}", {key: value for key, value in body.items() if key != name}
        yield f"with a spoiled {name}", {**body, name: "!\n"}
        yield f"with a number for {name}", {**body, name: 1}


BODIES = [(case.line, request_of(bytes_of(case.parts[0]))) for case in cases("requests") if case.parts[1] in COMMANDS]
ASKED = [each for _, each in examples()] + [request_of(bytes_of(case.parts[0])) for case in cases("replies")]
SPOILED = [(f"{place}: {each.path} {what}", each.path, body)
           for place, (status, each) in enumerate(examples()) if each.method == "POST" and status != 400
           for what, body in spoiled(json.loads(each.body))]


class Description:
    """The operations of docs/openapi.yaml with their schemas."""

    def __init__(self) -> None:
        self.text = yaml.safe_load((ROOT / "docs/openapi.yaml").read_text())
        self.resolver = jsonschema.RefResolver("", self.text)

    def operation(self, method: str, path: str) -> dict | None:
        """The operation of a request, or None if no path is its own."""
        for template, operations in self.text["paths"].items():
            if re.fullmatch(re.sub(r"{\w+}", "[^/]+", template), path):
                return operations.get(method.lower())
        return None

    def takes(self, path: str, body: object) -> bool:
        schema = self.operation("POST", path)["requestBody"]["content"]["application/json"]["schema"]
        return jsonschema.Draft4Validator(schema, resolver=self.resolver).is_valid(body)

    def lists(self, asked: Request, status: int, text: str) -> bool:
        """Whether an answer is one that the operation lists. What has no operation is no request."""
        responses = (self.operation(asked.method, asked.path) or {}).get("responses", {})
        response = responses.get(str(status)) or self.text["components"]["responses"]["NoRequest"]
        if "$ref" in response:
            response = self.resolver.resolve(response["$ref"])[1]
        return re.search(response["content"]["text/plain"]["schema"]["pattern"], text) is not None


@pytest.fixture(scope="module")
def description() -> Description:
    return Description()


@pytest.fixture(scope="module")
def server(muni: Program, tmp_path_factory: pytest.TempPathFactory) -> Iterator[Server]:
    with Server(muni, Store("sqlite", tmp_path_factory.mktemp("openapi") / "S").name, 1_000_000) as server:
        yield server


@pytest.fixture(scope="module")
def answers(muni: Program, tmp_path_factory: pytest.TempPathFactory) -> list[str]:
    """What one server answers to all the requests in turn."""
    store = Store("sqlite", tmp_path_factory.mktemp("answers") / "S")
    with Server(muni, store.name, len(ASKED)) as server:
        return [server.ask(each.sent).decode() for each in ASKED]


@pytest.mark.parametrize("refusal", REFUSALS, ids=[refusal["name"] for refusal in REFUSALS])
def test_each_refusal_has_one_response(description, refusal):
    pattern = rf"[(|]{refusal['number']} {refusal['name']}( |[|)])"
    responses = description.text["components"]["responses"].values()
    assert sum(re.search(pattern, each["content"]["text/plain"]["schema"]["pattern"]) is not None
               for each in responses) == 1


@pytest.mark.parametrize("asked", [each for _, each in BODIES], ids=[str(line) for line, _ in BODIES])
def test_the_schema_takes_each_body_that_is_read_as_a_command(description, asked):
    assert description.takes(asked.path, json.loads(asked.body))


@pytest.mark.parametrize(("path", "body"), [each[1:] for each in SPOILED], ids=[each[0] for each in SPOILED])
def test_the_schema_and_the_program_refuse_the_same_bodies(description, server, path, body):
    answer = server.ask(request("POST", path, json.dumps(body).encode()).sent)
    assert description.takes(path, body) == (not answer.startswith(b"HTTP/1.1 400"))


@pytest.mark.parametrize("price", ["100", "100+", "100.5!", "100++", "100+!", "+100", "100*", "100 +", "!", ""])
def test_the_schema_and_the_program_take_the_same_marks_of_a_call(description, server, price):
    issue = json.loads((ROOT / "examples/http/issue.json").read_text())
    body = {**issue, "calls": [{"date": "2033-08-01", "price": price}]}
    answer = server.ask(request("POST", "/issues", json.dumps(body).encode()).sent)
    assert description.takes("/issues", body) == (not answer.startswith(b"HTTP/1.1 400"))


@pytest.mark.parametrize("place", range(len(ASKED)), ids=[f"{each.method} {each.path}" for each in ASKED])
def test_an_answer_is_one_that_its_operation_lists(description, answers, place):
    head, _, text = answers[place].partition("\r\n\r\n")
    assert description.lists(ASKED[place], int(head.split(" ")[1]), text)
