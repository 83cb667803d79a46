"""Requests of HTTP, and their answers (docs/HTTP.md)."""
from __future__ import annotations

import enum
import re
from collections.abc import Iterator
from typing import NamedTuple

from calculator import checked, exported, fields, json_text, numerals
from calculator.book import (AddIssue, Added, Amend, Amended, Book, Cancel, Command, Confirm, Confirmed, Correct,
                             Enter, Listed, ListTrades, Quote, Quoted, Reply)
from calculator.figures import Asked, Choice, Refusal, Refused, Side, likely
from calculator.heads import Head, Incomplete, Malformed, head
from calculator.json_text import BadJson
from calculator.numerals import Unreadable
from calculator.terms import Call, Issue, Kind
from calculator.texts import (confirmation, each_lines, figure_lines, list_line, position_line, refusal_line,
                              risk_lines, text_of)

HEAD_MAX = 16_384
FIELDS_MAX = 64
BODY_MAX = 65_536
POSTED = ("/issues", "/amendments", "/trades", "/corrections", "/cancels", "/quotes", "/checks")
PHRASES = {200: "OK", 400: "Bad Request", 404: "Not Found", 405: "Method Not Allowed", 409: "Conflict",
           411: "Length Required", 413: "Payload Too Large", 422: "Unprocessable Entity",
           431: "Request Header Fields Too Large", 503: "Service Unavailable"}


class Bad(NamedTuple):
    """A bad request, by the status of its answer. Of a method that is not allowed it names the other one."""

    status: int
    allow: str = ""


class Short(enum.Enum):
    """Bytes that end before the request does. They are not answered."""

    SHORT = "short"


class LookAtIssue(NamedTuple):
    cusip: str


class LookAtVersion(NamedTuple):
    desk: str
    reference: str
    number: int


class LookAtPositions(NamedTuple):
    desk: str


class LookAtLatest(NamedTuple):
    desk: str


class CheckOfRow(NamedTuple):
    """A check of one row, which keeps nothing."""

    desk: str
    columns: list[str]
    record: list[str]


# A look at the tables, which keeps nothing.
Look = LookAtIssue | LookAtVersion | LookAtPositions | LookAtLatest
Reading = Command | Look | CheckOfRow | Bad | Short


class Refusing(Exception):
    """Ends the reading of a request."""

    def __init__(self, reading: Bad | Short) -> None:
        super().__init__(reading)
        self.reading = reading


def readings(data: bytes) -> list[Reading]:
    """What the bytes of a connection may be read as. They are several if docs/HTTP.md leaves it open."""
    many = [Bad(431)]
    try:
        found = head(data[:HEAD_MAX])
    except Malformed as error:
        return [Bad(400)] + (many if error.fields > FIELDS_MAX else [])
    except Incomplete as error:
        first = Bad(431) if len(data) >= HEAD_MAX else Short.SHORT
        if error.is_hopeless:
            return [Bad(400), first]
        return [first] + (many if error.fields > FIELDS_MAX and first is Short.SHORT else [])
    if len(found.fields) > FIELDS_MAX:
        return many
    try:
        return [request(found, data[found.length:])]
    except Refusing as refusing:
        return [refusing.reading]


def request(found: Head, rest: bytes) -> Command | Look | CheckOfRow:
    """What a request asks for that has a whole head."""
    path = found.target.partition(b"?")[0].decode("latin-1")
    if path not in POSTED:
        asked_for = got(path)
        if found.method != b"GET":
            raise Refusing(Bad(405, "GET"))
        return asked_for
    if found.method != b"POST":
        raise Refusing(Bad(405, "POST"))
    length = length_of(found)
    if length > BODY_MAX:
        raise Refusing(Bad(413))
    if len(rest) < length:
        raise Refusing(Short.SHORT)
    try:
        return posted(path, rest[:length])
    except (Unreadable, BadJson) as error:
        raise Refusing(Bad(400)) from error


def got(path: str) -> Command | Look:
    """What is asked under a path by GET."""
    try:
        match path.split("/"):
            case ["", "trades", desk, reference]:
                return Confirm(numerals.desk(desk), numerals.reference(reference))
            case ["", "lists", desk]:
                return ListTrades(numerals.desk(desk))
            case ["", "lists", desk, after]:
                return ListTrades(numerals.desk(desk), numerals.reference(after))
            case ["", "issues", cusip]:
                return LookAtIssue(fields.cusip(cusip))
            case ["", "trades", desk, reference, number]:
                return LookAtVersion(numerals.desk(desk), numerals.reference(reference), fields.number(number))
            case ["", "positions", desk]:
                return LookAtPositions(numerals.desk(desk))
            case ["", "latest", desk]:
                return LookAtLatest(numerals.desk(desk))
    except Unreadable:
        pass
    raise Refusing(Bad(404))


def length_of(found: Head) -> int:
    """The length of the body. Several of one value count as one."""
    values = [value for name, value in found.fields if name.lower() == b"content-length"]
    if not values or any(name.lower() == b"transfer-encoding" for name, _ in found.fields):
        raise Refusing(Bad(411))
    if not all(re.fullmatch(b"[0-9]{1,10}", value) for value in values) or len(set(map(int, values))) > 1:
        raise Refusing(Bad(400))
    return int(values[0])


class Members:
    """The members of a body that are texts, with a character for each byte."""

    def __init__(self, body: object) -> None:
        if not isinstance(body, dict):
            raise Unreadable
        self.body = body

    def __contains__(self, name: str) -> bool:
        return name in self.body

    def __getitem__(self, name: str) -> str:
        found = self.body.get(name)
        if not isinstance(found, str):
            raise Unreadable
        return found.encode().decode("latin-1")

    def get(self, name: str) -> str:
        """A member that may be left out."""
        return self[name] if name in self else ""

    def is_true(self, name: str) -> bool:
        """A member that is a Boolean, and may be left out."""
        found = self.body.get(name, False)
        if not isinstance(found, bool):
            raise Unreadable
        return found

    def calls(self) -> Iterator[Call]:
        listed = self.body.get("calls", [])
        if not isinstance(listed, list) or len(listed) > fields.MOST_CALLS:
            raise Unreadable
        for each in map(Members, listed):
            yield Call(numerals.day(each["date"]), *fields.marked_price(each["price"]))


def posted(path: str, body: bytes) -> Command | CheckOfRow:
    members = Members(json_text.value(body))
    if path == "/checks":
        return row_of(members)
    if path == "/issues":
        return AddIssue(issue(members))
    if path == "/amendments":
        return Amend(fields.number(members["number"]), issue(members))
    if path == "/quotes":
        return Quote(asked(members, Side.BUY, 0), members.is_true("each"), members.is_true("risk"))
    key = numerals.desk(members["desk"]), numerals.reference(members["reference"])
    if path == "/cancels":
        return Cancel(*key, fields.number(members["number"]))
    trade = asked(members, fields.side(members["side"]), fields.fee(members.get("fee")))
    terms = fields.number(members["issue"]) if "issue" in members else None
    if path == "/trades":
        return Enter(*key, trade, terms)
    return Correct(*key, fields.number(members["number"]), trade, terms)


def row_of(members: Members) -> CheckOfRow:
    """A row of its desk and of columns, and of nothing else."""
    if not members.body.keys() <= {"desk", *checked.COLUMNS}:
        raise Unreadable
    columns = [column for column in checked.COLUMNS if column in members]
    desk = numerals.desk(members["desk"]) if "desk" in members else ""
    return CheckOfRow(desk, columns, [members[column] for column in columns])


def issue(members: Members) -> Issue:
    kind = fields.kind(members["kind"])
    if kind != Kind.PERIODIC and "first" in members:
        raise Unreadable
    first = numerals.day(members["first"]) if kind == Kind.PERIODIC else None
    return Issue(fields.cusip(members["cusip"]), fields.issue_name(members["name"]), kind,
                 numerals.day(members["dated"]), numerals.day(members["maturity"]),
                 fields.coupon(kind, members.get("coupon")), first, tuple(members.calls()),
                 fields.day_basis(members.get("days")))


def asked(members: Members, side: Side, fee: int) -> Asked:
    given = fields.given(members["basis"])
    return Asked(fields.cusip(members["cusip"]), numerals.par(members["par"]), numerals.day(members["settle"]), given,
                 fields.value(given, members["value"]), side, fee)


def answers(book: Book, data: bytes, choose: Choice = likely) -> list[bytes]:
    """The right answers to the bytes of a connection. A command among them is applied to the book."""
    return [answer_of(book, reading, choose) for reading in readings(data)]


def answer_of(book: Book, reading: Reading, choose: Choice) -> bytes:
    if reading is Short.SHORT:
        return b""
    if isinstance(reading, Bad):
        return answer(reading.status, f"{reading.status} {PHRASES[reading.status]}\n", reading.allow)
    if isinstance(reading, Look):
        return answer_of_look(book, reading)
    if isinstance(reading, CheckOfRow):
        return answer(200, checked.Check(book, reading.desk, reading.columns, choose).line(reading.record) + "\n")
    return answer_of_reply(book.apply(reading, choose))


def answer_of_look(book: Book, look: Look) -> bytes:
    match look:
        case LookAtIssue(cusip):
            if cusip not in book.issues:
                return answer_of_reply(Refusal(Refused.UNKNOWN_ISSUE))
            return answer(200, text_of(exported.issues(book.issues[cusip])))
        case LookAtVersion(desk, reference, number):
            if not 1 <= number <= len(book.versions(desk, reference)):
                return answer_of_reply(Refusal(Refused.UNKNOWN_TRADE))
            return answer_of_reply(book.confirmed(desk, reference, number))
        case LookAtPositions(desk):
            return answer(200, text_of(position_line(*held) for held in book.positions(desk).items()))
        case LookAtLatest(desk):
            return answer_of_reply(book.latest(desk))


def answer_of_reply(reply: Reply) -> bytes:
    match reply:
        case Added(cusip):
            return answer(200, f"ADDED {cusip}\n")
        case Amended(cusip, number):
            return answer(200, f"AMENDED {cusip} {number}\n")
        case Confirmed():
            return answer(200, text_of(confirmation(reply)))
        case Quoted(asked_, figures, each, risk):
            lines = [*figure_lines(asked_, figures), *each_lines(asked_, each), *risk_lines(risk)]
            return answer(200, text_of(lines))
        case Listed(trades):
            return answer(200, text_of(list_line(*trade) for trade in trades))
        case Refusal(number, _):
            return answer(status_of(number), refusal_line(reply) + "\n")


def status_of(number: Refused) -> int:
    if number in (Refused.UNKNOWN_ISSUE, Refused.UNKNOWN_TRADE):
        return 404
    book = (Refused.CONFLICT, Refused.CANCELED, Refused.WRONG_NUMBER, Refused.VERSIONS_FULL, Refused.DESK_FULL)
    return 409 if number in book else 422


def answer(status: int, text: str, allow: str = "") -> bytes:
    lines = [f"HTTP/1.1 {status} {PHRASES[status]}", "Content-Type: text/plain", f"Content-Length: {len(text)}"]
    if allow:
        lines.append(f"Allow: {allow}")
    return "\r\n".join(lines + ["Connection: close", "", text]).encode("ascii")
