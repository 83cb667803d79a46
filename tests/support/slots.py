"""The bodies of a journal by docs/STORES.md: of its open slots, and of an issue."""
from __future__ import annotations

from collections.abc import Iterator
from datetime import date
from typing import NamedTuple

MARKS = {"": 0, "+": 1, "!": 2}


def bodies(data: bytes) -> Iterator[bytes]:
    """The bodies of the open slots of a journal."""
    place = 0
    while data[place] == 1:
        end = place + 5 + int.from_bytes(data[place + 1:place + 5], "big")
        yield data[place + 5:end]
        place = end


def slots(bodies: list[bytes]) -> bytes:
    """A journal with these bodies, and a closed gate."""
    return b"".join(b"\1" + len(body).to_bytes(4, "big") + body for body in bodies) + b"\0"


def four(number: int) -> bytes:
    return number.to_bytes(4, "big")


def bytes_of_day(text: str) -> bytes:
    day = date.fromisoformat(text)
    return day.year.to_bytes(2, "big") + bytes([day.month, day.day])


class Terms(NamedTuple):
    """The terms of a periodic issue by 30/360. The coupon is in millionths of a percent, and the calls are as the
    column of sqlite has them."""

    cusip: str
    name: str
    days: tuple[str, str, str]
    coupon: int
    calls: str

    @property
    def has_mark(self) -> bool:
        return "+" in self.calls or "!" in self.calls

    def written(self, with_marks: bool) -> bytes:
        """Their bytes after the kind of a body."""
        calls = self.calls.split()
        body = self.cusip.encode() + bytes([len(self.name)]) + self.name.encode() + b"\0\0"
        body += b"".join(map(bytes_of_day, self.days)) + four(self.coupon) + bytes([len(calls)])
        for call in calls:
            day, price = call.split(":")
            units = price.rstrip("+!")
            body += bytes_of_day(day) + four(int(units.replace(".", "")))
            body += bytes([MARKS[price.removeprefix(units)]]) if with_marks else b""
        return body

    def body(self, number: int) -> bytes:
        """The body of these terms, which have this number."""
        if number == 1:
            return (b"\3" if self.has_mark else b"\1") + self.written(self.has_mark)
        return b"\4" + four(number) + self.written(True)
