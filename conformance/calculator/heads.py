"""The head of a request of HTTP, of version 1.0 or 1.1."""
from __future__ import annotations

import codecs
from typing import NamedTuple

TOKEN = frozenset(b"!#$%&'*+-.^_`|~0123456789ABCDEFGHIJKLMNOPQRSTUVWXYZabcdefghijklmnopqrstuvwxyz")
TARGET = frozenset(range(0x21, 0x100)) - {0x7F}
VALUE = frozenset(range(0x20, 0x100)) - {0x7F} | {0x09}
LINE_FEED, RETURN = b"\n"[0], b"\r"[0]


class Incomplete(Exception):
    """Bytes that may become a head. `is_hopeless` if no more bytes can make one of them."""

    def __init__(self, fields: int, is_hopeless: bool = False) -> None:
        super().__init__(fields, is_hopeless)
        self.fields = fields
        self.is_hopeless = is_hopeless


class Malformed(Exception):
    """Bytes that can no longer become a head."""

    def __init__(self, fields: int) -> None:
        super().__init__(fields)
        self.fields = fields


class Head(NamedTuple):
    method: bytes
    target: bytes
    fields: list[tuple[bytes, bytes]]
    length: int


class Reader:
    """Reads bytes one part after the other."""

    def __init__(self, data: bytes) -> None:
        self.data = data
        self.place = 0
        self.fields: list[tuple[bytes, bytes]] = []

    def incomplete(self, is_hopeless: bool = False) -> Incomplete:
        return Incomplete(len(self.fields), is_hopeless)

    def malformed(self) -> Malformed:
        return Malformed(len(self.fields))

    def peek(self) -> int:
        if self.place >= len(self.data):
            raise self.incomplete()
        return self.data[self.place]

    def expect(self, bytes_: bytes) -> int:
        """The next byte, which is one of these."""
        found = self.peek()
        if found not in bytes_:
            raise self.malformed()
        self.place += 1
        return found

    def many(self, allowed: frozenset[int]) -> bytes:
        """The bytes up to the first that is not allowed."""
        start = self.place
        while self.place < len(self.data) and self.data[self.place] in allowed:
            self.place += 1
        return self.data[start:self.place]

    def line_end(self) -> None:
        if self.expect(b"\r\n") == RETURN:
            self.expect(b"\n")


def head(data: bytes) -> Head:
    """The head with which the bytes begin."""
    reader = Reader(data)
    while reader.peek() in b"\r\n":
        reader.line_end()
    method = word(reader)
    reader.expect(b" ")
    target = target_of(reader)
    for byte in b"HTTP/1.":
        reader.expect(bytes([byte]))
    reader.expect(b"01")
    reader.line_end()
    while reader.peek() not in b"\r\n":
        name = word(reader)
        reader.expect(b":")
        value = reader.many(VALUE)
        reader.line_end()
        reader.fields.append((name, value.strip(b" \t")))
    reader.line_end()
    return Head(method, target, reader.fields, reader.place)


def word(reader: Reader) -> bytes:
    """A token, which is not empty. What follows it is there."""
    found = reader.many(TOKEN)
    reader.peek()
    if not found:
        raise reader.malformed()
    return found


def target_of(reader: Reader) -> bytes:
    found = reader.many(TARGET)
    if reader.place == len(reader.data):
        raise reader.incomplete(is_hopeless=not is_front_of_text(found))
    if not found or not is_text(found):
        raise reader.malformed()
    reader.expect(b" ")
    return found


def is_text(data: bytes) -> bool:
    try:
        data.decode()
    except UnicodeDecodeError:
        return False
    return True


def is_front_of_text(data: bytes) -> bool:
    """Whether more bytes may make UTF-8 of these."""
    try:
        codecs.getincrementaldecoder("utf-8")().decode(data)
    except UnicodeDecodeError:
        return False
    return True
