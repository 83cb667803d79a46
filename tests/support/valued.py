"""Files that are valued by `figures`: their lines, and what each of them has to be told, by the exact calculator."""
from __future__ import annotations

import contextlib
import fcntl
import hashlib
import itertools
import pathlib
import random
import re
import subprocess
import threading
from collections.abc import Iterable, Iterator
from decimal import Decimal
from typing import NamedTuple

from calculator.valued import HEADER, RISK_HEADER

from support.books import Book
from support.exported import Row, asked, cusip
from support.program import PATIENCE, Said
from support.reference import Reference

MARK = b"\xef\xbb\xbf"
# How many bytes the program reads for a block, at least, and how many it takes at a time.
BLOCK = 57_344
PIECE = 8_192
# The least that a pipe holds.
PAGE = 4_096
# The most bytes of a line that may be a row.
LONGEST = 4_096


class Told(NamedTuple):
    """What is told of a row behind its place, and its total in dollars if it has figures."""

    fields: bytes
    total: Decimal | None


class Valued:
    """What the exact calculator says of lines over issues, perhaps with their sensitivities. A line is asked once,
    since its figures hang on nothing else."""

    def __init__(self, issues: bytes, is_risk: bool = False) -> None:
        self.reference = Reference()
        self.words = ("--risk",) if is_risk else ()
        self.told: dict[bytes, Told] = {}
        assert self.reference.imported(issues)[0] == 0

    def of(self, line: bytes) -> Told:
        """What is told of a line that is a row."""
        if line not in self.told:
            _, output = self.reference.ran("figures", *self.words, rows=line)
            told, total, _ = output.split(b"\n")
            fields = told.partition(b",")[2]
            sum_of = Decimal(total.split(b",")[2].decode())
            self.told[line] = Told(fields, sum_of if fields.startswith(b"figures,") else None)
        return self.told[line]

    def lines(self, rows: Iterable[bytes], first: int = 1) -> Iterator[bytes]:
        return (b"%d,%s\n" % (place, self.of(row).fields) for place, row in enumerate(rows, first))

    def total(self, rows: list[bytes]) -> bytes:
        found = [self.of(row).total for row in rows]
        priced = [each for each in found if each is not None]
        return b"TOTAL,%d,%s,%d\n" % (len(priced), f"{sum(priced, Decimal()):.2f}".encode(), len(rows))

    def text(self, rows: list[bytes], first: int = 1, has_header: bool = False) -> bytes:
        """All that is written on rows."""
        names = HEADER + RISK_HEADER if self.words else HEADER
        header = names.encode() + b"\n" if has_header else b""
        return header + b"".join(self.lines(rows, first)) + self.total(rows)


def line(source: random.Random, issue: Row) -> bytes:
    """A line that asks for figures of an issue, with or without the fields that may be left out."""
    number, side, par, settle, basis, value, fee = asked(source, issue)
    fields = [number, par, settle, basis, value] + source.choice([[fee], [fee, side], [fee, side], []] if fee not in
                                                                ("", "0") else [[], [fee], [fee, side], [fee, ""]])
    return ",".join(fields).encode()


def bad_line(source: random.Random, issue: Row) -> bytes:
    """A line of an issue that is not kept, or one that does not read, or is refused."""
    return source.choice([
        f"{cusip(90_000)},5000,2024-04-01,price,100", f"{issue[1]},5000,2024-04-01,price", "x", ",,,,",
        f"{issue[1]},0,2024-04-01,price,100", f"{issue[1]},5000,2024-04-31,price,100",
        f"{issue[1]},5000,2024-04-01,cost,100", f"{issue[1]},5000,2024-04-01,price,100,11",
        f"{issue[1]},5000,2024-04-01,price,100,0,both", f'"{issue[1]}",5000,2024-04-01,price,100',
        f"{issue[1]},5000,1999-04-01,price,100", f"{issue[1]},5000,2024-04-01,price,0",
    ]).encode()


def lines(source: random.Random, issues: list[Row], count: int) -> list[bytes]:
    """So many lines, one in ten of which has no figures."""
    return [bad_line(source, source.choice(issues)) if source.randrange(10) == 0
            else line(source, source.choice(issues)) for _ in range(count)]


def wide(source: random.Random, row: bytes) -> bytes:
    """The same row with leading zeros in its par, so that a few hundred rows fill some blocks."""
    number, comma, rest = row.partition(b",")
    return number + comma + b"0" * source.randrange(2000) + rest if rest[:1].isdigit() else row


def by_pieces(book: Book, *words: str, pieces: Iterable[bytes]) -> Said:
    """What `figures` says whose input comes by a pipe, a piece at a time."""
    process = book.muni.start("figures", book.store.word, *words, stdin=subprocess.PIPE, stdout=subprocess.PIPE)

    def send() -> None:
        with contextlib.suppress(BrokenPipeError), process.stdin as pipe:
            for piece in pieces:
                pipe.write(piece)
                pipe.flush()

    sender = threading.Thread(target=send)
    sender.start()
    output = process.stdout.read()
    sender.join(PATIENCE)
    return Said(process.wait(PATIENCE), output)


def cut(text: bytes, size: int) -> list[bytes]:
    """The pieces of a text, which have so many bytes."""
    return [text[place:place + size] for place in range(0, len(text), size)]


class Run(NamedTuple):
    """How a run over many rows ends: the checksum of what it writes, and the most memory that it had in KB."""

    status: int
    digest: str
    memory: int


def repeated(book: Book, text: bytes, times: int, *words: str, patience: int = PATIENCE) -> Run:
    """Values a text so many times over, as one input."""
    process = book.muni.start("figures", book.store.word, *words, stdin=subprocess.PIPE, stdout=subprocess.PIPE)
    return run_over(process, [text] * times, patience)


def run_over(process: subprocess.Popen[bytes], texts: Iterable[bytes], patience: int = PATIENCE) -> Run:
    """How a process ends that is sent these texts, one after the other as one input. The pipe holds a page of what it
    writes: it lives, and has had its most memory, when that is looked at before a later page is taken."""
    fcntl.fcntl(process.stdout, fcntl.F_SETPIPE_SZ, PAGE)
    sender = threading.Thread(target=send_all, args=(process, texts))
    sender.start()
    digest, memory = hashlib.sha256(), memory_of(process)
    while piece := process.stdout.read1(PAGE):
        digest.update(piece)
        memory = max(memory, memory_of(process))
    status = process.wait(patience)
    sender.join()
    return Run(status, digest.hexdigest(), memory)


def send_all(process: subprocess.Popen[bytes], texts: Iterable[bytes]) -> None:
    with contextlib.suppress(BrokenPipeError), process.stdin as pipe:
        for text in texts:
            pipe.write(text)


def memory_of(process: subprocess.Popen[bytes]) -> int:
    """The most memory that a process has had, or 0 of one that has ended."""
    status = pathlib.Path(f"/proc/{process.pid}/status").read_text(encoding="ascii")
    peak = re.search(r"VmHWM:\s+(\d+) kB", status)
    return int(peak[1]) if peak else 0


def digest_of(valued: Valued, rows: list[bytes], times: int) -> str:
    """The checksum of what is written on rows that come so many times over."""
    digest = hashlib.sha256()
    told = [valued.of(row).fields for row in rows]
    places = itertools.count(1)
    for _ in range(times):
        digest.update(b"".join(b"%d,%s\n" % (next(places), fields) for fields in told))
    priced, total = valued.total(rows).split(b",")[1:3]
    digest.update(b"TOTAL,%d,%s,%d\n" % (int(priced) * times, f"{Decimal(total.decode()) * times:.2f}".encode(),
                                         len(rows) * times))
    return digest.hexdigest()
