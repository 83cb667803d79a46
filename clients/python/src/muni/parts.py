"""A file of rows for `muni figures`, valued in parts by whatever runs commands: Slurm, GNU parallel, or a shell.

    python3 -m muni.parts cut ROWS STORE FOLDER [--bytes=4000000] [--risk] [--program=muni]
    python3 -m muni.parts value FOLDER NUMBER.. [--scratch=FOLDER] [--program=muni] [--patience=SECONDS]
    python3 -m muni.parts join FOLDER RESULT

`cut` makes a folder with the plan, and a store with the issues of STORE alone, and prints how many parts there are.
`value` values parts by their numbers from 0 on, over a copy of that store which is its own. `join` writes the lines of
all parts and one total, which are the bytes that the program writes on the whole file, and prints that total. With
`--risk` they are those of `muni figures --risk`.

The figures of a row hang on the row, its place and its issue alone. So a part may be valued again, here or elsewhere,
also by two at a time: its answer is a file that is renamed into place when it is whole, and is always the same. A part
that has been answered is not valued again. An answer counts if its last line is what its other lines come to.
"""
from __future__ import annotations

import argparse
import json
import os
import pathlib
import re
import socket
import subprocess
import sys
import tempfile
import threading
from collections.abc import Callable, Generator, Iterator, Sequence
from contextlib import closing, contextmanager, suppress
from dataclasses import asdict, dataclass
from decimal import Decimal
from typing import IO

from ._program import Ended, Error, Path, pieces, ran

# How many bytes a part has, and some more up to the end of a line.
SIZE = 4_000_000

_MARK = b"\xef\xbb\xbf"
_TOTAL = re.compile(rb"TOTAL,(\d+),(-?\d+\.\d\d),(\d+)\n")
_PRICED = re.compile(rb",figures,.*,(-?\d+\.\d\d)\n")
_PRICED_WITH_RISK = re.compile(rb",figures,.*,(-?\d+\.\d\d)(?:,[^,\n]*){4}\n")
# More bytes than the last two lines of an answer have.
_LAST = 1_000


class PartFault(Error):
    """A part that has no whole answer, or a folder or a file that is not the one of the plan."""


@dataclass(frozen=True)
class Part:
    """Some rows of a file: their bytes, the place of the first one, and how many they are."""

    start: int
    length: int
    first: int
    rows: int


@dataclass(frozen=True)
class Total:
    """How many rows have figures, the sum of their totals in dollars, and how many rows there are."""

    priced: int = 0
    money: Decimal = Decimal("0.00")
    rows: int = 0

    def __add__(self, other: Total) -> Total:
        return Total(self.priced + other.priced, self.money + other.money, self.rows + other.rows)

    @property
    def refused(self) -> int:
        """How many rows have no figures, which are not in the sum."""
        return self.rows - self.priced

    def __str__(self) -> str:
        return f"TOTAL,{self.priced},{self.money:.2f},{self.rows}"


@dataclass(frozen=True)
class Plan:
    """A file as it was when it was cut, and its parts, perhaps with sensitivities. `changed` is in nanoseconds of the
    system's clock."""

    file: str
    size: int
    changed: int
    parts: tuple[Part, ...]
    risk: bool = False

    def text(self) -> bytes:
        """The plan as a folder keeps it. One without sensitivities is as it was before there were any."""
        return json.dumps({name: each for name, each in asdict(self).items() if name != "risk" or each}).encode()

    def rows(self, number: int) -> bytes:
        """The rows of a part as the program is given them, if the file is still the same."""
        with open(self.file, "rb") as file:
            state = os.fstat(file.fileno())
            if (state.st_size, state.st_mtime_ns) != (self.size, self.changed):
                raise PartFault(f"{self.file} has changed since it was cut")
            return rows_at(file.fileno(), self.parts[number])


def rows_at(file: int, part: Part) -> bytes:
    """The bytes of a part. The program drops a byte order mark in front, and that is right before the first row of the
    file alone: before any other part stands an empty line, which has no place."""
    rows = os.pread(file, part.length, part.start)
    if len(rows) != part.length:
        raise PartFault(f"{len(rows)} bytes at {part.start}, and not {part.length}")
    return rows if part.start == 0 else b"\n" + rows


def cut(file: Path, size: int = SIZE, risk: bool = False) -> Plan:
    """The parts of a file, each of about so many bytes and ending with a line. An empty file has one part.

    >>> with tempfile.NamedTemporaryFile() as rows:
    ...     _ = rows.write(b"a\\n\\nb\\nc"), rows.flush()
    ...     cut(rows.name, 2).parts
    (Part(start=0, length=3, first=1, rows=1), Part(start=3, length=3, first=2, rows=2))
    """
    path = os.path.abspath(os.fspath(file))
    parts: list[Part] = []
    start, first = 0, 1
    with open(path, "rb") as rows:
        state = os.fstat(rows.fileno())
        while (block := rows.read(size) + rows.readline()) or not parts:
            count = _rows_in(block.removeprefix(_MARK) if start == 0 else block)
            parts.append(Part(start, len(block), first, count))
            start, first = start + len(block), first + count
            if not block:
                break
    return Plan(path, state.st_size, state.st_mtime_ns, tuple(parts), risk)


def _rows_in(block: bytes) -> int:
    """How many lines are not empty. A carriage return at the end of a line is none of its bytes."""
    if block[-1:] == b"\n" and block[:1] not in b"\r\n" and b"\n\n" not in block and b"\n\r" not in block:
        return block.count(b"\n")
    return sum(line not in (b"", b"\r") for line in block.split(b"\n"))


def told(answer: bytes, part: Part) -> Total:
    """The total in the last line of an answer, if there is one behind as many lines as the part has rows."""
    return _told(answer[-_LAST:], answer.count(b"\n") - 1, part)


def _told(end: bytes, lines: int, part: Part) -> Total:
    found = _TOTAL.fullmatch(end, max(0, end.rfind(b"TOTAL,")))
    if not found or int(found[3]) != part.rows or lines != part.rows:
        raise PartFault(f"{lines} lines for {part.rows} rows, and at the end {end[-100:].splitlines()[-1:]}")
    return Total(int(found[1]), Decimal(found[2].decode()), part.rows)


def checked(answer: bytes, part: Part, risk: bool = False) -> Total:
    """The same, if the total is also what the lines come to, and the places are those of the part."""
    check = Check(part, risk)
    check.add(answer)
    return check.total()


class Check:
    """Holds an answer against its last line while it comes, some bytes at a time."""

    def __init__(self, part: Part, risk: bool = False) -> None:
        self._part = part
        self._form = _PRICED_WITH_RISK if risk else _PRICED
        self._lines = self._figures = self._priced = self._cents = 0
        self._first = self._last = self._rest = b""

    def add(self, some: bytes) -> None:
        """The next bytes. They may end within a line, which is counted when all of it is there."""
        text = self._rest + some if self._rest else some
        end = text.rfind(b"\n") + 1
        priced = self._form.findall(text, 0, end)
        self._figures += text.count(b",figures,", 0, end)
        self._priced += len(priced)
        self._cents += sum(map(int, b" ".join(priced).replace(b".", b"").split()))
        self._first = self._first or text[:min(end, _LAST)]
        self._last = (self._last + text[max(0, end - _LAST):end])[-_LAST:]
        self._lines += text.count(b"\n", 0, end)
        self._rest = text[end:]

    def total(self) -> Total:
        """The total, if all has come and it is what the lines come to, with the places of the part."""
        total = _told(self._last + self._rest, self._lines - 1, self._part)
        figures = self._figures, self._priced
        if figures != (total.priced, total.priced) or Decimal(self._cents).scaleb(-2) != total.money:
            raise PartFault(f"{self._priced} lines have figures that come to {self._cents} cents, and at the end is "
                            f"{total}")
        if total.rows:
            ends = self._first, self._last[:-1].rsplit(b"\n", 2)[-2]
            places = [int(line.partition(b",")[0]) for line in ends]
            if places != [self._part.first, self._part.first + total.rows - 1]:
                raise PartFault(f"the places are {places}, and not {total.rows} from {self._part.first} on")
        return total


def issues(store: Path, program: Path = "muni") -> bytes:
    """The issues of a store, as rows of an import. No server may have it open."""
    return ran(program, "export", f"--store={os.fspath(store)}", "--issues")


def store_of(rows: bytes, program: Path = "muni") -> bytes:
    """The bytes of a new store of SQLite with these issues alone. They are none if there is no issue."""
    # In memory, if there is a folder of it: each issue is synced.
    memory = "/dev/shm" if os.path.isdir("/dev/shm") else None
    with tempfile.TemporaryDirectory(prefix="muni-issues-", dir=memory) as folder:
        report = ran(program, "load", f"--store={folder}/issues", rows=rows).splitlines()
        wrong = [line for line in report if line.split(b",")[1] not in (b"added", b"amended")]
        if wrong:
            raise Error(f"an issue was not kept: {wrong[0]!r}")
        return pathlib.Path(folder, "issues").read_bytes() if report else b""


class OwnStore:
    """A new copy of such a store, in a folder of its own below `folder`, until it is left or its process ends. A store
    that one program has open is refused to others, so each who runs one needs a copy."""

    def __init__(self, data: bytes, folder: Path | None = None) -> None:
        self._folder = tempfile.TemporaryDirectory(prefix="muni-", dir=folder)
        self.path = os.path.join(self._folder.name, "issues")
        try:
            if data:
                pathlib.Path(self.path).write_bytes(data)
        except OSError:
            self.remove()
            raise

    def remove(self) -> None:
        self._folder.cleanup()

    def __enter__(self) -> OwnStore:
        return self

    def __exit__(self, *_: object) -> None:
        self.remove()


def value(rows: bytes, part: Part, store: str, keep: Callable[[bytes], object], program: Path = "muni",
          patience: float | None = None, risk: bool = False) -> Total:
    """Hands the answer on the rows of a part to `keep`, some bytes at a time, while the program goes on, and gives its
    total. If it is not whole, that is a PartFault at the end. A program that takes longer than `patience` seconds is
    ended."""
    check = Check(part, risk)
    words = ("figures", f"--store={store}", f"--from={part.first}", *(["--risk"] if risk else []))
    with closing(_answer(words, rows, program, patience)) as answer:
        for some in answer:
            check.add(some)
            keep(some)
    return check.total()


def _answer(words: Sequence[str], rows: bytes, program: Path, patience: float | None) -> Generator[bytes, None, None]:
    try:
        yield from pieces(program, *words, rows=rows, patience=patience)
    except (Ended, OSError, subprocess.TimeoutExpired) as error:
        raise PartFault(f"{type(error).__name__}: {error}") from error


class Folder:
    """A folder for one file and one store: the plan, the issues as rows and as a store, and the answers so far. All who
    take part see it."""

    def __init__(self, folder: Path) -> None:
        self.path = pathlib.Path(folder)

    def begin(self, file: Path, store: Path, size: int = SIZE, program: Path = "muni", risk: bool = False) -> Plan:
        """Makes the folder. One that was begun before goes on, and the file, the issues, the size and whether there are
        sensitivities have to be the same."""
        (self.path / "answers").mkdir(parents=True, exist_ok=True)
        rows = issues(store, program)
        for name, data in (("plan", cut(file, size, risk).text()), ("issues.csv", rows)):
            path = self.path / name
            if not path.exists():
                _write(path, data)
            elif path.read_bytes() != data:
                raise PartFault(f"{path} is of another file, store or size, or of other figures: take a new folder")
        if not (self.path / "issues").exists():
            _write(self.path / "issues", store_of(rows, program))
        return self.plan()

    def plan(self) -> Plan:
        found = json.loads((self.path / "plan").read_bytes())
        return Plan(**found | {"parts": tuple(Part(**part) for part in found["parts"])})

    def issues(self) -> bytes:
        """The store with the issues alone, for an OwnStore."""
        return (self.path / "issues").read_bytes()

    def answer(self, number: int) -> pathlib.Path:
        """Where the answer of a part is, if it is there."""
        return self.path / "answers" / f"{number:06d}"

    def value(self, plan: Plan, number: int, store: str, program: Path = "muni",
              patience: float | None = None) -> Total:
        """Sees to the answer of a part, and gives its total. An answer that is not whole is written anew."""
        path = self.answer(number)
        with suppress(FileNotFoundError, PartFault):
            return checked(path.read_bytes(), plan.parts[number], plan.risk)
        with _whole(path) as file:
            return value(plan.rows(number), plan.parts[number], store, file.write, program, patience, plan.risk)

    def join(self, result: Path) -> Total:
        """Writes the lines of all parts and one total to a file. A part without a whole answer is a PartFault."""
        plan, total = self.plan(), Total()
        with _whole(pathlib.Path(result)) as file:
            for number, part in enumerate(plan.parts):
                try:
                    answer = self.answer(number).read_bytes()
                    total += told(answer, part)
                except (FileNotFoundError, PartFault) as error:
                    raise PartFault(f"part {number} of {len(plan.parts)}: {error}") from error
                file.write(memoryview(answer)[:answer.rfind(b"TOTAL,")])
            file.write(f"{total}\n".encode())
        return total


def _write(path: pathlib.Path, data: bytes) -> None:
    with _whole(path) as file:
        file.write(data)


@contextmanager
def _whole(path: pathlib.Path) -> Iterator[IO[bytes]]:
    """A file that gets its name when all of it is written. If that fails, nothing of it stays. It is not synced: what a
    stop of the machine cuts is found by its last line."""
    fresh = path.with_name(f".{path.name}.{socket.gethostname()}.{os.getpid()}.{threading.get_ident()}")
    try:
        with open(fresh, "wb") as file:
            yield file
        os.replace(fresh, path)
    except BaseException:
        fresh.unlink(missing_ok=True)
        raise


def main(words: Sequence[str] | None = None) -> int:
    given = _parser().parse_args(words)
    folder = Folder(given.folder)
    try:
        if given.command == "cut":
            print(len(folder.begin(given.rows, given.store, given.bytes, given.program, given.risk).parts))
        elif given.command == "join":
            print(folder.join(given.result))
        else:
            _value_all(folder, given)
    except (Error, OSError) as error:
        print(f"muni.parts: {error}", file=sys.stderr)
        return 1
    return 0


def _value_all(folder: Folder, given: argparse.Namespace) -> None:
    plan = folder.plan()
    with OwnStore(folder.issues(), given.scratch) as store:
        for number in given.number:
            # The last job of an array may have fewer parts than the others.
            if number < len(plan.parts):
                folder.value(plan, number, store.path, given.program, given.patience)


def _parser() -> argparse.ArgumentParser:
    parser = argparse.ArgumentParser("muni.parts", description="Values a file of rows in parts.")
    commands = parser.add_subparsers(dest="command", required=True)
    cutting = commands.add_parser("cut", help="begin a folder, and print how many parts there are")
    cutting.add_argument("rows")
    cutting.add_argument("store")
    cutting.add_argument("folder")
    cutting.add_argument("--bytes", type=int, default=SIZE, help="of a part, about")
    cutting.add_argument("--risk", action="store_true", help="with the sensitivities of each row")
    valuing = commands.add_parser("value", help="value parts")
    valuing.add_argument("folder")
    valuing.add_argument("number", type=int, nargs="+", help="of a part, from 0 on")
    valuing.add_argument("--scratch", help="a folder of this machine for a copy of the store")
    valuing.add_argument("--patience", type=float, help="seconds for a part, after which the program is ended")
    joining = commands.add_parser("join", help="write the lines of all parts")
    joining.add_argument("folder")
    joining.add_argument("result")
    for command in (cutting, valuing):
        command.add_argument("--program", default="muni", help="the program, on the path or by its own")
    return parser


if __name__ == "__main__":
    sys.exit(main())
