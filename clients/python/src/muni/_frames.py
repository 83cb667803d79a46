"""Frames of pandas: each row is a question to the program, and its answer stands in columns behind those of the row.

pandas is imported when a frame is asked about, so the rest of the client does without it.
"""
from __future__ import annotations

import importlib
import os
import warnings
from collections.abc import Callable, Iterable, Iterator
from contextlib import contextmanager
from dataclasses import dataclass, replace
from datetime import date
from decimal import Decimal
from enum import Enum
from typing import Any

from ._program import Error, Path, lines

# A pandas.DataFrame. A caller without pandas has none.
Frame = Any


# How many texts of a column are kept with what they read as.
_MOST_KEPT = 100_000
# How many digits a float keeps, and how many decimals a field has at most.
_MOST_DIGITS, _MOST_DECIMALS = 15, 6


@dataclass(frozen=True)
class Question:
    """A command that takes a row for each question and writes a line for each: the columns that a frame has to have,
    those that it may have, and the columns of the answer, each with what reads a text of it, and those among them in
    which few texts come again and again."""

    command: str
    wanted: tuple[str, ...]
    more: tuple[str, ...]
    told: dict[str, Callable[[str], Any]]
    few: frozenset[str]
    words: tuple[str, ...] = ()


def _number(text: str) -> Decimal | None:
    """A number, or None if there is none."""
    return Decimal(text) if text else None


def _float(text: str) -> float:
    """The same as a float, which is not a number if there is none."""
    return float(text or "nan")


FIGURES = Question("figures", ("cusip", "par", "settle", "basis", "value"), ("fee", "side"), {
    "price": Decimal, "yield": Decimal, "redemption": date.fromisoformat, "redemption_price": Decimal,
    "redemption_label": str, "days": int, "principal": Decimal, "accrued": Decimal, "commission": Decimal,
    "total": Decimal}, frozenset(["yield", "redemption", "redemption_price", "redemption_label", "days", "commission"]))
RISK = replace(FIGURES, words=("--risk",), told=FIGURES.told | dict.fromkeys(
    ("current_yield", "duration", "convexity", "dv01"), _number))
# What reads a number as a float.
_FLOATS: dict[Any, Callable[[str], float]] = {Decimal: float, _number: _float}


def question(risk: bool, floats: bool) -> Question:
    """What is asked of the program, and whether its amounts are read as floats."""
    found = RISK if risk else FIGURES
    if floats:
        found = replace(found, told={name: _FLOATS.get(read, read) for name, read in found.told.items()})
    return found


def figures(frame: Frame, store: Path, *, workers: int = 1, program: Path = "muni", progress: bool = False,
            risk: bool = False, floats: bool = False) -> Frame:
    """A frame with the figures of each of its rows, which `muni figures` computes with the issues of a store.

    The columns `cusip`, `par`, `settle`, `basis` and `value` have to be there, in any order, and `fee` and `side` may:
    the forms and ranges are those of a Trade. `fee` is in dollars per 100 of par. A field is a Decimal, an int, a text,
    a day, a Basis or Side, or a float, which is taken as it was typed: by its `repr`. One of more than six decimals or
    15 digits is a ValueError. A missing value is an empty field: no fee, the side `buy`, and in another column a row
    that does not read.

    The frame that is returned has the same index, rows and columns, and behind them `price` and `yield`, `redemption`
    (a day), `redemption_price`, `redemption_label`, `days`, `principal`, `accrued`, `commission` and `total`. Amounts
    are Decimals, and money is in dollars. The last column, `refusal`, is None, or the name of the refusal as
    `UnknownIssue`, or `bad` and the first column that does not read, as `bad par`. Then there are no figures. If there
    are such rows, a UserWarning says how many. `attrs["total"]` has the last line of the program: how many rows are
    `priced`, the `money` that their totals come to, as a text, how many `rows` there are, and how many are `refused`.

    With `risk` there are `current_yield`, `duration`, `convexity` and `dv01` behind `total`, None where the program
    has none. With `floats` the amounts are columns of float64, to plot and to correlate; add up Decimals.

    `workers` is 1 to 16. `progress` shows a bar if tqdm is installed. A frame that has one of the new columns already,
    or a text with a comma or the end of a line, is a ValueError. If the program does not end with status 0, the
    exception is Ended; the store must not be open elsewhere.
    """
    with _bar(progress, len(frame)) as advance:
        found = _asked(question(risk, floats), frame, store, workers, program, advance)
    warn_of_refused(found)
    return found


def figures_by_part(frames: Iterable[Frame], store: Path, *, workers: int = 1, program: Path = "muni",
                    progress: bool = False, risk: bool = False, floats: bool = False) -> Iterator[Frame]:
    """The same for frames that come one after the other, as pandas.read_csv with `chunksize` gives them: each with its
    figures as soon as it has them. So no more than one of them is in memory. The program is started for each."""
    with _bar(progress, None) as advance:
        for frame in frames:
            found = _asked(question(risk, floats), frame, store, workers, program, advance)
            warn_of_refused(found)
            yield found


def warn_of_refused(found: Frame) -> None:
    """Says how many rows have no figures. pandas leaves them out of a sum without a word."""
    total = found.attrs["total"]
    if total["refused"]:
        warnings.warn(f"{total['refused']} of {total['rows']} rows have no figures: the column refusal says why",
                      stacklevel=3)


def _asked(question: Question, frame: Frame, store: Path, workers: int, program: Path,
           advance: Callable[[int], None]) -> Frame:
    answer = Answer(question)
    words = (question.command, f"--store={os.fspath(store)}", f"--workers={workers}", *question.words)
    for some in lines(program, *words, rows=rows_of(question, frame)):
        advance(answer.add(some))
    return answer.beside(frame)


def rows_of(question: Question, frame: Frame) -> bytes:
    """The rows of a frame as the program reads them."""
    lacking = [name for name in question.wanted if name not in frame.columns]
    if lacking:
        raise ValueError(f"columns: {', '.join(lacking)} missing")
    taken = [name for name in (*question.told, "refusal") if name in frame.columns]
    if taken:
        raise ValueError(f"columns: {', '.join(taken)} would be written over; rename or drop them")
    given = [place for place, name in enumerate(question.more, 1) if name in frame.columns]
    more = question.more[:max(given, default=0)]
    columns = [texts_of(name, frame[name]) if name in frame.columns else [""] * len(frame)
               for name in question.wanted + more]
    text = "\n".join([*map(",".join, zip(*columns)), ""])
    if (text.count(","), text.count("\n"), text.count("\r")) != ((len(columns) - 1) * len(frame), len(frame), 0):
        raise ValueError(_parting(question.wanted + more, columns))
    # A letter that is not ASCII stands in no field that reads, and neither does what is put for it.
    return text.encode("ascii", "replace")


def texts_of(name: str, column: Any) -> list[str]:
    """The fields of a column, a missing value as an empty one."""
    there, objects = column.notna(), column.astype(object)
    values: list[Any] = (objects if there.all() else objects.where(there, None)).tolist()
    kinds = set(map(type, values))
    for kind in kinds:
        if issubclass(kind, bool) or not issubclass(kind, (str, int, float, Decimal, date, Enum, type(None))):
            raise TypeError(f"{name}: a Decimal, an int, a float, a text or a day, not a {kind.__name__}")
    if kinds <= {str}:
        return values
    if any(issubclass(kind, float) for kind in kinds):
        values = [_typed(name, each) if isinstance(each, float) else each for each in values]
        kinds.add(Decimal)
    if Decimal in kinds:
        return list(map(text_of, values))
    # Few days stand in many rows.
    texts = {value: text_of(value) for value in set(values)}
    return [texts[value] for value in values]


def _typed(name: str, value: float) -> Decimal:
    """The number that was typed, if a float tells it: it keeps 15 digits, and a field has six decimals at most."""
    number = Decimal(repr(float(value)))
    decimals = -min(0, int(number.as_tuple().exponent)) if number.is_finite() else _MOST_DIGITS
    if decimals > _MOST_DECIMALS or number.adjusted() + decimals >= _MOST_DIGITS:
        raise ValueError(f"{name}: {float(value)!r} may not be what was typed: round the column to the decimals that "
                         "were, as by .astype(float).round(3), or give Decimals or texts")
    return number


def text_of(value: Any) -> str:
    """A field, in one form for equal values."""
    if isinstance(value, Decimal):
        text = str(value)
        text = format(value, "f") if "E" in text else text
        return text.rstrip("0").rstrip(".") if "." in text else text
    if isinstance(value, date):
        return value.strftime("%Y-%m-%d")
    if isinstance(value, Enum):
        return str(value.value)
    return "" if value is None else str(value)


def _parting(names: tuple[str, ...], columns: list[list[str]]) -> str:
    """What is wrong with a field that is more than one."""
    name, text = next((name, text) for name, column in zip(names, columns) for text in column
                      if any(each in text for each in ",\n\r"))
    return f"{name}: a field has no comma and no end of a line, and not {text!r}"


class Answer:
    """The lines that the program has written so far, as columns."""

    def __init__(self, question: Question) -> None:
        self.question = question
        self.rows = 0
        self.last = ""
        self._priced = self._cents = 0
        self._numpy = importlib.import_module("numpy")
        self._readers = [_Kept(read).__getitem__ if name in question.few else read
                         for name, read in question.told.items()]
        self._types = [float if read in _FLOATS.values() else object for read in question.told.values()]
        self._total = list(question.told).index("total")
        # Pieces of each column. An array, unlike a list, is not walked whenever Python looks for what to free.
        self._pieces: list[list[Any]] = [[self._array([], 0, kind)] for kind in (*self._types, object)]

    def add(self, some: bytes) -> int:
        """Adds the next lines, each with its end, and gives how many rows they answer. The last line of all is the
        total."""
        last = some.rfind(b"\n", 0, -1) + 1
        if some.startswith(b"TOTAL,", last):
            self.last, some = some[last:].decode("ascii").rstrip("\n"), some[:last]
        count = some.count(b"\n")
        if some.count(b",figures,") == count and some[-1:] in b"\n":
            columns, refusals = self._figures(some, count), self._numpy.full(count, None, dtype=object)
        else:
            lines = some.splitlines(keepends=True)
            count = len(lines)
            columns, refusals = self._sorted(lines)
        for pieces, piece in zip(self._pieces, (*columns, refusals)):
            pieces.append(piece)
        self.rows += count
        return count

    def _sorted(self, lines: list[bytes]) -> tuple[list[Any], Any]:
        """The columns of lines of which some have figures, and their refusals."""
        has_figures = [b",figures," in line for line in lines]
        where = self._numpy.array(has_figures, dtype=bool)
        refusals = self._array((None if good else self._refusal(line.decode("ascii"))
                                for good, line in zip(has_figures, lines)), len(lines))
        columns = []
        for found in self._figures(b"".join(line for line in lines if b",figures," in line), sum(has_figures)):
            columns.append(self._numpy.full(len(lines), None, dtype=found.dtype))
            columns[-1][where] = found
        return columns, refusals

    def _figures(self, lines: bytes, count: int) -> list[Any]:
        """The columns of so many lines, which have figures."""
        # Three fields stand before the figures: the place, the word and the CUSIP.
        width = len(self._readers) + 3
        fields = lines.decode("ascii").replace("\n", ",").split(",")
        if len(fields) != width * count + 1:
            raise Error(f"a line is cut: {lines.splitlines()[-1]!r}")
        texts = [fields[place::width] for place in range(3, width)]
        self._priced += count
        # A sum of floats would not be exact.
        self._cents += sum(map(int, " ".join(texts[self._total]).replace(".", "").split()))
        return [self._array(map(reader, some), count, kind)
                for reader, some, kind in zip(self._readers, texts, self._types)]

    def _array(self, values: Iterable[Any], count: int, kind: type = object) -> Any:
        """So many values as they are. numpy.array would ask each whether it is an array itself."""
        return self._numpy.fromiter(values, dtype=kind, count=count)

    def _refusal(self, line: str) -> str:
        """The name of a refusal, or which column does not read."""
        fields = line.rstrip("\n").split(",")
        if fields[1] == "refused":
            return fields[3]
        names = self.question.wanted + self.question.more
        return "bad row" if fields[2] == "1" else f"bad {names[int(fields[3]) - 1]}"

    def beside(self, frame: Frame) -> Frame:
        """The frame with the columns behind its own, if the total is that of the lines."""
        pandas = importlib.import_module("pandas")
        *columns, refusals = map(self._numpy.concatenate, self._pieces)
        money = f"{Decimal(self._cents).scaleb(-2):.2f}"
        said = f"TOTAL,{self._priced},{money},{self.rows}"
        if self.last != said or self.rows != len(frame):
            raise Error(f"{self.rows} lines for {len(frame)} rows, and {self.last!r} at their end, not {said!r}")
        new = {name: pandas.Series(column, index=frame.index, dtype="Int64" if name == "days" else column.dtype)
               for name, column in zip((*self.question.told, "refusal"), (*columns, refusals))}
        found = frame.assign(**new)
        # Plain values, which a frame keeps where it is written to a file that takes attrs.
        found.attrs["total"] = {"priced": self._priced, "money": money, "rows": self.rows,
                                "refused": self.rows - self._priced}
        return found


class _Kept(dict[str, Any]):
    """What the texts of a column read as, each read once. If they are many, the later ones are read each time."""

    def __init__(self, read: Callable[[str], Any]) -> None:
        super().__init__()
        self._read = read

    def __missing__(self, text: str) -> Any:
        found = self._read(text)
        if len(self) < _MOST_KEPT:
            self[text] = found
        return found


@contextmanager
def _bar(is_wanted: bool, rows: int | None) -> Iterator[Callable[[int], None]]:
    """Takes how many more rows have been answered, and shows it if that is wanted and tqdm is installed."""
    try:
        tqdm = importlib.import_module("tqdm") if is_wanted else None
    except ModuleNotFoundError:
        tqdm = None
    if tqdm is None:
        yield lambda _: None
        return
    with tqdm.tqdm(total=rows, unit=" rows", unit_scale=True) as shown:
        yield shown.update
