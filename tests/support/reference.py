"""The exact calculator of conformance/calculator, with which answers at random are compared."""
from __future__ import annotations

from calculator import commands, exchange
from calculator.book import Book
from calculator.figures import Answers, Figures, Refusal


class Reference:
    """What a store has by the calculator, and what it answers.

    A figure may be in doubt: the rule lets the program leave it undecided. `is_sure` is false from then on, and what
    the calculator answers is only the likely one of several.
    """

    def __init__(self) -> None:
        self.book = Book()
        self.is_sure = True

    def choose(self, answers: Answers) -> Figures | Refusal:
        self.is_sure = self.is_sure and len(answers.allowed) == 1
        return answers.allowed[0]

    def ran(self, command: str, *words: str, rows: bytes = b"") -> tuple[int, bytes]:
        """The status of a command over the store, and what it writes."""
        said = commands.run([command, "--store=S", *words], {"S": self.book}, rows, self.choose)
        return int(said.status), said.output

    def imported(self, text: bytes) -> tuple[int, bytes]:
        """The status and the report of an import."""
        return self.ran("import", rows=text)

    def answered(self, data: bytes) -> list[bytes]:
        """The answers that the bytes of a connection may have. A command among them is applied."""
        return exchange.answers(self.book, data, self.choose)
