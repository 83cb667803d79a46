"""The lines of figures, confirmations, refusals, lists and positions (docs/FORMATS.md)."""
from __future__ import annotations

from collections.abc import Iterable, Iterator

from calculator.book import Act, Confirmed, Position, Version
from calculator.days import DayBasis
from calculator.figures import Asked, Each, Figures, Given, Refusal, Side, boundary_text
from calculator.numerals import shown, shown_dv01, shown_figure, shown_money, shown_price
from calculator.printed import Ending
from calculator.sensitivities import Risk


def text_of(lines: Iterable[str]) -> str:
    return "".join(line + "\n" for line in lines)


def figure_lines(asked: Asked, figures: Figures) -> list[str]:
    source = {given: "GIVEN" if asked.given == given else "COMPUTED" for given in Given}
    lines = [f"PRICE {shown_figure(figures.price)} {source[Given.PRICE]}",
             f"YIELD {shown_figure(figures.yield_)} {source[Given.YIELD]}"]
    if asked.given == Given.RATE:
        lines.append(f"RATE {shown(asked.value, 4)} GIVEN")
    lines += [f"REDEMPTION {figures.redemption} {shown_price(figures.redemption_price)} {figures.label}",
              f"ACCRUED DAYS {figures.accrued_days}",
              f"PRINCIPAL {shown_money(figures.principal)}",
              f"ACCRUED {shown_money(figures.accrued)}"]
    if asked.fee:
        lines.append(f"COMMISSION {shown_money(figures.commission)}")
    return lines + [f"TOTAL {shown_money(figures.total)}"]


def each_lines(asked: Asked, each: list[Each]) -> Iterator[str]:
    """A line for each redemption, with its figure or what it has in its place."""
    for redemption, (ending, figure) in each:
        came = ending.name.replace("_", " ")
        if ending is Ending.PRINTED:
            came = f"{'PRICE' if asked.given == Given.YIELD else 'YIELD'} {shown_figure(figure)}"
        elif ending is Ending.UNDECIDED:
            came += f" {boundary_text(asked, figure)}"
        yield f"EACH {redemption.day} {shown_price(redemption.price)} {redemption.label} {came}"


def risk_lines(risk: Risk | None) -> Iterator[str]:
    """The lines of the sensitivities, if there are any."""
    if risk is None:
        return
    if risk.current_yield is not None:
        yield f"CURRENT YIELD {shown_figure(risk.current_yield)}"
    yield f"DURATION {shown_figure(risk.duration)}"
    yield f"CONVEXITY {shown_figure(risk.convexity)}"
    yield f"DV01 {shown_dv01(risk.dv01)}"


def confirmation(confirmed: Confirmed) -> list[str]:
    issue, asked = confirmed.issue, confirmed.version.asked
    lines = [f"{confirmed.version.act} {confirmed.number}",
             f"DESK {confirmed.desk}",
             f"REFERENCE {confirmed.reference}",
             f"{'BOUGHT' if asked.side == Side.BUY else 'SOLD'} {asked.par}",
             f"CUSIP {issue.cusip}",
             f"ISSUE {issue.name}",
             f"COUPON {shown(issue.coupon, 7)}",
             f"DATED {issue.dated}",
             f"MATURITY {issue.maturity}"]
    if issue.basis == DayBasis.ACTUAL_365:
        lines.append("BASIS ACTUAL/365")
    return lines + [f"SETTLEMENT {asked.settlement}"] + figure_lines(asked, confirmed.version.figures)


def refusal_line(refusal: Refusal) -> str:
    return f"REFUSED {refusal.number.value} {refusal.number.title} {refusal.rest}".rstrip()


def list_line(reference: str, number: int, version: Version) -> str:
    state = "CANCELED" if version.act == Act.CANCELED else "LIVE"
    figures = version.figures
    return (f"{reference} {number} {state} {version.asked.par} {shown_figure(figures.price)}"
            f" {shown_figure(figures.yield_)}")


def position_line(cusip: str, position: Position) -> str:
    net = position.bought - position.sold
    return (f"{cusip} {position.trades} {position.bought} {position.sold} {net}"
            f" {shown_money(position.money)}")
