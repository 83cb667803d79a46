"""The exact calculator: the worked figures of the documents, terms, texts, and a book of rows and requests."""
import json
import re
import subprocess
import sys
import textwrap
from datetime import date
from fractions import Fraction

import pytest
from calculator import commands, exchange, json_text, rows
from calculator.book import Book
from calculator.days import DayBasis, days_between
from calculator.figures import Asked, Given, Refusal, Refused, Side, answers
from calculator.numerals import Unreadable
from calculator.printed import Ending, Outcome, price_of
from calculator.redemptions import interest_on, redemptions
from calculator.sensitivities import convexity, duration, dv01
from calculator.terms import BadTerms, Call, Fault, Issue, Kind, Mark, check_digit, fault_of, is_cusip
from calculator.texts import text_of
from hypothesis import given
from hypothesis import strategies as st

from support.pages import Step, steps
from support.program import ROOT
from support.tables import TABLES, bytes_of, cases

PAGES = [ROOT / "examples" / "worked.md", ROOT / "examples" / "quotes.md"]
ASKED = re.compile(r"\./muni (quote|quote-one) [^\n]*")
STEPS = [(page.name, step) for page in PAGES for step in steps(page.read_text()) if ASKED.fullmatch(step.command)]
# Drills of many trades take the calculator minutes.
LINES = [(table.name, case) for table in sorted((TABLES / "words").iterdir()) if table.name != "drill"
         for case in cases(f"words/{table.name}")]
EXAMPLES = ROOT / "examples"
BOOK = (EXAMPLES / "book.csv").read_bytes()
EXCHANGES = [line.split() for line in (EXAMPLES / "http" / "requests").read_text().splitlines()]


@pytest.mark.parametrize(("page", "step"), STEPS, ids=[f"{page}-{place}" for place, (page, _) in enumerate(STEPS)])
def test_a_worked_figure_is_the_calculators(page: str, step: Step):
    said = commands.run(step.command.split()[1:])
    assert step.is_right(said.status, said.output.decode()), (step, said)


def test_the_documents_have_worked_figures():
    assert len(STEPS) >= 45


@pytest.mark.parametrize("table", sorted({table for table, _ in LINES}))
def test_a_table_of_command_lines_is_answered(table):
    for case in (case for name, case in LINES if name == table):
        line, status, shown = case.parts
        words = bytes_of(f"{case.base} {line}" if case.base else line).decode("latin-1").split(" ")
        assert commands.run(words) == (int(status), bytes_of(shown)), f"{table}, line {case.line}"


@pytest.mark.parametrize("table", ["amendments", "exports", "figures", "terms"])
def test_a_table_of_commands_over_a_store_is_answered(table):
    for case in cases(table):
        words, sent, status, shown = case.parts
        books: dict[str, Book] = {}
        commands.run(["import", "--store=S"], books, bytes_of(case.base))
        said = commands.run(words.split(" "), books, bytes_of(sent))
        assert said == (int(status), bytes_of(shown)), f"{table}, line {case.line}"


# Days, terms and payments, as docs/RULES.md works them out.

@pytest.mark.parametrize(("basis", "start", "end", "days"), [
    (DayBasis.THIRTY_360, "2023-02-28", "2023-03-31", 33),
    (DayBasis.THIRTY_360, "2023-01-31", "2023-02-28", 28),
    (DayBasis.THIRTY_360, "2023-01-30", "2023-03-31", 60),
    (DayBasis.ACTUAL_365, "2024-01-01", "2024-03-01", 60),
    (DayBasis.ACTUAL_365, "2023-01-01", "2023-03-01", 59),
    (DayBasis.ACTUAL_365, "2024-01-01", "2025-12-21", 720),
])
def test_days_are_counted_by_the_basis(basis, start, end, days):
    assert days_between(basis, date.fromisoformat(start), date.fromisoformat(end)) == days


def test_the_check_digit_fills_the_sum_to_a_multiple_of_ten():
    assert (check_digit("123456AA"), is_cusip("123456AA3"), is_cusip("123456AA4")) == ("3", True, False)


def test_a_long_first_coupon_is_paid_as_worked_out():
    issue = Issue("990034AA8", "ODD", Kind.PERIODIC, date(2024, 1, 15), date(2026, 10, 1), 60_000_000,
                  date(2024, 10, 1))
    paid = redemptions(issue, date(2024, 2, 1))[0].paid
    dollars = [Fraction(payment, paid.unit) for payment in paid.payments]
    assert dollars == [0, Fraction(6 * 256, 360), 3, 3, 3, 103]
    assert (paid.elapsed, Fraction(paid.accrued, paid.unit)) == (120, Fraction(6 * 16, 360))


def test_a_note_of_actual_365_has_the_worked_price():
    note = Issue("990034AA8", "NOTE", Kind.AT_REDEMPTION, date(2024, 1, 1), date(2024, 12, 31), 40_000_000,
                 basis=DayBasis.ACTUAL_365)
    price = redemptions(note, date(2024, 7, 1))[0].paid.price(30_000)
    assert price == Fraction(104) / (1 + Fraction(183, 365) * Fraction(3, 100)) - Fraction(182, 365) * 4


def test_a_tie_is_refused_and_its_exact_answer_is_known():
    zero = Issue("990034AA8", "ZERO", Kind.ZERO, date(2020, 1, 1), date(2026, 7, 1))
    assert redemptions(zero, date(2024, 1, 1))[0].paid.price(500_000) == Fraction(32_768, 1000)
    found = answers(zero, Asked(zero.cusip, 100, date(2024, 1, 1), Given.YIELD, 500_000))
    assert found.allowed == (Refusal(Refused.UNDECIDED, "2026-07-01 price 32.768"),)
    assert found.exact.price == 32_768


def test_a_tie_that_a_lower_price_makes_immaterial_is_passed_over():
    bond = Issue("990034AA8", "BOND", Kind.PERIODIC, date(2020, 1, 1), date(2034, 1, 1), 100_000_000, date(2020, 7, 1),
                 (Call(date(2026, 7, 1), 130_525_500),))
    call, maturity = (redemption.paid for redemption in redemptions(bond, date(2024, 1, 1)))
    assert call.price(200_000) == 100
    assert price_of(call, 200_000).allowed == (Outcome(Ending.UNDECIDED, 99_999),)
    found = answers(bond, Asked(bond.cusip, 100, date(2024, 1, 1), Given.YIELD, 200_000))
    assert [each.price for each in found.allowed] == [57_432]


@pytest.mark.parametrize(("side", "price", "principal", "total"), [
    (Side.BUY, 100_625_000, 25_156_25, 25_493_75),
    (Side.SELL, 100_825_000, 25_206_25, 25_493_75),
])
def test_a_commission_counts_for_the_yield_of_the_party_confirmed(side, price, principal, total):
    bond = Issue("990034AA8", "BOND", Kind.PERIODIC, date(2020, 1, 1), date(2025, 1, 1), 50_000_000, date(2020, 7, 1))
    found = answers(bond, Asked(bond.cusip, 25_000, date(2024, 4, 1), Given.PRICE, price, side, 100)).exact
    assert (found.yield_, found.principal, found.accrued, found.commission, found.total) == (
        4_001, principal, 312_50, 25_00, total)


# Terms: one that fails each test, and passes those before it.

BOND = Issue("123456AA3", "BOND", Kind.PERIODIC, date(2020, 1, 1), date(2025, 1, 1), 50_000_000, date(2020, 7, 1))
NOTE = Issue("123456AA3", "NOTE", Kind.AT_REDEMPTION, date(2024, 1, 1), date(2025, 1, 1), 40_000_000)


def changed(issue: Issue, **changes: object) -> Issue:
    return Issue(**{**issue.__dict__, **changes})


@pytest.mark.parametrize(("issue", "fault", "call"), [
    (changed(BOND, cusip="12345678X"), Fault.BAD_CUSIP, None),
    (changed(BOND, name=""), Fault.BAD_NAME, None),
    (changed(BOND, name="A\x7f"), Fault.BAD_NAME, None),
    (changed(BOND, dated=date(1901, 12, 31), first=date(1902, 6, 30)), Fault.BAD_ORDER, None),
    (changed(BOND, first=BOND.dated), Fault.BAD_ORDER, None),
    (changed(BOND, first=date(2020, 7, 29), maturity=date(2025, 1, 29)), Fault.BAD_DAY, None),
    (changed(BOND, maturity=date(2025, 2, 1)), Fault.BAD_DAY, None),
    (changed(BOND, coupon=0), Fault.BAD_COUPON, None),
    (changed(BOND, basis=DayBasis.ACTUAL_365), Fault.BAD_BASIS, None),
    (changed(BOND, dated=date(2019, 6, 30)), Fault.FIRST_TOO_LONG, None),
    (changed(BOND, maturity=date(2070, 7, 1)), Fault.TOO_LONG, None),
    (changed(NOTE, maturity=date(2026, 1, 2)), Fault.TOO_LONG, None),
    (changed(NOTE, calls=(Call(date(2024, 7, 1), 100_000_000),)), Fault.CALL_OFF_CALENDAR, date(2024, 7, 1)),
    (changed(BOND, calls=(Call(date(2020, 1, 1), 100_000_000),)), Fault.CALL_OFF_CALENDAR, date(2020, 1, 1)),
    (changed(BOND, calls=(Call(date(2024, 1, 1), 100_000_000),) * 2), Fault.CALLS_NOT_RISING, date(2024, 1, 1)),
    (changed(BOND, calls=(Call(date(2024, 1, 1), 999_999),)), Fault.BAD_CALL_PRICE, date(2024, 1, 1)),
    (changed(BOND, calls=(Call(date(2023, 1, 1), 100_000_000, Mark.CALLED), Call(date(2024, 1, 1), 100_000_000))),
     Fault.CALLED_NOT_LAST, date(2023, 1, 1)),
    (changed(BOND, calls=(Call(date(2022, 1, 1), 100_000_000), Call(date(2023, 1, 1), 100_000_000, Mark.CALLED),
                          Call(date(2024, 1, 1), 100_000_000, Mark.CALLED), Call(date(2024, 7, 1), 100_000_000))),
     Fault.CALLED_NOT_LAST, date(2023, 1, 1)),
    (changed(BOND, calls=(Call(date(2023, 1, 1), 100_000_000, Mark.CALLED), Call(date(2024, 1, 1), 999_999))),
     Fault.BAD_CALL_PRICE, date(2024, 1, 1)),
])
def test_terms_that_fail_a_test_have_its_fault(issue, fault, call):
    assert fault_of(issue) == BadTerms(fault, call)


@pytest.mark.parametrize("issue", [BOND, NOTE, changed(BOND, maturity=date(2070, 1, 1)),
                                   changed(NOTE, maturity=date(2026, 1, 1)),
                                   changed(BOND, calls=(Call(date(2023, 1, 1), 100_000_000, Mark.ON_OR_AFTER),
                                                        Call(date(2024, 1, 1), 200_000_000, Mark.CALLED)))])
def test_terms_at_the_ends_of_what_is_taken_are_good(issue):
    assert fault_of(issue) is None


def test_interest_before_the_first_date_and_of_a_zero_is_none():
    zero = Issue("990034AA8", "ZERO", Kind.ZERO, date(2020, 1, 1), date(2026, 7, 1))
    assert interest_on(zero, date(2024, 1, 1)) == 0
    assert interest_on(changed(BOND, dated=date(2019, 12, 1)), date(2020, 1, 1)) == 0


def days_of(calls: tuple[Call, ...], settlement: date) -> list[tuple[str, int, str]]:
    found = redemptions(changed(BOND, calls=calls), settlement)
    return [(str(each.day), each.price // 1_000_000, str(each.label)) for each in found]


def test_a_mark_stands_for_the_interest_dates_up_to_the_next_call_or_maturity():
    calls = (Call(date(2022, 7, 1), 102_000_000, Mark.ON_OR_AFTER), Call(date(2023, 7, 1), 101_000_000),
             Call(date(2024, 1, 1), 100_000_000, Mark.ON_OR_AFTER))
    assert days_of(calls, date(2022, 7, 1)) == [
        ("2023-01-01", 102, "CALL"), ("2023-07-01", 101, "CALL"), ("2024-01-01", 100, "PAR OPTION"),
        ("2024-07-01", 100, "PAR OPTION"), ("2025-01-01", 100, "MATURITY")]


def test_an_issue_that_has_been_called_is_not_redeemed_at_maturity():
    called = (Call(date(2023, 1, 1), 100_000_000), Call(date(2024, 1, 1), 100_000_000, Mark.CALLED))
    assert days_of(called, date(2022, 12, 31)) == [("2023-01-01", 100, "PAR OPTION"), ("2024-01-01", 100, "CALLED")]
    issue = changed(BOND, calls=called)
    assert [issue.settles(date(2023, 12, 31)), issue.settles(date(2024, 1, 1))] == [True, False]


QUOTED = ("quote --kind=periodic --dated=2022-01-01 --first=2022-07-01 --maturity=2044-01-01 --coupon=4"
          " --call=2034-01-01:100 --settle=2024-01-01")


@pytest.mark.parametrize(("given", "lines"), [
    ("--price=108.584", ["PAR OPTION YIELD 3.000", "MATURITY YIELD 3.405"]),
    ("--yield=3", ["PAR OPTION PRICE 108.584", "MATURITY PRICE 114.957"]),
])
def test_each_redemption_is_told_by_itself(given, lines):
    plain = commands.run(f"{QUOTED} {given}".split())
    days = ["2034-01-01 100.000000", "2044-01-01 100.000000"]
    more = "".join(f"EACH {day} {line}\n" for day, line in zip(days, lines))
    assert commands.run(f"{QUOTED} {given} --each".split()) == (0, plain.output + more.encode())


def test_a_redemption_that_is_undecided_and_does_not_matter_is_told_with_its_boundary():
    words = ("quote --kind=periodic --dated=2020-01-01 --first=2020-07-01 --maturity=2034-01-01 --coupon=10"
             " --settle=2024-01-01 --call=2026-07-01:130.5255 --yield=20 --each")
    assert commands.run(words.split()).output.decode().splitlines()[-2:] == [
        "EACH 2026-07-01 130.525500 CALL UNDECIDED price 100.000", "EACH 2034-01-01 100.000000 MATURITY PRICE 57.432"]


@pytest.mark.parametrize("word", ["--each=", "--each=1", "--each --each", "--eac"])
def test_a_word_that_is_like_each_is_none(word):
    assert commands.run(f"{QUOTED} --yield=3 {word}".split()) == (2, b"")


# Sensitivities.

@pytest.mark.parametrize(("words", "lines"), [
    ("--kind=periodic --dated=2020-01-01 --first=2020-07-01 --maturity=2025-01-01 --coupon=5 --settle=2024-04-01"
     " --yield=4", ["CURRENT YIELD 4.964", "DURATION 0.723", "CONVEXITY 0.884", "DV01 0.007377"]),
    ("--kind=periodic --dated=2022-01-01 --first=2022-07-01 --maturity=2044-01-01 --coupon=4"
     " --call=2034-01-01:100 --settle=2024-01-01 --price=108.584",
     ["CURRENT YIELD 3.684", "DURATION 8.295", "CONVEXITY 80.680", "DV01 0.090074"]),
    ("--kind=discount --dated=2024-01-01 --maturity=2024-07-01 --settle=2024-04-01 --rate=3", []),
])
def test_sensitivities_are_the_worked_ones(words, lines):
    plain = commands.run(["quote", *words.split()])
    assert commands.run(["quote", "--risk", *words.split()]).output == plain.output + text_of(lines).encode()


def test_exact_sensitivities_are_the_worked_fractions():
    bond = Issue("990034AA8", "BOND", Kind.PERIODIC, date(2020, 1, 1), date(2025, 1, 1), 50_000_000, date(2020, 7, 1))
    paid = redemptions(bond, date(2024, 4, 1))[0].paid
    assert (duration(paid, 40_000), convexity(paid, 40_000)) == (Fraction(51675, 71434), Fraction(6438125, 7286268))
    assert dv01(paid, 40_000).allowed == (7_377,)


@pytest.mark.parametrize("word", ["--risk=", "--risk=1", "--risk --risk", "--ris", "risk"])
def test_a_word_that_is_like_risk_is_none(word):
    assert commands.run(f"{QUOTED} --yield=3 {word}".split()) == (2, b"")


def test_lines_that_are_valued_have_columns_of_sensitivities():
    books: dict[str, Book] = {}
    commands.run(["import", "--store=S"], books, ROWS)
    told = commands.run("figures --store=S --risk --header".split(), books,
                        b"123456AA3,25000,2024-04-01,yield,4\nX,1,2024-04-01,yield,4\n")
    head, line, bad, total = told.output.decode().splitlines()
    assert head.endswith(",total,current_yield,duration,convexity,dv01")
    assert line.endswith(",25493.75,4.964,0.723,0.884,0.007377")
    assert (bad, total) == ("2,bad,2,1", "TOTAL,1,25493.75,2")


# Texts, tables and requests.

numbers = st.builds("{}{}{}{}".format, st.sampled_from(["", "-"]), st.integers(0, 10**400),
                    st.sampled_from(["", ".0", ".5", ".25", ".000001", ".9999"]),
                    st.sampled_from(["", "e0", "E308", "e+309", "e-309", "e307", "e99999999999", "e-99999999999"]))


@given(numbers)
def test_a_number_of_json_is_one_that_a_double_holds(text):
    assert json_text.is_double(text) == (abs(float(text)) != float("inf"))


@pytest.mark.parametrize("text", ["NaN", "Infinity", "-Infinity", "01", "+1", "1.", ".5", "", "[1,]", '"\\ud800"',
                                  "{}{}", '"\t"', "[" * 128 + "]" * 128, "\ufeff{}", "1e309", "[1e309]"])
def test_what_is_no_json_is_refused(text):
    with pytest.raises(json_text.BadJson):
        json_text.value(text.encode())


def test_what_is_json_is_read():
    text = '{"a":"\\ud83d\\ude00","a":[{"b":null},true],"c":"[{"}'
    assert json_text.value(text.encode()) == json.loads(text)
    assert json_text.value(("[" * 127 + "]" * 127).encode())


@pytest.mark.parametrize(("member", "is_each"), [("", False), (',"each":true', True), (',"each":false', False)])
def test_a_question_for_figures_may_ask_for_each_redemption(member, is_each):
    body = '{"cusip":"123456AA3","par":"100","settle":"2024-01-01","basis":"yield","value":"3"' + member + "}"
    assert exchange.posted("/quotes", body.encode()).is_each == is_each


@pytest.mark.parametrize(("member", "is_risk"), [("", False), (',"risk":true', True), (',"risk":false', False)])
def test_a_question_for_figures_may_ask_for_sensitivities(member, is_risk):
    body = '{"cusip":"123456AA3","par":"100","settle":"2024-01-01","basis":"yield","value":"3"' + member + "}"
    assert exchange.posted("/quotes", body.encode()).is_risk == is_risk


@pytest.mark.parametrize("value", ['"true"', "1", "0", "null", "[]", "{}", '""'])
def test_what_is_no_boolean_asks_for_no_lines_more(value):
    for member in ("each", "risk"):
        body = ('{"cusip":"123456AA3","par":"100","settle":"2024-01-01","basis":"yield","value":"3","%s":%s}'
                % (member, value))
        with pytest.raises(Unreadable):
            exchange.posted("/quotes", body.encode())


fields = st.text(st.sampled_from('ab,"\r\n \u00ff'), max_size=6)


@given(st.lists(st.lists(fields, min_size=1, max_size=5), max_size=5), st.sampled_from(["\n", "\r", "\r\n", "\n\n"]))
def test_quoted_records_are_read_as_they_were_written(records, end):
    lines = [",".join('"' + field.replace('"', '""') + '"' for field in record) for record in records]
    assert list(rows.records(end.join(lines).encode("latin-1"))) == records


@pytest.mark.parametrize(("text", "records"), [
    ("", []), ("\n\r\n\r", []), ("a,b\n,\n", [["a", "b"], ["", ""]]), ('a"b,"c"d', [['a"b', "cd"]]),
    ('"a,b', [["a,b"]]), ('""', [[""]]), ("\u00ef\u00bb\u00bfa", [["a"]])])
def test_records_end_where_csv_ends_them(text, records):
    assert list(rows.records(text.encode("latin-1"))) == records


@pytest.fixture(scope="module")
def book() -> Book:
    """The book of the examples."""
    found = Book()
    rows.report(found, BOOK)
    return found


def test_the_book_of_the_examples_is_reported():
    books: dict[str, Book] = {}
    for _ in range(2):
        said = commands.run(["import", "--store=S"], books, BOOK)
        assert said == (0, (EXAMPLES / "book.report").read_bytes())


ROWS = (b"issue,123456AA3,RIVERTON WATER 5S 2025,periodic,2020-01-01,2020-07-01,2025-01-01,5,\n"
        b"trade,ALPHA,T0001,123456AA3,buy,25000,2024-04-01,yield,4\n"
        b"trade,ALPHA,T0002,123456AA3,buy,25000,2024-04-01,yield,4\n"
        b"trade,ALPHA,T0001,123456AA3,buy,25000,2024-04-01,yield,4\n"
        b"correct,ALPHA,T0001,2,123456AA3,buy,30000,2024-04-01,yield,4\n")


@pytest.mark.parametrize("command", ["import", "load"])
@pytest.mark.parametrize(("words", "is_full"), [([], False), (["--desk-limit=1"], True), (["--desk-limit=01"], True),
                                                (["--desk-limit=2"], False), (["--desk-limit=100000000"], False)])
def test_a_desk_has_as_many_trades_as_the_command_lets_it(command, words, is_full):
    lines = commands.run([command, "--store=S", *words], {}, ROWS).output.decode().splitlines()
    assert ("2,refused,14,DeskFull" in lines, "3,refused,14,DeskFull" in lines) == (False, is_full)
    assert lines[3:] == ["4,confirmed,T0001,1,100.725,4.000,2025-01-01,25493.75",
                         "5,confirmed,T0001,2,100.725,4.000,2025-01-01,30592.50"]


def test_a_store_does_not_keep_how_many_trades_a_desk_may_have():
    books: dict[str, Book] = {}
    said = [commands.run(["import", "--store=S", *words], books, ROWS).output for words in (["--desk-limit=1"], [])]
    assert [b"DeskFull" in each for each in said] == [True, False]


@pytest.mark.parametrize("value", ["", "0", "100000001", "+1", "-1", "1.0", "1e5", "100,000", "0" * 20 + "1"])
def test_a_number_of_trades_is_in_its_range(value):
    assert commands.run(["import", "--store=S", f"--desk-limit={value}"]) == (2, b"")


@pytest.mark.parametrize("line", ["export --store=S", "list --store=S --desk=A", "positions --store=S --desk=A",
                                  "mark --store=S", "confirm --store=S --desk=A --ref=T", "drill --count=0 --seed=1"
                                  " --workers=1", "help", "load --store=S --desk-limit=1", "check-store --store=S",
                                  "figures --store=S"])
def test_a_number_of_trades_is_given_once_and_to_no_other_command(line):
    assert commands.run([*line.split(), "--desk-limit=1"]) == (2, b"")


@pytest.mark.parametrize("desk", ["INST", "RETAIL", "SHORT"])
def test_positions_of_the_book_are_listed(book, desk):
    said = commands.run(["positions", "--store=S", f"--desk={desk}"], {"S": book})
    assert said == (0, (EXAMPLES / f"positions.{desk}").read_bytes())


def test_what_the_book_has_is_counted(book):
    said = commands.run(["check-store", "--store=S"], {"S": book})
    assert said == (0, b"ISSUES 23\nDESK INST 20\nDESK RETAIL 14\nDESK SHORT 12\nSOUND\n")


@pytest.mark.parametrize(("desk", "reference"), [("SHORT", "S24A003"), ("RETAIL", "R0002"), ("INST", "I240401012")])
def test_trades_of_the_book_are_confirmed(book, desk, reference):
    said = commands.run(["confirm", "--store=S", f"--desk={desk}", f"--ref={reference}"], {"S": book})
    assert said == (0, (EXAMPLES / f"confirmation.{reference}").read_bytes())


def test_requests_of_the_examples_are_answered():
    kept = Book()
    for status, method, path, name in EXCHANGES:
        file = EXAMPLES / "http" / f"{name}.json"
        body = file.read_bytes() if file.exists() else b""
        data = f"{method} {path} HTTP/1.1\r\nContent-Length: {len(body)}\r\n\r\n".encode() + body
        [answer] = exchange.answers(kept, data)
        head, _, text = answer.partition(b"\r\n\r\n")
        assert head.startswith(f"HTTP/1.1 {status} ".encode()), name
        assert text == (EXAMPLES / "http" / f"{name}.answer").read_bytes(), name


def test_a_command_from_the_folder_answers_and_leaves_nothing():
    before = sorted((ROOT / "conformance").rglob("*.pyc"))
    words = ["quote-one", "5", "2024-07-01", "2024-04-01", "100", "4"]
    for program in (["conformance/calculate"], [sys.executable, "-B", "-m", "calculator"]):
        folder = ROOT if len(program) == 1 else ROOT / "conformance"
        said = subprocess.run([*program, *words], cwd=folder, capture_output=True, text=True)
        assert (said.returncode, said.stdout, said.stderr) == (0, "100.235\n", "")
    assert sorted((ROOT / "conformance").rglob("*.pyc")) == before


def test_the_program_of_the_readme_prints_what_it_says():
    page = (ROOT / "conformance" / "calculator" / "README.md").read_text()
    program = textwrap.dedent(re.search(r"^    from (?:.*\n)+?(?=[^ \n])", page, re.M)[0])
    said = subprocess.run([sys.executable, "-B", "-c", program], cwd=ROOT / "conformance", capture_output=True,
                          text=True)
    assert (said.returncode, said.stderr) == (0, "")
    assert [f"`{line}`" in page for line in said.stdout.splitlines()] == [True, True]
