"""The page in a browser, as a hand and an eye have it, and what has to hold in each of its states."""
from __future__ import annotations

import pathlib
import time
from datetime import date
from typing import Any

import muni
from muni import Basis, Side, Trade
from support import looks
from support.browser import Browser
from support.relay import Relay, plain
from support.site import NAME, Site

APRIL = date(2024, 4, 3)
TICKET = {"cusip": "990034AA8", "par": "25000", "settle": "2024-04-03", "basis": "price", "value": "104.25"}
# Figures that a relay tells of it.
FIGURES = """PRICE 108.584 GIVEN
YIELD 3.000 COMPUTED
REDEMPTION 2034-01-01 100.000000 PAR OPTION
ACCRUED DAYS 0
PRINCIPAL 27146.00
ACCRUED 0.00
TOTAL 27146.00
"""
CHOSEN = ("basis", "side", "kind", "days")
WORDS = """
const told = await import("/page/tell.js");
return { refusals: told.REFUSALS, statuses: told.STATUSES, faults: told.FAULTS };
"""
# Whether the page is opened, or "other" if what is loaded is another page.
OPENED = """
const user = document.getElementById("house-user");
return user ? user.textContent !== "" : document.readyState === "complete" && "other";
"""
# What comes before this is over: nothing is under way, and the page has asked the site once more.
SETTLED = "while (document.querySelector('[aria-busy]')) await new Promise(requestAnimationFrame); await fetch('/me');"


class Page:
    """The page in a browser. Boxes and fields are named by their ids."""

    def __init__(self, browser: Browser, site: Site, relay: Relay, shots: pathlib.Path | None = None) -> None:
        self.browser, self.site, self.relay, self.shots = browser, site, relay, shots
        self.js, self.until, self.click = browser.js, browser.until, browser.click
        self.desk = muni.Client(f"http://127.0.0.1:{site.told['desk_port']}", tries=9)
        self.user = ""

    def open(self, user: str) -> None:
        """Opens the page anew as a user who has logged in, at the usual size and in light colours."""
        self.browser.size(1280, 900)
        self.browser.scheme("light")
        for _ in range(3):
            if self.user != user:
                self.user = user
                self.browser.go(f"https://{user}:{self.site.passwords[user]}@{NAME}:{self.site.port}/")
            self.browser.go(f"https://{NAME}:{self.site.port}/")
            if self.until(OPENED) is True:
                break
            # A busy machine may be too late for nginx or for the browser, which then has another page or none.
            self.user = ""
            self.browser.log()
        self.settle()

    def settle(self) -> None:
        """Waits until nothing is under way, and what was sent before has come to the relay."""
        self.browser.js_later(SETTLED)

    def words(self) -> dict[str, Any]:
        """What the page says of refusals, statuses and faults of terms, by their numbers."""
        return self.browser.js_later(WORDS)

    def fill(self, form: str, **values: str) -> None:
        for name, value in values.items():
            put = self.browser.choose if name in CHOSEN else self.browser.write
            put(f"#{form}-{name}", value)

    def text(self, name: str) -> str:
        return self.js("return document.getElementById(arguments[0]).innerText", name)

    def texts(self, selector: str) -> list[str]:
        return self.js("return [...document.querySelectorAll(arguments[0])].map(each => each.textContent)", selector)

    def ids(self, selector: str) -> list[str]:
        return self.js("return [...document.querySelectorAll(arguments[0])].map(each => each.id)", selector)

    def shows(self, name: str, words: str) -> str:
        """Waits until a box has these words and nothing is under way, and gives its text, or nothing."""
        return self.until("""const text = document.getElementById(arguments[0]).innerText;
                             const isOver = !document.querySelector("[aria-busy]");
                             return isOver && text.includes(arguments[1]) ? text : "" """, name, words)

    def press(self, button: str, box: str = "ticket-told", sure: str | None = None) -> str:
        """Presses a button and gives what is then told in a box. `sure` is the button of the question that comes."""
        self.js("""const box = document.getElementById(arguments[0]);
                   box.replaceChildren();
                   delete box.dataset.mood;""", box)
        self.click(button if button[0] in "#." else f"#{button}")
        if sure is not None:
            self.asks()
            self.click(sure)
        return self.until("""const box = document.getElementById(arguments[0]);
                             const isOver = box.dataset.mood && box.dataset.mood !== "wait";
                             return isOver && !document.querySelector("[aria-busy]") ? box.innerText : "" """, box)

    def asks(self, is_open: bool = True) -> bool:
        """Waits until the question whether to do it is open, or is not."""
        return self.until("return document.getElementById('sure').open === arguments[0]", is_open)

    def find(self, reference: str) -> str:
        """Shows the sheet of a trade by its reference."""
        self.browser.write("#find-reference", reference)
        self.click("#find button")
        return self.shows("sheet-paper", reference)

    def rows(self, selector: str) -> list[list[str]]:
        return self.js(looks.ROWS, selector)

    def figures(self) -> dict[str, str]:
        return {row[0]: row[-1] for row in self.rows("#figures-lines tr")}

    def curve(self) -> list[list[str]]:
        """The points of the curve: their redemption, and yield and price as texts."""
        return self.js(looks.POINTS)

    def sheet(self) -> dict[str, str]:
        return {row[0]: row[-1] for row in self.rows("#sheet-paper tr")} | {"title": self.title()}

    def title(self) -> str:
        return "".join(self.texts("#sheet-paper h3"))

    def typed(self) -> dict[str, str]:
        return self.js(looks.TYPED)

    def ticket(self, *names: str) -> tuple[str, ...]:
        typed = self.typed()
        return tuple(typed[f"ticket-{name}"] for name in names)

    def proposed(self) -> str:
        """The reference that is proposed, once it is there."""
        return self.until("""const found = document.getElementById("ticket-reference").value;
                             return /^20\\d{6}[A-Z]\\d{4}$/.test(found) ? found : "" """)

    def marked(self) -> list[str]:
        """The references of the rows of the list that are marked, once one is."""
        self.until("return document.querySelector('#trades-list [aria-current]')")
        return self.texts("#trades-list [aria-current] button")

    def asked(self) -> list[list[str]]:
        """The rows of the question that is open."""
        self.asks()
        return self.rows("#sure-lines tr")

    def focus(self) -> str:
        return self.js("return document.activeElement.id")

    def listed(self) -> list[str]:
        return self.texts("#trades-list th button")

    def lists(self, first: str) -> list[str]:
        """Waits until the list begins with a reference, and gives its references."""
        self.until("return document.querySelector('#trades-list th button')?.textContent === arguments[0]", first)
        return self.listed()

    def is_off(self, button: str) -> bool:
        return self.js("return document.getElementById(arguments[0]).getAttribute('aria-disabled') === 'true'", button)

    def kept(self, reference: str) -> muni.Confirmation:
        return self.desk.confirmation("RETAIL", reference)

    def enter(self, reference: str, side: Side = Side.BUY, par: int = 5_000, basis: Basis = Basis.YIELD,
              value: muni.Amount = 4, cusip: str = "990034AA8", settle: date = APRIL, fee: muni.Amount = 0) -> None:
        """Enters a trade at the desk itself."""
        self.desk.enter(Trade("RETAIL", reference, cusip, side, par, settle, basis, value, fee))

    def shot(self, name: str) -> None:
        """Keeps a picture, if there is a folder for them."""
        if self.shots:
            self.browser.picture(self.shots / f"{name}.png")

    def faults(self, state: str) -> list[str]:
        """What does not hold in a state of the page: contrast in both schemes of colour, and the places of all."""
        found = []
        for scheme in ("dark", "light"):
            self.browser.scheme(scheme)
            found += [f"{scheme}: {fault}" for fault in self.js(looks.FAINT)]
            self.shot(f"{state}-{scheme}")
        return found + self.misplaced()

    def faults_when_narrow(self, state: str) -> list[str]:
        """The same in a window of two columns and in a narrow one, but for the contrast."""
        found = []
        for width in (1024, 400):
            self.browser.size(width, 800)
            found += self.misplaced()
        for scheme in ("dark", "light"):
            self.browser.scheme(scheme)
            self.shot(f"{state}-narrow-{scheme}")
        self.browser.size(1280, 900)
        return found

    def misplaced(self) -> list[str]:
        """What lies over another or sticks out, and figures that do not stand at the right, each in its line: what
        still does so when the page has come to rest, which a slow machine may need to be waited for."""
        for _ in range(20):
            found = self.js(looks.MISPLACED) + [f"{figure} is ragged" for figure in self.js(looks.RAGGED)]
            if not found:
                break
            self.settle()
            time.sleep(0.1)
        return found

    def refused(self, form: str, button: str, sure: str | None = None, **values: str) -> tuple[str, bool]:
        """What is told after a form was filled and sent, and whether what was typed stays."""
        self.fill(form, **values)
        typed = self.typed()
        told = self.press(button, f"{form}-told", sure)
        return f"{told}\n", self.typed() == typed

    def lines_of(self, line: str, form: str = "ticket") -> list[str]:
        """The lines in which the page has to tell a refusal, which is told in `line`."""
        number = line.split()[1]
        means, todo = self.words()["refusals"][number][1:]
        if isinstance(todo, dict):
            todo = todo["issue" if form == "issue" else "trade"]
        return [f"{line}\n", f"What it means: {means}.", f"What to do: {todo}.", "Nothing was changed."]


def missing(words: list[str], text: str) -> list[str]:
    """Those of the words that a text has not."""
    return [word for word in words if word not in text]


def rows_shown(figures: muni.Figures) -> dict[str, str]:
    """The rows that the page has to show of figures."""
    rows = {"Price per 100": f"{figures.price}", "Yield": f"{figures.yield_} %",
            "Redemption": f"{figures.redemption.day}", "Days accrued": f"{figures.accrued_days}",
            "Principal": f"{figures.principal:,}", "Accrued interest": f"{figures.accrued:,}",
            "Total": f"{figures.total:,}"}
    if figures.commission:
        rows["Commission"] = f"{figures.commission:,}"
    if figures.rate is not None:
        rows["Discount rate"] = f"{figures.rate} %"
    return rows


def sheet_shown(confirmation: muni.Confirmation, terms: str = "number 1") -> dict[str, str]:
    """The rows that the sheet has to show of a confirmation, which stands by these terms."""
    rows = rows_shown(confirmation.figures) | {
        "title": f"{confirmation.act.value} {confirmation.number}", "Desk": confirmation.desk,
        "Reference": confirmation.reference, "Settlement": f"{confirmation.settle}", "CUSIP": confirmation.cusip,
        ("Sold" if confirmation.side is Side.SELL else "Bought"): f"{confirmation.par:,}",
        "Name": confirmation.issue, "Coupon": f"{confirmation.coupon} %", "Dated date": f"{confirmation.dated}",
        "Maturity": f"{confirmation.maturity}", "Terms": terms}
    if confirmation.day_count is muni.DayCount.ACTUAL_365:
        rows["Days counted by"] = "actual/365"
    return rows


def quoted(page: Page, text: str) -> None:
    """Asks for a quote, which the relay answers by a text."""
    page.relay.rules = [("POST /quotes", plain(200, "OK", text))]
    page.fill("ticket", **TICKET)
    assert "Quoted" in page.press("ticket-quote")
