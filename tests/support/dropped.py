"""Files of figures that are dropped on the tab Check of the page, and what it says of them."""
from __future__ import annotations

import json

from support.page import Page
from support.program import ROOT

STREET = (ROOT / "examples/street.csv").read_text()
DROP = """
const [id, name, text] = arguments;
const data = new DataTransfer();
const bytes = new TextEncoder().encode(text);
data.items.add(new File([bytes], name, { type: "text/csv" }));
const node = document.getElementById(id);
return ["dragover", "drop"].map(type =>
    node.dispatchEvent(new DragEvent(type, { dataTransfer: data, bubbles: true, cancelable: true })));
"""
# A click that opens no window of the system.
CLICK = """
const field = document.getElementById("checks-file");
field.addEventListener("click", event => event.preventDefault(), { once: true });
field.dispatchEvent(new MouseEvent("click", { cancelable: true }));
"""
TOLD = """
const box = document.getElementById("checks-told");
const isOver = box.dataset.mood && box.dataset.mood !== "wait";
return isOver && !document.querySelector("[aria-busy]") ? box.innerText : "";
"""


def told(page: Page) -> str:
    """What is told at the end of a check."""
    return page.until(TOLD)


def dropped(page: Page, text: str, desk: str = "", name: str = "street.csv") -> str:
    """Drops a file with a text on the tab, and gives what is told at the end."""
    page.click("#tab-check")
    page.browser.write("#checks-desk", desk)
    page.js(DROP, "check", name, text)
    return told(page)


def went_on(page: Page) -> str:
    """Presses the button for the rest, and gives what is told at its end."""
    page.click("#checks-told button")
    return told(page)


def lines(page: Page) -> list[list[str]]:
    return page.rows("#checks-list tbody tr")


def right(page: Page) -> str:
    return page.js("return document.querySelector('#checks-right p').textContent")


def sent(page: Page) -> list[dict[str, str]]:
    return [json.loads(body) for body in page.relay.sent("POST /checks")]
