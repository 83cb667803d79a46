// Asks before what cannot be undone. Gives whether it is to be done.
import { $, element } from "./dom.js";

const box = $("sure");

// Each row has a label and its values, which the words of `head` are of. `notes` stand below.
export function sure(title, rows, word, { head = [], notes = [] } = {}) {
  $("sure-title").textContent = title;
  $("sure-yes").textContent = word;
  const table = element("table");
  if (head.length) {
    table.createTHead().insertRow().append(...head.map(each => element("th", each, "", { scope: "col" })));
  }
  const body = table.createTBody();
  for (const [label, ...values] of rows) {
    body.insertRow().append(element("th", label, "", { scope: "row" }), ...values.map(each => element("td", each)));
  }
  $("sure-lines").replaceChildren(table, ...notes.map(each => element("p", each, "note")));
  box.returnValue = "no";
  box.showModal();
  return new Promise(done => box.addEventListener("close", () => done(box.returnValue === "yes"), { once: true }));
}
