// The redemptions that may come, each with its figure. A word marks the one that decides.
import { $, element } from "./dom.js";
import { scaled, unscaled } from "./texts.js";

const REASONS = { BELOW: "below all that are printed", ABOVE: "above all that are printed", "NO TIME": "no day is left" };

function figureCell({ figure, reason }) {
  if (figure) return element("td", figure, "figure");
  const [, kind, boundary] = reason.match(/^UNDECIDED (price|yield) (.+)$/) ?? [];
  return element("td", kind ? `undecided at the ${kind} ${boundary}` : REASONS[reason] ?? reason.toLowerCase());
}

function rowOf(each, decides) {
  const row = element("tr", "", decides ? "decides" : "");
  row.append(element("th", each.day, "", { scope: "row" }), element("td", unscaled(scaled(each.price, 6), 6), "figure"),
    element("td", each.label.toLowerCase()), figureCell(each),
    element("td", decides ? "decides" : ""));
  return row;
}

// `lines` are the figures of the quote, which tell what was given and which redemption is disclosed.
export function showEach(redemptions, lines) {
  if (!redemptions.length) return;
  const [day] = lines.get("REDEMPTION").split(" ");
  const isPrice = lines.get("YIELD").endsWith(" GIVEN");
  const table = element("table");
  table.append(element("caption", "Redemptions that may come, in order of day"));
  const head = table.createTHead().insertRow();
  for (const [word, name] of [["Day", ""], ["At", "figure"], ["Redemption", ""],
    [isPrice ? "Price" : "Yield", "figure"], ["Lowest", ""]]) {
    head.append(element("th", word, name, { scope: "col" }));
  }
  table.createTBody().append(...redemptions.map(each => rowOf(each, each.day === day)));
  const box = element("div", "", "wide", { tabIndex: 0 });
  box.setAttribute("role", "group");
  box.setAttribute("aria-label", "Redemptions that may come");
  box.append(table);
  $("figures-each").replaceChildren(box);
}
