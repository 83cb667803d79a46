// The confirmation as a sheet.
import { ask } from "./ask.js";
import { $, element } from "./dom.js";
import { standing, termsWords } from "./terms.js";
import { grouped, readConfirmation, split } from "./texts.js";
import { hush, refuse, say, waitingIn } from "./tell.js";
import { offerVersions, startVersions } from "./versions.js";

// The version that is shown, and the last one that is known of its trade.
let shown = null;
let last = null;
// By which terms each that was read stands, and the figures of one that are not those that were shown before.
const stands = new WeakMap();
const unlike = new WeakMap();

function row(label, value, remark) {
  const line = element("tr");
  line.append(element("th", label, "", { scope: "row" }));
  if (remark) line.append(element("td", remark, "remark"), element("td", value, "value"));
  else line.append(element("td", value, "value", { colSpan: 2 }));
  return line;
}

function part(title, rows) {
  const table = element("table");
  table.append(element("caption", title), ...rows.filter(Boolean));
  return table;
}

const redeemed = value => {
  const [day, price, ...label] = value.split(" ");
  return [day, price && `at ${price}, ${label.join(" ").toLowerCase()}`];
};

function figure(lines, name, label, suffix = "") {
  if (!lines.has(name)) return null;
  const [value, given] = split(lines.get(name));
  return row(label, value + suffix, given.toLowerCase());
}

const money = (lines, name, label) => lines.has(name) && row(label, grouped(lines.get(name)));

// The rows of figures, as they stand in a quote and at the end of a confirmation.
export function figureRows(lines) {
  const [day, terms] = redeemed(lines.get("REDEMPTION"));
  return [
    figure(lines, "PRICE", "Price per 100"),
    figure(lines, "YIELD", "Yield", " %"),
    figure(lines, "RATE", "Discount rate", " %"),
    row("Redemption", day, terms),
    row("Days accrued", lines.get("ACCRUED DAYS")),
    money(lines, "PRINCIPAL", "Principal"),
    money(lines, "ACCRUED", "Accrued interest"),
    money(lines, "COMMISSION", "Commission"),
    money(lines, "TOTAL", "Total"),
  ].filter(Boolean);
}

// What is said of printed figures that a reader might take for more than they are.
function remarks(confirmation) {
  const { lines } = confirmation;
  const words = [];
  if (lines.get("PRICE").endsWith(" GIVEN")) {
    words.push("The price was given. It is printed with three decimals; as given it may have more.");
  }
  if (lines.get("YIELD").endsWith(" GIVEN")) {
    words.push("The yield was given. It is printed with three decimals; as given it may have four.");
  }
  if (lines.has("COMMISSION")) words.push("The yield is that of the price with the commission.");
  return words;
}

// Writes by which terms a version stands as soon as it is known.
async function tellTerms(confirmation) {
  const paper = $("sheet-paper");
  paper.setAttribute("aria-busy", "true");
  if (!stands.has(confirmation)) stands.set(confirmation, standing(confirmation, confirmation === last));
  const words = termsWords(await stands.get(confirmation));
  if (shown !== confirmation) return;
  $("sheet-terms").textContent = words;
  paper.removeAttribute("aria-busy");
}

function draw(confirmation) {
  shown = confirmation;
  const { lines, number } = confirmation;
  const paper = $("sheet-paper");
  const basis = lines.has("BASIS") ? row("Days counted by", lines.get("BASIS").toLowerCase()) : null;
  const figures = figureRows(lines);
  const old = element("p", `Version ${number} of ${last.number}: not the present state.`, "old");
  const others = (unlike.get(confirmation) ?? []).map(([label, now, then]) =>
    element("p", `${label}: ${now} was shown before it was sent, and ${then} is confirmed.`, "old"));
  const terms = row("Terms", "being looked up");
  terms.lastChild.id = "sheet-terms";
  figures.at(-1).className = "total";
  paper.className = confirmation.isCanceled ? "canceled" : "";
  paper.replaceChildren(
    element("h3", confirmation.title),
    ...(number < last.number ? [old] : []),
    ...others,
    part("Trade", [
      row("Desk", confirmation.desk),
      row("Reference", confirmation.reference),
      row(confirmation.side === "sell" ? "Sold" : "Bought", grouped(confirmation.par), "par, dollars"),
      row("Settlement", lines.get("SETTLEMENT")),
    ]),
    part("Issue", [
      row("CUSIP", lines.get("CUSIP")),
      row("Name", lines.get("ISSUE")),
      row("Coupon", lines.get("COUPON") + " %"),
      row("Dated date", lines.get("DATED")),
      row("Maturity", lines.get("MATURITY")),
      basis,
      terms,
    ]),
    part("Figures", figures),
    ...remarks(confirmation).map(words => element("p", words, "note")),
  );
  tellTerms(confirmation);
}

// Shows the last version of a trade. `others` are its figures that are not those that were shown before it was sent.
export function showSheet(text, others = []) {
  last = readConfirmation(text);
  unlike.set(last, others);
  draw(last);
  offerVersions(last);
  $("sheet-paper").hidden = false;
  $("sheet-acts").hidden = false;
  $("sheet").classList.add("has");
  hush($("sheet-told"));
  return last;
}

export function clearSheet() {
  shown = null;
  last = null;
  $("sheet-paper").replaceChildren();
  $("sheet-paper").removeAttribute("aria-busy");
  $("sheet-paper").hidden = true;
  $("sheet-acts").hidden = true;
  $("sheet").classList.remove("has");
  hush($("sheet-told"));
}

// Reads the last version of a trade and shows it. Gives the answer.
export async function openTrade(desk, reference, box) {
  const answer = await ask(`/trades/${desk}/${reference}`, null, waitingIn(box));
  if (answer.kind === "done") {
    hush(box);
    showSheet(answer.text);
  } else {
    refuse(box, answer);
  }
  return answer;
}

export const takeShown = take => take(shown, last);

export function startSheet(take) {
  startVersions(draw);
  $("sheet-print").addEventListener("click", () => window.print());
  $("sheet-take").addEventListener("click", () => takeShown(take));
  $("sheet-again").addEventListener("click", async () => {
    const before = last;
    const answer = await openTrade(last.desk, last.reference, $("sheet-told"));
    if (answer.kind !== "done") return;
    const isNew = last.number > before.number;
    say($("sheet-told"), "good", [isNew ? `${last.title} has come since.` : "This is the last version."]);
  });
}
