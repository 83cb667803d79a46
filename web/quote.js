// Quotes of the ticket: their figures, what a commission changes, and the curve.
import { ask } from "./ask.js";
import { clearCurve, showCurve, traceCurve } from "./curve.js";
import { $, element } from "./dom.js";
import { showEach } from "./each.js";
import { read } from "./fields.js";
import { isNone } from "./given.js";
import { bookedOf, wordsOf } from "./questions.js";
import { showRisk } from "./risk.js";
import { figureRows } from "./sheet.js";
import { figuresBy, keptTerms } from "./terms.js";
import { grouped, netPrice, readEach, readLines, readRisk, scaled, split } from "./texts.js";
import { hush, hushGood, refuse, say, tellSent, waitingIn } from "./tell.js";

const form = $("ticket");
const told = $("ticket-told");
const QUOTED = ["cusip", "par", "settle", "basis", "value"];
let asked = 0;
// What is shown, if it is of the ticket as it stands.
let shown = null;

const isNetInRange = net => !net.startsWith("-") && scaled(net, 6) > 0n && scaled(net, 6) <= 999_999_999n;

export const shownQuote = () => shown;

// Figures are of what was quoted, and go when the ticket asks for something else.
export function stale() {
  asked += 1;
  shown = null;
  $("figures").classList.remove("has");
  $("figures-lines").replaceChildren();
  $("figures-each").replaceChildren();
  $("figures-risk").replaceChildren();
  clearCurve();
  hushGood(told);
}

function showFigures(typed, lines, notes, which) {
  const { cusip, par, settle, basis, value } = typed;
  const table = element("table");
  const rows = figureRows(lines);
  rows.at(-1).className = "total";
  const what = `${grouped(par)} of ${cusip}, settlement ${settle}, at ${wordsOf(basis, value)}${which}`;
  table.append(element("caption", what), ...rows);
  $("figures-lines").replaceChildren(table, ...notes.map(words => element("p", words, "note")));
  $("figures").classList.add("has");
}

const REFUSED = "a trade with this ticket would be refused.";

// The desk's quote takes no commission. What it does to the yield is had by a quote of the net price. Gives notes, and
// the lines of that quote if there are some.
async function withCommission({ side, fee, ...body }) {
  if (isNone(fee)) return { notes: [] };
  if (body.basis !== "price") return { notes: [`A commission goes with a price alone: ${REFUSED}`] };
  const without = "The desk's quote takes no commission: these figures are without it.";
  const net = netPrice(body.value, fee, side);
  if (!isNetInRange(net)) {
    return { notes: [without, `With it the price would be ${net}, which is out of range: ${REFUSED}`] };
  }
  const answer = await ask("/quotes", { ...body, value: net }, waitingIn(told));
  const head = `With ${fee} per 100 the party that ${side === "buy" ? "buys pays" : "sells gets"} ${net}`;
  if (answer.kind !== "done") {
    return { notes: [without, `${head}, which the desk does not quote: ${answer.text.trim() || "no answer came"}.`] };
  }
  const lines = readLines(answer.text);
  const [yields, day] = ["YIELD", "REDEMPTION"].map(name => split(lines.get(name))[0]);
  return { net: lines, notes: [without, `${head}, at a yield of ${yields} to ${day}. ` +
    "The confirmation has that yield, the commission and the total."] };
}

// An answer that comes after the ticket has changed is not shown.
function dropped() {
  hush(told);
  return null;
}

// The desk's quote, which goes by the last terms. `booked` are the figures that the confirmation has to have.
async function quoteByLast({ issue, ...typed }, number) {
  const { side, fee, ...body } = typed;
  const answer = await ask("/quotes", { ...body, each: true, risk: true }, waitingIn(told));
  if (answer.kind !== "done") return { answer };
  const lines = readLines(answer.text);
  const { notes, net } = await withCommission(typed);
  if (!issue || issue === number) return { answer, body, lines, notes, booked: bookedOf(typed, lines, net) };
  const other = number ? `There are no terms number ${issue} but ${number} at most: ${REFUSED}`
    : `A quote goes by the last terms. The trade goes by number ${issue}, and its figures may be others.`;
  return { answer, body, lines, notes: [...notes, other], booked: null };
}

// By terms of before the figures are had of checks, which take the commission too.
async function quoteByEarlier(typed, terms) {
  const { answer, lines } = await figuresBy(terms, typed);
  if (!lines) return { answer };
  const notes = [`These figures are by the terms number ${typed.issue}, which were amended since` +
    (isNone(typed.fee) ? "." : ", and have the commission in.")];
  return { answer: { text: "", sent: 1 }, body: null, lines, notes, booked: lines };
}

// Asks for figures and shows them. Gives what was quoted with its lines and notes, and the number of the terms, or
// null. That is "" if it cannot be told. It is read before the quote: if it is still the last one after it, the quote
// went by it. `waysOf` has the buttons for a refusal.
export async function quote(waysOf) {
  const typed = read(form, [...QUOTED, "side", "fee", "issue"], ["fee", "issue"]);
  if (!typed) return null;
  stale();
  const mine = asked;
  hush(told);
  const { terms = [] } = await keptTerms(typed.cusip, waitingIn(told));
  if (mine !== asked) return dropped();
  const number = String(terms.length || "");
  const earlier = typed.issue === number ? undefined : terms[typed.issue - 1];
  const { answer, ...quoted } = earlier ? await quoteByEarlier(typed, earlier) : await quoteByLast(typed, number);
  if (mine !== asked) return dropped();
  if (!quoted.lines) {
    refuse(told, answer, ...waysOf(answer));
    return null;
  }
  const which = terms.length > 1 ? `, by terms ${typed.issue ?? number} of ${number}` : "";
  showFigures(typed, quoted.lines, quoted.notes, which);
  showEach(readEach(answer.text), quoted.lines);
  showRisk(readRisk(answer.text));
  shown = { ...quoted, number: typed.issue ?? number, isCurrent: () => mine === asked };
  say(told, "good", ["Quoted", ...tellSent(answer), "Nothing is kept."]);
  return shown;
}

export async function curve(waysOf) {
  const quoted = await quote(waysOf);
  if (!quoted) return;
  if (!quoted.body) {
    say(told, "note", ["No curve", "The desk draws it by the last terms alone: leave Terms of issue empty."]);
    return;
  }
  say(told, "wait", ["Drawing the curve", "The desk is asked for a price at each of its yields."]);
  const traced = await traceCurve(quoted.body, quoted.lines, quoted.isCurrent);
  if (!traced) {
    dropped();
    return;
  }
  if (traced.points.length < 2) {
    say(told, "bad", ["No curve", "The desk priced fewer than two of its yields."]);
    return;
  }
  showCurve(traced);
  say(told, "good", ["Quoted, with its curve", "Nothing is kept."]);
}
