// The ticket: trades are entered, corrected and canceled by it, each after a look at what is kept.
import { ask } from "./ask.js";
import { startCurve } from "./curve.js";
import { $ } from "./dom.js";
import { digitWords, dress, mark, read, unmark } from "./fields.js";
import { givenOf, missingWords, remember, termsTyped } from "./given.js";
import { changesOf, changesOfFigures, rowsOfEntry, rowsOfTrade } from "./questions.js";
import { curve, quote, shownQuote, stale } from "./quote.js";
import { nextReference, today } from "./references.js";
import { openTrade, showSheet } from "./sheet.js";
import { sure } from "./sure.js";
import { isEarlier, keptTerms, standing } from "./terms.js";
import { readConfirmation } from "./texts.js";
import { hush, refuse, say, tellSent, waitingIn } from "./tell.js";

const form = $("ticket");
const told = $("ticket-told");
const TRADED = ["reference", "cusip", "side", "par", "settle", "basis", "value", "fee"];
const VALUES = { price: "Price per 100", yield: "Yield, percent", rate: "Rate, percent" };
// What is kept of a trade that is not entered yet.
const NONE = { number: 0 };

let opened = null;
let isBusy = false;
let proposed = "";

// What may be done at once about a refusal.
function buttons(answer) {
  if (answer.number === 1) {
    const { cusip } = form.elements;
    const words = digitWords(cusip.value);
    if (words) mark(cusip, words);
    return [["Go to new issue", () => opened.addIssue(cusip.value)]];
  }
  if ([11, 12, 13].includes(answer.number) || (answer.number === 3 && answer.rest !== "issue")) {
    const reference = form.elements.reference.value.trim();
    const show = ["Show last version", () => openTrade(opened.desk(), reference, $("sheet-told"))];
    return answer.number === 3 ? [show, ["Next reference", newReference]] : [show];
  }
  return [];
}

// What is said of an accepted request. It is answered as the first time when it is sent again, so the answer may
// be of an old version; `before` and `last` are what the desk kept before and after it. `others` are the figures that
// are not those that were shown.
function sayKept(answer, made, before, last, others) {
  const name = `${made.title} of ${made.reference}`;
  if (last.number > made.number) {
    say(told, "note", [`${name} was kept before`,
      `It is not the present state: the last version is ${last.title}, which the sheet shows.`]);
  } else if (before.number >= made.number) {
    say(told, "note", [`Nothing was added: ${name} was kept before`,
      "It has equal contents. Another trade takes another reference, and a correction the next version."]);
  } else if (others.length) {
    say(told, "bad", [`${name} is kept with other figures than were shown`,
      ...others.map(([label, now, then]) => `${label}: ${now} was shown, and ${then} is confirmed.`),
      "What to do: compare the sheet with what was agreed. If it is wrong, correct the trade or cancel it."]);
  } else {
    const more = made.number === 1 ? [["Next reference", newReference]] : [];
    say(told, "good", [`${name} is kept`, ...tellSent(answer)], ...more);
  }
}

// The next version of the trade that the sheet shows, unless the ticket has gone on to another reference.
function nextNumber(last) {
  const { number, reference } = form.elements;
  if (reference.value.trim() !== last.reference) return;
  number.value = last.isCanceled ? "" : String(last.number + 1);
  unmark(number);
}

const pathOf = ({ desk, reference }) => `/trades/${desk}/${reference}`;

// The last version of a trade, or NONE if it is none yet and is to be one. What else comes is told, and gives null.
async function look(body, isNew) {
  hush(told);
  const answer = await ask(pathOf(body), null, waitingIn(told));
  if (answer.kind === "done") return readConfirmation(answer.text);
  if (isNew && answer.number === 2) return NONE;
  refuse(told, answer);
  return null;
}

// Sends an act on a trade, of which `before` was kept, and shows what is kept then. What was agreed to has the number
// of terms that is sent, and the figures that were shown.
async function act(path, body, before, agreed) {
  const waiting = waitingIn(told);
  const terms = agreed?.number ? { issue: agreed.number } : {};
  const answer = await ask(path, { ...body, ...terms }, waiting);
  if (answer.kind !== "done") {
    refuse(told, answer, ...buttons(answer));
    return;
  }
  const made = readConfirmation(answer.text);
  if (agreed) remember(made, body, agreed.number);
  const others = agreed?.booked && made.number > before.number ? changesOfFigures(agreed.booked, made.lines) : [];
  const after = await ask(pathOf(body), null, waiting);
  if (body.desk === opened.atHand()) opened.showTrade(body.reference);
  if (after.kind !== "done") {
    showSheet(answer.text, others);
    say(told, "bad", [`${made.title} of ${made.reference} is kept`,
      "The last version could not be read, so what the sheet shows may be older. Read it again."]);
    return;
  }
  const isLater = readConfirmation(after.text).number > made.number;
  const last = showSheet(after.text, isLater ? [] : others);
  sayKept(answer, made, before, last, others);
  nextNumber(last);
}

// What is typed for an act at the desk at hand, or null.
function typedOf(names, optional) {
  const typed = read(form, names, optional);
  const desk = typed && opened.desk();
  return desk ? { desk, ...typed } : null;
}

const notDone = what => say(told, "note", [`Nothing was ${what}`, "What was typed is as it was."]);

// The number of terms by which a trade goes: the one that was typed, or that of the last ones. It is "" at a desk that
// does not tell it. Gives null if no answer came, which is told.
async function numberOf({ cusip, issue }) {
  if (issue) return issue;
  const { terms, answer } = await keptTerms(cusip, waitingIn(told));
  if (terms) return String(terms.length);
  if (answer.kind === "status" && [403, 404].includes(answer.status)) return "";
  refuse(told, answer, ...buttons(answer));
  return null;
}

// What is agreed to: the quote that is shown, if there is one and no amendment has come since, or one that is made and
// asked about. `asks` has that quote and the one before it, and gives whether it is wanted.
async function agree(body, quoted, asks) {
  for (let agreed = quoted; ;) {
    if (agreed) {
      const number = await numberOf(body);
      if (number === null) return null;
      if (number === agreed.number) return agreed;
    }
    const before = agreed;
    agreed = await quote(buttons);
    if (!agreed || !await asks(agreed, before)) return null;
  }
}

// Asks whether a trade is to be entered by a quote. If one was shown before, the terms were amended since.
async function asksEntry(body, quoted, before) {
  const rows = before ? changesOfFigures(before.lines, quoted.lines) : rowsOfEntry(body, quoted.lines);
  const same = before && !rows.length ? ["Its figures are those that were shown."] : [];
  const title = before ? `Enter ${body.reference}? The terms of ${body.cusip} were amended after the quote.`
    : "Enter this trade? It was not quoted as it stands.";
  const isSure = await sure(title, rows, "Enter trade",
    { head: before && rows.length ? ["", "Shown", "Now"] : [], notes: [...same, ...quoted.notes] });
  if (!isSure) notDone("entered");
  return isSure;
}

async function enter() {
  const body = typedOf([...TRADED, "issue"], ["fee", "issue"]);
  if (!body) return;
  const agreed = await agree(body, shownQuote(), (...quotes) => asksEntry(body, ...quotes));
  const before = agreed && await look(body, true);
  // What is kept before is sent as it was, by whatever terms that was.
  if (before) await act("/trades", body, before, before === NONE ? agreed : { ...agreed, number: "" });
}

// The number that was typed, or that of the version after the last one.
function numbered(body, last) {
  const number = body.number ?? String(last.number + 1);
  form.elements.number.value = number;
  unmark(form.elements.number);
  return { ...body, number };
}

// Asks whether the last version is to be corrected by a quote. What it stands by may have been amended since.
async function asksCorrection(last, body, quoted) {
  const stands = await standing(last, true);
  const rows = changesOf(last, body, stands, quoted);
  const title = `Correct ${last.title} of ${body.reference}?` + (rows.length ? "" : " Nothing of it changes.");
  const isSame = body.cusip === last.lines.get("CUSIP") && !body.issue;
  const amended = isSame && isEarlier(stands)
    ? [`The issue was amended since. Now has what is kept by the terms number ${stands.numbers.join(" or ")}, and ` +
      `Then what comes by number ${quoted.number}.`] : [];
  const more = { head: ["", "Now", "Then"], notes: [...amended, ...quoted.notes] };
  const isSure = await sure(title, rows, "Correct trade", more);
  if (!isSure) notDone("corrected");
  return isSure;
}

async function correct() {
  const typed = typedOf([...TRADED, "number", "issue"], ["fee", "number", "issue"]);
  const last = typed && await look(typed);
  if (!last) return;
  const body = numbered(typed, last);
  const agreed = await agree(body, null, quoted => asksCorrection(last, body, quoted));
  const isNew = Number(body.number) > last.number;
  if (agreed) await act("/corrections", body, last, isNew ? agreed : { ...agreed, number: "" });
}

async function cancel() {
  const typed = typedOf(["reference", "number"], ["number"]);
  const last = typed && await look(typed);
  if (!last) return;
  const body = numbered(typed, last);
  const rows = [...rowsOfTrade(last), ["Next version", body.number]];
  const isSure = await sure("Cancel this trade? Nothing follows a cancel.", rows, "Cancel trade");
  if (isSure) await act("/cancels", body, last);
  else notDone("canceled");
}

// One act at a time: a second press meanwhile is passed over.
function once(does) {
  return async () => {
    if (isBusy) return;
    isBusy = true;
    form.setAttribute("aria-busy", "true");
    try {
      await does();
    } finally {
      isBusy = false;
      form.removeAttribute("aria-busy");
    }
  };
}

// Proposes the next reference of today at a desk, in the place of none and of one that was proposed before.
export async function propose(desk) {
  const field = form.elements.reference;
  const isOurs = () => ["", proposed].includes(field.value);
  if (!desk || !isOurs()) return;
  const next = await nextReference(desk, today());
  if (!isOurs() || desk !== opened.atHand()) return;
  field.value = proposed = next;
  unmark(field);
}

async function newReference() {
  for (const name of ["reference", "number", "issue"]) form.elements[name].value = "";
  stale();
  hush(told);
  await propose(opened.atHand());
  form.elements.reference.focus();
}

function fill(values) {
  for (const [name, value] of Object.entries(values)) {
    form.elements[name].value = value;
    unmark(form.elements[name]);
  }
  basisChanged();
  stale();
}

// Takes the trade of the sheet into the ticket to be figured by the last terms.
export function takeForLast(version, last) {
  takeTrade(version, last);
  form.elements.issue.value = "";
}

// Takes a version into the ticket, but no figure that it may have rounded. What is sent comes after the last version.
export function takeTrade(version, last) {
  const { lines } = version;
  const given = givenOf(version);
  fill({
    reference: last.isCanceled ? "" : last.reference,
    number: last.isCanceled ? "" : String(last.number + 1),
    cusip: lines.get("CUSIP"),
    par: version.par,
    settle: lines.get("SETTLEMENT"),
    side: version.side,
    ...given,
    issue: termsTyped(version),
  });
  const words = given.value === "" ? missingWords(given.basis, lines) : ["All is as it was given, in full."];
  if (last.isCanceled) {
    words.push("The trade is canceled: it takes another reference.");
    propose(opened.atHand());
  }
  say(told, given.value === "" || last.isCanceled ? "note" : "good",
    [`${version.title} of ${version.reference} was taken into the ticket`, ...words]);
  form.elements[given.value === "" ? "value" : "par"].focus();
}

function basisChanged() {
  const basis = form.elements.basis.value;
  form.elements.value.dataset.form = basis;
  form.querySelector("label[for=ticket-value]").textContent = VALUES[basis];
}

function clear() {
  form.reset();
  for (const field of form.querySelectorAll("input")) unmark(field);
  basisChanged();
  stale();
  hush(told);
  propose(opened.atHand());
  form.elements.cusip.focus();
}

export function quoteIssue(cusip) {
  fill({ cusip, issue: "" });
  form.elements.par.focus();
}

// A reference that is proposed is typed over.
function chooseProposed({ target }) {
  setTimeout(() => target.value === proposed && document.activeElement === target && target.select());
}

function changed({ target: { name } }) {
  if (name === "basis") basisChanged();
  // The number belongs to the trade whose last version was seen, and that of terms to their issue.
  if (name === "reference") form.elements.number.value = "";
  if (name === "cusip") form.elements.issue.value = "";
  if (!["reference", "number"].includes(name)) stale();
}

// `opened` has the desk at hand, which is asked for if none is open or not; what shows a trade in the list; and what
// goes to a new issue.
export function startTicket(given) {
  opened = given;
  dress(form);
  basisChanged();
  form.addEventListener("input", changed);
  form.addEventListener("submit", event => {
    event.preventDefault();
    once(() => quote(buttons))();
  });
  form.elements.reference.addEventListener("focus", chooseProposed);
  $("ticket-curve").addEventListener("click", once(() => curve(buttons)));
  $("ticket-enter").addEventListener("click", once(enter));
  $("ticket-correct").addEventListener("click", once(correct));
  $("ticket-cancel").addEventListener("click", once(cancel));
  $("ticket-clear").addEventListener("click", clear);
  startCurve(once(() => curve(buttons)));
}
