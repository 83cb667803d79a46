// An issue with its call schedule: a new one, or one that is kept and is amended.
import { changesOfTerms } from "./amendments.js";
import { ask } from "./ask.js";
import { $, element } from "./dom.js";
import { digitWords, dress, dressField, FORMS, mark, read, unmark } from "./fields.js";
import { sure } from "./sure.js";
import { readTerms } from "./texts.js";
import { FAULTS, hush, hushGood, refuseNew, say, tellSent, waitingIn } from "./tell.js";

const form = $("issue");
const told = $("issue-told");
const body = form.querySelector("tbody");
const MOST = 40;
// When a call holds: what it is in words, and the mark that stands after its price when it is sent.
const KINDS = [["on this day", ""], ["on or after this day", "+"], ["called (certain)", "!"]];
const CERTAIN = "!";
const NAMES = ["cusip", "name", "kind", "dated", "first", "maturity", "coupon", "days"];
let isBusy = false;
let quoteIssue = null;
let findTrades = null;
// All terms that were read, in the order of their numbers.
let kept = [];

const hasCalls = () => ["periodic", "zero"].includes(form.elements.kind.value);

function callField(number, name, word, kind) {
  const field = element("input", "", "figure", { id: `issue-call-${number}-${name}`, autocomplete: "off" });
  field.dataset.form = kind;
  field.setAttribute("aria-label", `${word} of call ${number}`);
  return field;
}

// A call is as the one before it, and the first as most bonds are callable.
function kindField(number, before) {
  const field = element("select", "", "", { id: `issue-call-${number}-kind` });
  field.append(...KINDS.map(([words, value]) => element("option", words, "", { value })));
  field.value = before && kindOf(before).value !== CERTAIN ? kindOf(before).value : "+";
  field.setAttribute("aria-label", `When call ${number} holds`);
  return field;
}

function addCall() {
  const number = body.rows.length + 1;
  if (number > MOST) return;
  const kind = kindField(number, body.rows[number - 2]);
  const row = body.insertRow();
  row.append(element("th", number, "", { scope: "row" }));
  for (const field of [callField(number, "date", "Date", "day"), callField(number, "price", "Price", "price")]) {
    row.insertCell().append(field);
    dressField(field);
  }
  row.insertCell().append(kind);
  dressField(kind);
}

const fieldsOf = row => [...row.querySelectorAll("input")];
const kindOf = row => row.querySelector("select");
const isFilled = row => fieldsOf(row).some(field => field.value.trim() !== "");

function growCalls() {
  if (!body.rows.length || isFilled(body.rows[body.rows.length - 1])) addCall();
}

// A schedule that is pasted: a date and a price in turn, with anything of blanks, commas and the like between. If a
// price has a mark, those without one are calls on their day alone; if none has, the choices stay.
function pasteCalls(event) {
  const pasted = event.clipboardData.getData("text").split(/[\s,;:|]+/).filter(Boolean);
  const flat = () => [...body.querySelectorAll("input")];
  const from = flat().indexOf(event.target);
  if (pasted.length < 2 || from < 0) return;
  event.preventDefault();
  const count = Math.ceil((from + pasted.length) / 2);
  if (count > MOST) {
    const words = `It would make ${count} calls, and an issue has ${MOST} at most.`;
    say(told, "bad", ["The schedule was not pasted", words]);
    return;
  }
  const isMarked = pasted.some(word => /[+!]$/.test(word));
  pasted.forEach((word, place) => {
    growCalls();
    const field = flat()[from + place];
    const [, text, marked] = word.match(/^(.*?)([+!]?)$/);
    field.value = text;
    if (isMarked && field.dataset.form === "price") kindOf(field.closest("tr")).value = marked;
  });
  growCalls();
}

// What is said of a price with a mark, which is chosen beside it.
function markWords({ value, dataset }) {
  const [, price, kept] = value.match(/^(.*\d)\s*([+!])$/) ?? [];
  if (dataset.form !== "price" || !kept) return "";
  return `Type ${price} alone, and choose "${KINDS.find(([, sign]) => sign === kept)[0]}" beside it.`;
}

function readCalls() {
  const calls = [];
  let first = null;
  for (const row of body.rows) {
    if (!isFilled(row)) continue;
    const [date, price] = fieldsOf(row);
    for (const field of [date, price]) {
      unmark(field);
      field.value = field.value.trim();
      const rule = FORMS[field.dataset.form];
      if (rule.takes(field.value)) continue;
      mark(field, markWords(field) || `Not of its form: ${rule.words}.`);
      first ??= field;
    }
    const kind = kindOf(row);
    unmark(kind);
    calls.push({ date: date.value, price: price.value, mark: kind.value });
  }
  first?.focus();
  return first ? null : calls;
}

// The fields that a kind has not are left out of what is sent; what was typed in them stays.
function kindChanged() {
  const kind = form.elements.kind.value;
  for (const field of form.querySelectorAll("[data-kinds]")) {
    field.disabled = !field.dataset.kinds.split(" ").includes(kind);
    field.closest(".field").classList.toggle("off", field.disabled);
  }
  $("issue-calls").disabled = !hasCalls();
}

// The terms in words, as a question shows them.
const words = {
  label: name => form.elements[name].labels[0].textContent,
  value: (name, value) => [...form.elements[name].options ?? []].find(each => each.value === value)?.textContent ??
    (value || "none"),
  call: call => call ? `${call.date} at ${call.price}, ${KINDS.find(([, value]) => value === call.mark)[0]}` : "none",
};

function markFault(answer) {
  const [number, day] = answer.rest.split(" ");
  const [, name] = FAULTS[number] ?? [];
  const digit = number === "1" && digitWords(form.elements.cusip.value);
  const words = digit || `Test ${number} fails: see below.`;
  if (name && name !== "calls") mark(form.elements[name], words);
  if (name !== "calls") return;
  if (number === "12") {
    const certain = [...body.rows].find(each => kindOf(each).value === CERTAIN);
    if (certain) mark(kindOf(certain), words);
    return;
  }
  const row = [...body.rows].find(each => fieldsOf(each)[0].value === day);
  if (row) mark(fieldsOf(row)[number === "8" ? 1 : 0], words);
}

// The terms that are typed with their calls, or null if one has not its form.
function typedTerms() {
  const terms = read(form, NAMES);
  const calls = hasCalls() ? readCalls() : [];
  return terms && calls && { terms, calls };
}

// Sends what is typed. Says what came, and what of it if it is kept, with what may be done then.
async function send(path, { terms, calls }, more, what, ...ways) {
  const body = { ...terms, ...more };
  if (calls.length) body.calls = calls.map(({ date, price, mark: kind }) => ({ date, price: price + kind }));
  hush(told);
  const answer = await ask(path, body, waitingIn(told));
  if (answer.kind !== "done") {
    refuseNew(told, answer, "An issue", path === "/issues" ? "added" : "amended");
    if (answer.number === 4) markFault(answer);
    return;
  }
  offer([]);
  const toQuote = ["Quote it", () => quoteIssue(terms.cusip)];
  say(told, "good", [answer.text.trim(), ...tellSent(answer), what], toQuote, ...ways);
}

async function add() {
  const typed = typedTerms();
  if (!typed) return;
  const rows = Object.entries(typed.terms).map(([name, value]) => [words.label(name), words.value(name, value)]);
  rows.push(...typed.calls.map((call, place) => [`Call ${place + 1}`, words.call(call)]));
  if (await sure("Add this issue? It is never removed.", rows, "Add issue")) {
    await send("/issues", typed, {}, "It is kept with these terms.");
  }
}

// All terms that are kept of a CUSIP, or null. What else comes is told.
async function keptOf(cusip) {
  hush(told);
  const answer = await ask(`/issues/${cusip}`, null, waitingIn(told));
  if (answer.kind !== "done") {
    refuseNew(told, answer, "Terms of an issue");
    return null;
  }
  hush(told);
  return readTerms(answer.text);
}

async function amend() {
  const typed = typedTerms();
  const found = typed && await keptOf(typed.terms.cusip);
  if (!found) return;
  const { cusip } = typed.terms;
  const rows = changesOfTerms(found.at(-1), typed, words);
  if (!rows.length) {
    say(told, "note", ["Nothing was amended", `These are the last terms of ${cusip}, which are kept under number ` +
      `${found.length}.`]);
    return;
  }
  const title = `Amend ${cusip}? What was traded stays as it is: it was figured by the terms of before.`;
  if (await sure(title, rows, "Amend issue", { head: ["", "Now", "Then"] })) {
    await send("/amendments", typed, { number: String(found.length + 1) },
      "Quotes and new trades go by these terms. A trade of before is figured by them once it is corrected.",
      ["Trades that it touches", () => findTrades(cusip)]);
  }
}

// Puts terms and calls into the form, in the place of all that is there.
function fill(terms, calls) {
  form.reset();
  body.replaceChildren();
  for (const [name, value] of Object.entries(terms)) form.elements[name].value = value;
  for (const { date, price, mark: kept } of calls) {
    addCall();
    const row = body.rows[body.rows.length - 1];
    fieldsOf(row).forEach((field, place) => { field.value = [date, price][place]; });
    kindOf(row).value = kept;
  }
  growCalls();
  kindChanged();
  for (const field of form.querySelectorAll("input, select")) unmark(field);
}

function clear() {
  fill({}, []);
  offer([]);
  hush(told);
  form.elements.cusip.focus();
}

// Offers the numbers of the terms that were read, if there are several.
function offer(found) {
  kept = found;
  $("issue-numbers").hidden = kept.length < 2;
  $("issue-terms").replaceChildren(...kept.map((_, place) => element("option", String(place + 1))));
}

// Puts the terms with a number into the form.
function show(number) {
  const { terms, calls } = kept[number - 1];
  fill(terms, calls);
  $("issue-terms").value = number;
  const which = number === kept.length ? `Number ${number}, the last ones.`
    : `Number ${number} of ${kept.length}: not those by which quotes and new trades go.`;
  say(told, "good", [`These are the terms that are kept of ${terms.cusip}`, which],
    ["Quote it", () => quoteIssue(terms.cusip)]);
}

// Reads the terms that are kept of the CUSIP into the form, the last ones first.
async function readKept() {
  const typed = read(form, ["cusip"]);
  const found = typed && await keptOf(typed.cusip);
  if (!found) return;
  offer(found);
  show(found.length);
}

// One request at a time.
async function alone(does) {
  if (isBusy) return;
  isBusy = true;
  try {
    await does();
  } finally {
    isBusy = false;
  }
}

// Goes to the form. A CUSIP that is missing is filled in, but none that was typed is lost.
export function goToIssue(cusip) {
  if (form.elements.cusip.value === "") form.elements.cusip.value = cusip;
  form.elements.cusip.focus();
}

// What quotes an issue, and what finds the trades that an amendment touches.
export function startIssue(quote, find) {
  quoteIssue = quote;
  findTrades = find;
  dress(form);
  growCalls();
  kindChanged();
  form.addEventListener("input", ({ target }) => {
    hushGood(told);
    if (target.name === "cusip") offer([]);
  });
  form.elements.kind.addEventListener("change", kindChanged);
  body.addEventListener("input", growCalls);
  body.addEventListener("paste", pasteCalls);
  $("issue-read").addEventListener("click", () => alone(readKept));
  $("issue-amend").addEventListener("click", () => alone(amend));
  $("issue-terms").addEventListener("change", ({ target }) => show(Number(target.value)));
  $("issue-clear").addEventListener("click", clear);
  form.addEventListener("submit", event => {
    event.preventDefault();
    alone(add);
  });
}
