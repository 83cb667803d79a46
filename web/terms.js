// The terms of issues by their numbers: those that are kept, those by which a version stands, and figures by each.
import { ask, eachOf } from "./ask.js";
import { givenOf, termsSent } from "./given.js";
import { readTerms, readVerdict, scaled } from "./texts.js";

// The figures that a check compares, each with its line and a value that no trade has.
const FIGURES = [["price", "PRICE", "0"], ["yield", "YIELD", "-90"], ["redemption", "REDEMPTION", "1900-01-01"],
  ["days", "ACCRUED DAYS", "999"], ["principal", "PRINCIPAL", "0"], ["accrued", "ACCRUED", "999999999999.99"],
  ["total", "TOTAL", "0"]];
// Numbers that were found, by desk, reference and version. A version never changes its terms, and a cancel has those
// of the version before.
const found = new Map();
const keyOf = ({ desk, reference, number, isCanceled }) => `${desk} ${reference} ${number - (isCanceled ? 1 : 0)}`;

// All terms that are kept of an issue, in the order of their numbers, or the answer that has none.
export async function keptTerms(cusip, waiting) {
  const answer = await ask(`/issues/${cusip}`, null, waiting);
  return answer.kind === "done" ? { terms: readTerms(answer.text) } : { answer };
}

async function verdictOf(body) {
  const answer = await ask("/checks", body);
  return answer.kind === "done" ? readVerdict(answer.text) : { answer };
}

// The figures of a trade by terms, as a confirmation has them, with its commission. Gives the answer or the refusal
// instead if there are none.
export async function figuresBy({ columns }, { par, settle, basis, value, side, fee = "" }) {
  const body = { side, par, settle, basis, value, fee, ...columns };
  const said = await eachOf(FIGURES, ([name, , probe]) => verdictOf({ ...body, [name]: probe }), () => true);
  const lines = new Map();
  for (const [place, { answer, verdict, number, name, ours }] of said.entries()) {
    if (answer) return { answer };
    if (verdict === "refused") {
      const text = `REFUSED ${number} ${name}\n`;
      return { answer: { kind: "refused", text, number: Number(number), name, rest: "" } };
    }
    const [, line, probe] = FIGURES[place];
    if (verdict === "differs") lines.set(line, ours);
    else if (verdict === "right") lines.set(line, probe);
    else return { answer: { kind: "status", status: 0, text: "" } };
  }
  return { lines };
}

// Whether a confirmation names what terms have.
const isNamed = (lines, { terms }) => terms.name === lines.get("ISSUE") && terms.dated === lines.get("DATED") &&
  terms.maturity === lines.get("MATURITY") && (terms.days === "actual/365") === lines.has("BASIS") &&
  scaled(terms.coupon || "0", 7) === scaled(lines.get("COUPON"), 7);

// What the desk is asked about a version, or null: the last one is looked up, and of another what was given is known
// or is not.
function bodyOf(confirmation, isLast) {
  const { desk, reference, side, par, lines } = confirmation;
  const figures = Object.fromEntries(FIGURES.map(([name, line]) => [name, lines.get(line).split(" ")[0]]));
  if (isLast && !confirmation.isCanceled) return { desk, reference, ...figures };
  const given = givenOf(confirmation);
  return given.value === "" ? null : { side, par, settle: lines.get("SETTLEMENT"), ...given, ...figures };
}

// The numbers of the terms by which a version has its figures. There are none if that cannot be told.
async function numbersOf(confirmation, kept, isLast) {
  const known = found.get(keyOf(confirmation)) ?? Number(termsSent(confirmation));
  if (known) return [known];
  const numbers = kept.map((_, place) => place + 1).filter(number => isNamed(confirmation.lines, kept[number - 1]));
  if (numbers.length < 2) return numbers;
  const body = bodyOf(confirmation, isLast);
  if (!body) return [];
  const said = await eachOf(numbers, number => verdictOf({ ...body, ...kept[number - 1].columns }), () => true);
  if (!said.every(({ verdict }) => ["right", "differs"].includes(verdict))) return [];
  return numbers.filter((_, place) => said[place].verdict === "right");
}

// By which numbers a version stands, and how many are kept. Terms that are read have to be read after the version.
export async function standing(confirmation, isLast, read = keptTerms) {
  const { terms } = await read(confirmation.lines.get("CUSIP"));
  if (!terms) return { numbers: [], of: 0 };
  const numbers = await numbersOf(confirmation, terms, isLast);
  if (numbers.length === 1) found.set(keyOf(confirmation), numbers[0]);
  return { numbers, of: terms.length };
}

// Reads the terms of each issue once.
export function readingOnce() {
  const asked = new Map();
  return cusip => {
    if (!asked.has(cusip)) asked.set(cusip, keptTerms(cusip));
    return asked.get(cusip);
  };
}

// Whether all terms by which a version may stand were amended since.
export const isEarlier = ({ numbers, of }) => numbers.length > 0 && !numbers.includes(of);

export function termsWords({ numbers, of }) {
  if (!numbers.length) return "not known";
  if (numbers.length > 1) return `number ${numbers.join(" or ")}, with the same figures`;
  if (of === 1) return "number 1";
  return numbers[0] === of ? `number ${of}, the last` : `number ${numbers[0]} of ${of}, amended since`;
}

// The same in a cell.
export function termsShort({ numbers, of }) {
  if (!numbers.length) return "?";
  return numbers.join(" or ") + (numbers.includes(of) ? "" : ` of ${of}`);
}
