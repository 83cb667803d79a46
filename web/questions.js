// What is shown of a trade before it is entered, corrected or canceled.
import { givenOf, isNone, printedOf } from "./given.js";
import { grouped, scaled, split } from "./texts.js";

const WORDS = { price: "a price", yield: "a yield", rate: "a discount rate" };
export const wordsOf = (basis, value) => `${WORDS[basis]} of ${value}`;
const sideOf = side => side === "sell" ? "sold" : "bought";
const plain = par => grouped(String(BigInt(par)));

// What a commission is: per 100 if that is known, else the dollars that the confirmation has.
const feeWords = fee => isNone(fee) ? "none" : `${fee} per 100`;

const COMPARED = { PRICE: "Price per 100", YIELD: "Yield", RATE: "Discount rate", REDEMPTION: "Redemption",
  "ACCRUED DAYS": "Days accrued", PRINCIPAL: "Principal", ACCRUED: "Accrued interest", TOTAL: "Total" };
const PERCENT = ["YIELD", "RATE"];
const MONEY = ["PRINCIPAL", "ACCRUED", "TOTAL"];

function figureWords(name, lines) {
  const [value] = lines.get(name).split(" ");
  if (PERCENT.includes(name)) return `${value} %`;
  return MONEY.includes(name) ? grouped(value) : value;
}

// The figures that differ, each with what it is in one and in the other.
export function changesOfFigures(one, other) {
  return Object.entries(COMPARED).filter(([name]) => one.has(name) && other.has(name))
    .map(([name, label]) => [label, figureWords(name, one), figureWords(name, other)])
    .filter(([, now, then]) => now !== then);
}

const cents = units => `${units / 100n}.${String(units % 100n).padStart(2, "0")}`;

// The commission in cents: a half cent goes up.
const commission = ({ par, fee }) => (BigInt(par) * scaled(fee, 3) + 500n) / 1000n;

// The figures that a confirmation has to have, by a quote without the commission and one of the net price, or null if
// that is refused.
export function bookedOf(typed, lines, net) {
  if (isNone(typed.fee)) return lines;
  if (!net) return null;
  const cost = commission(typed);
  const total = scaled(lines.get("TOTAL"), 2) + (typed.side === "buy" ? cost : -cost);
  return new Map([...lines, ["YIELD", net.get("YIELD")], ["REDEMPTION", net.get("REDEMPTION")],
    ["TOTAL", cents(total)]]);
}

export function rowsOfTrade(confirmation) {
  const { lines } = confirmation;
  return [
    ["Desk", confirmation.desk],
    ["Reference", confirmation.reference],
    ["Last version", confirmation.title],
    [confirmation.side === "sell" ? "Sold" : "Bought", grouped(confirmation.par)],
    ["CUSIP", lines.get("CUSIP")],
    ["Name", lines.get("ISSUE")],
    ["Settlement", lines.get("SETTLEMENT")],
    ["Total", grouped(lines.get("TOTAL"))],
  ];
}

export function rowsOfEntry(typed, lines) {
  const [day, price, ...label] = lines.get("REDEMPTION").split(" ");
  const rows = [
    ["Desk", typed.desk],
    ["Reference", typed.reference],
    [typed.side === "sell" ? "Sells" : "Buys", plain(typed.par)],
    ["CUSIP", typed.cusip],
    ["Settlement", typed.settle],
    ["Given", wordsOf(typed.basis, typed.value)],
    ["Price per 100", split(lines.get("PRICE"))[0]],
    ["Yield", split(lines.get("YIELD"))[0] + " %"],
    ["Redemption", price ? `${day} at ${price}, ${label.join(" ").toLowerCase()}` : day],
    ["Total", grouped(lines.get("TOTAL"))],
  ];
  if (!isNone(typed.fee)) rows.push(["Commission", feeWords(typed.fee)]);
  return typed.issue ? [...rows, ["Terms of the issue", `number ${typed.issue}`]] : rows;
}

// Whether a commission per 100 makes these dollars, to the cent.
function makes(fee, par, dollars) {
  const off = BigInt(par) * scaled(fee || "0", 3) - 1000n * scaled(dollars, 2);
  return off < 1000n && off > -1000n;
}

function changeOfFee(last, given, typed) {
  const dollars = last.lines.get("COMMISSION");
  if (dollars && !given.value) {
    const now = `${grouped(dollars)} dollars`;
    return makes(typed.fee, last.par, dollars) ? [] : [["Commission", now, feeWords(typed.fee)]];
  }
  const isSame = scaled(given.fee || "0", 3) === scaled(typed.fee || "0", 3);
  return isSame ? [] : [["Commission", feeWords(given.fee), feeWords(typed.fee)]];
}

function changeOfGiven(last, given, typed) {
  const then = wordsOf(typed.basis, typed.value);
  if (!given.value) return [["Given", wordsOf(given.basis, printedOf(given.basis, last.lines)) + ", as printed", then]];
  const isSame = given.basis === typed.basis && scaled(given.value, 6) === scaled(typed.value, 6);
  return isSame ? [] : [["Given", wordsOf(given.basis, given.value), then]];
}

// A version is figured by the last terms if it names none, whatever the version before was figured by. Numbers of two
// issues are not compared.
function changeOfTerms(last, typed, { numbers }, number) {
  const isOther = last.lines.get("CUSIP") !== typed.cusip && !typed.issue;
  if (!number || isOther || numbers.map(String).includes(number)) return [];
  return [["Terms of the issue", numbers.length ? `number ${numbers.join(" or ")}` : "not known", `number ${number}`]];
}

// What a correction changes of the last version: each with what it is now and then. The version stands by some terms,
// and the correction goes by what is quoted.
export function changesOf(last, typed, stands, quoted) {
  const given = givenOf(last);
  const rows = [
    ["Side", sideOf(last.side), sideOf(typed.side)],
    ["Par", grouped(last.par), plain(typed.par)],
    ["CUSIP", last.lines.get("CUSIP"), typed.cusip],
    ["Settlement", last.lines.get("SETTLEMENT"), typed.settle],
  ].filter(([, now, then]) => now !== then);
  rows.push(...changeOfGiven(last, given, typed), ...changeOfFee(last, given, typed));
  rows.push(...changeOfTerms(last, typed, stands, quoted.number),
    ...changesOfFigures(last.lines, quoted.booked ?? quoted.lines));
  return rows;
}
