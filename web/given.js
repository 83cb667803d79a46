// What was given for a trade. A confirmation may print it rounded: in full it is known of what this window sent alone.
import { grouped, scaled, split } from "./texts.js";

// What this window sent and the desk kept, by desk, reference and number. `terms` is the number of terms that was sent.
const sent = new Map();
const keyOf = (desk, reference, number) => `${desk} ${reference} ${number}`;
const LINES = { price: "PRICE", yield: "YIELD", rate: "RATE" };

export const isNone = fee => !fee || scaled(fee, 3) === 0n;

export function remember(confirmation, typed, terms) {
  const key = keyOf(confirmation.desk, confirmation.reference, confirmation.number);
  sent.set(key, { ...typed, terms: terms || sent.get(key)?.terms });
}

// A cancel has what was given for the version before.
const sentOf = ({ desk, reference, number, isCanceled }) =>
  sent.get(keyOf(desk, reference, number - (isCanceled ? 1 : 0)));

// What was given, with an empty value if it is not known in full: as this window sent it, or a discount rate, which
// is printed in full.
export function givenOf(confirmation) {
  const { lines } = confirmation;
  const typed = sentOf(confirmation);
  if (typed) return { basis: typed.basis, value: typed.value, fee: typed.fee ?? "" };
  if (lines.has("RATE")) return { basis: "rate", value: split(lines.get("RATE"))[0], fee: "" };
  return { basis: lines.get("PRICE").endsWith(" GIVEN") ? "price" : "yield", value: "", fee: "" };
}

// The number of terms that was typed for a version in this window, and the one that was sent, or "".
export const termsTyped = confirmation => sentOf(confirmation)?.issue ?? "";
export const termsSent = confirmation => sentOf(confirmation)?.terms ?? "";

export const printedOf = (basis, lines) => split(lines.get(LINES[basis]))[0];

// What a confirmation does not tell in full.
export function missingWords(basis, lines) {
  const printed = printedOf(basis, lines);
  const words = [`Type the ${basis} in full: the confirmation prints ${printed}, which may be rounded, so it was not ` +
    "taken."];
  if (lines.has("COMMISSION")) {
    const dollars = grouped(lines.get("COMMISSION"));
    words.push(`Type the commission per 100 too: the confirmation has its dollars alone, ${dollars}.`);
  }
  return words;
}
