// What a list of the desk does not tell of a trade: side, CUSIP, settlement and total, which its confirmation has.
import { ask } from "./ask.js";
import { readConfirmation, split } from "./texts.js";

// A version is never changed, so one that was read is known.
const known = new Map();
const keyOf = (desk, { reference, number }) => `${desk} ${reference} ${number}`;

// What the list would tell of a confirmation, and the rest.
function lineOf(confirmation) {
  const { lines, reference, number, par } = confirmation;
  const [price, yields] = ["PRICE", "YIELD"].map(name => split(lines.get(name))[0]);
  return {
    reference, number: String(number), state: confirmation.isCanceled ? "CANCELED" : "LIVE", par, price, yields,
    side: confirmation.side === "sell" ? "sold" : "bought",
    cusip: lines.get("CUSIP"), settle: lines.get("SETTLEMENT"), total: lines.get("TOTAL"), confirmation,
  };
}

// The line of a trade with the rest, which is of a later version if one has come since; or the line as it is.
export async function detailed(desk, line) {
  const found = known.get(keyOf(desk, line));
  if (found) return found;
  const answer = await ask(`/trades/${desk}/${line.reference}`);
  if (answer.kind !== "done") return line;
  const read = lineOf(readConfirmation(answer.text));
  known.set(keyOf(desk, read), read);
  return read;
}
