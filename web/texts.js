// The lines of the desk's texts, and numbers as texts. Nothing is rounded here: figures stay the desk's.
import { readCsv } from "./csv.js";

const NAMES = [
  "CORRECTED CONFIRMATION", "CANCELED CONFIRMATION", "CONFIRMATION", "DESK", "REFERENCE", "BOUGHT", "SOLD",
  "CUSIP", "ISSUE", "COUPON", "DATED", "MATURITY", "BASIS", "SETTLEMENT", "PRICE", "YIELD", "RATE", "REDEMPTION",
  "ACCRUED DAYS", "ACCRUED", "PRINCIPAL", "COMMISSION", "TOTAL",
];

// The lines by their names. A name may have a blank, as ACCRUED DAYS beside ACCRUED: the longer one comes first.
export function readLines(text) {
  const lines = new Map();
  for (const line of text.split("\n").slice(0, -1)) {
    const name = NAMES.find(each => line.startsWith(each + " "));
    if (name) lines.set(name, line.slice(name.length + 1));
  }
  return lines;
}

export function readConfirmation(text) {
  const lines = readLines(text);
  const act = [...lines.keys()][0];
  const number = Number(lines.get(act));
  return {
    act, number, lines,
    title: `${act} ${number}`,
    desk: lines.get("DESK"),
    reference: lines.get("REFERENCE"),
    side: lines.has("SOLD") ? "sell" : "buy",
    par: lines.get("SOLD") ?? lines.get("BOUGHT"),
    isCanceled: act.startsWith("CANCELED"),
  };
}

// A page of a list has so many trades if it is full.
export const PAGE = 50;

export function readList(text) {
  return text.split("\n").slice(0, -1).map(line => {
    const [reference, number, state, par, price, yields] = line.split(" ");
    return { reference, number, state, par, price, yields };
  });
}

export function readPositions(text) {
  return text.split("\n").slice(0, -1).map(line => line.split(" "));
}

const plain = (text, places) => unscaled(scaled(text, places), places);

// All terms of an issue in the order of their numbers, from 1 on: each by the names of the fields, and its calls.
// Decimals have no zeros at the end, as they are typed. `columns` are the terms as a check takes them.
export function readTerms(rows) {
  return readCsv(rows).map(([row, cusip, ...fields]) => {
    const [name, kind, dated, first, maturity, coupon, calls, days] = row === "amend" ? fields.slice(1) : fields;
    return {
      terms: { cusip, name, kind, dated, first, maturity, days, coupon: Number(coupon) ? plain(coupon, 7) : "" },
      calls: [...calls.matchAll(/(\S+):([\d.]+)([+!]?)/g)]
        .map(([, date, price, mark]) => ({ date, price: plain(price, 6), mark })),
      columns: { kind, dated, first, maturity, coupon, calls, day_count: days },
    };
  });
}

const EACH = /^EACH (\S+) ([\d.]+) (MATURITY|PAR OPTION|CALLED|CALL) (?:(?:PRICE|YIELD) (-?[\d.]+)|(.+))$/;

// The redemptions that may come, if the lines have them: each with its figure, or the reason why it has none.
export function readEach(text) {
  return text.split("\n").map(line => line.match(EACH)).filter(Boolean)
    .map(([, day, price, label, figure = "", reason = ""]) => ({ day, price, label, figure, reason }));
}

const RISK = /^(CURRENT YIELD|DURATION|CONVEXITY|DV01) ([\d.]+)$/;

// How the price moves with the yield, if the lines have it: names and numbers, in their order.
export function readRisk(text) {
  return text.split("\n").map(line => line.match(RISK)).filter(Boolean).map(([, name, value]) => [name, value]);
}

// What is said of a row of another firm's figures. A place that counts columns is that of a file with all of them.
export function readVerdict(text) {
  const [, verdict, ...rest] = text.trim().split(",");
  switch (verdict) {
    case "differs": {
      const [column, ours, theirs, reading = ""] = rest;
      return { verdict, column, ours, theirs, reading };
    }
    case "undecided": return { verdict, column: rest[0] };
    case "refused": return { verdict, number: rest[0], name: rest[1] };
    case "bad": return { verdict, kind: rest[0], number: rest[1] };
    default: return { verdict };
  }
}

// `104.250 GIVEN` in two.
export function split(value) {
  const at = value.indexOf(" ");
  return at < 0 ? [value, ""] : [value.slice(0, at), value.slice(at + 1)];
}

// 26062.50 as 26,062.50.
export function grouped(text) {
  const [whole, rest] = text.split(".");
  return whole.replace(/\B(?=(\d{3})+$)/g, ",") + (rest === undefined ? "" : "." + rest);
}

// A decimal in units of 10^-places, exactly.
export function scaled(text, places) {
  const [, sign, whole, rest = ""] = text.match(/^(-?)(\d+)(?:\.(\d+))?$/);
  const units = BigInt(whole + rest.padEnd(places, "0"));
  return sign ? -units : units;
}

export function unscaled(units, places) {
  const digits = String(units < 0n ? -units : units).padStart(places + 1, "0");
  const rest = digits.slice(-places).replace(/0+$/, "");
  return (units < 0n ? "-" : "") + digits.slice(0, -places) + (rest && "." + rest);
}

// The price that counts for the yield: a buyer pays the commission, and a seller bears it.
export function netPrice(price, fee, side) {
  const cost = scaled(fee, 6);
  return unscaled(scaled(price, 6) + (side === "buy" ? cost : -cost), 6);
}
