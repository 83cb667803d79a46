// A file of figures that another firm printed: a row for each trade, below a line with the names of the columns.
import { readCsv } from "./csv.js";
import { FORMS } from "./fields.js";

const NEEDED = ["cusip", "par", "settle", "basis", "value"];
const TERMS = ["kind", "dated", "first", "maturity", "coupon", "calls", "day_count"];
// In the order in which the desk counts them.
export const COLUMNS = ["reference", "cusip", "side", "par", "settle", "basis", "value", "fee", "price", "yield",
  "redemption", "days", "principal", "accrued", "total", ...TERMS];
// The command of the program takes more.
export const MOST = 10_000;

const twice = names => [...new Set(names.filter((name, place) => names.indexOf(name) < place))];
// What parts the fields of a file that has no commas, or "".
const partsOf = ([name, ...more]) => !more.length && [[";", "semicolons"], ["\t", "tabs"]]
  .find(([sign]) => name.split(sign).some(each => COLUMNS.includes(each.trim())) && name.includes(sign))?.[1];
const named = names => names.map(name => name === "" ? "one without a name" : name).join(", ");

// What is wrong with a file whatever its rows say, or null.
function faultOf(names, rows) {
  const parts = partsOf(names);
  if (parts) {
    return [`Its fields are parted by ${parts}, and a check takes commas`,
      "What to do: save it as CSV that is parted by commas, with a point in decimals. A spreadsheet has this among " +
      "the options of its export, or in its language."];
  }
  const unknown = names.filter(name => !COLUMNS.includes(name));
  if (unknown.length) {
    return [`Columns that are unknown: ${named(unknown)}`, `Known are ${COLUMNS.join(", ")}, in any order.`,
      "What to do: name the columns so in the first line, and leave the others out."];
  }
  const again = twice(names);
  if (again.length) return [`Columns that are named twice: ${named(again)}`, "What to do: leave one of each out."];
  if (!rows.length) return ["No row follows the first line", "What to do: choose a file with a line for each trade."];
  if (rows.length > MOST) {
    return [`It has ${rows.length} rows, and the page takes ${MOST}`,
      "What to do: send it in parts, or give it to the command `muni check`, which takes any number."];
  }
  return null;
}

// A row by the names of its columns. One with more or fewer fields has none, and says how many it has.
function rowOf(fields, names, place) {
  const isWhole = fields.length === names.length;
  const texts = Object.fromEntries(isWhole ? names.map((name, at) => [name, fields[at]]) : []);
  const reference = FORMS.reference.takes(texts.reference ?? "") ? texts.reference : "";
  return { place, reference, texts, isWhole, count: fields.length };
}

// The rows, each with the place of the first one of its reference.
function withFirsts(rows) {
  const firsts = new Map();
  for (const { reference, place } of rows) if (reference && !firsts.has(reference)) firsts.set(reference, place);
  return rows.map(row => ({ ...row, first: firsts.get(row.reference) ?? row.place }));
}

// The columns and the rows of a file, or what is wrong with it. Places count from 1.
export function readPrinted(text) {
  const [names, ...records] = readCsv(text);
  if (!names) return { fault: ["The file is empty", "What to do: choose one whose first line names the columns."] };
  const fault = faultOf(names, records);
  if (fault) return { fault };
  return { names, rows: withFirsts(records.map((fields, place) => rowOf(fields, names, place + 1))) };
}

// Whether what was traded can only be looked up by the references.
export function needsDesk(names) {
  const isThere = name => names.includes(name) || (name === "cusip" && names.includes("kind"));
  return names.includes("reference") && !NEEDED.every(isThere);
}

// What stands in no field that reads is sent as a question mark, so that nothing of a body has to be escaped.
const plain = text => text.replace(/[^ !#-[\]-~]/g, "?");

// The body that asks for a row. It names every column, so that a fault tells which one by its place.
export function bodyOf({ texts }, desk) {
  const members = COLUMNS.map(name => [name, plain(texts[name] ?? "")]);
  return { ...desk && { desk }, ...Object.fromEntries(members) };
}

// The body that has the desk tell on which day the row is redeemed: no issue is redeemed on this one.
export const bodyOfDay = (row, desk) => {
  const { price, yield: yields, days, principal, accrued, total, ...rest } = row.texts;
  return bodyOf({ texts: { ...rest, redemption: "1900-01-01" } }, desk);
};
