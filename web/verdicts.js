// What is said of a row of another firm's figures: what it is, and what to say to that firm.
import { COLUMNS } from "./printed.js";
import { REFUSALS } from "./refusals.js";
import { scaled } from "./texts.js";

export const FIGURES = { price: "Price", yield: "Yield", redemption: "Redemption", days: "Days accrued",
  principal: "Principal", accrued: "Accrued interest", total: "Total" };
// What a row states of a trade that is kept, and of the terms by which it was figured.
const TRADED = { cusip: "CUSIP", side: "Side", par: "Par", settle: "Settlement", basis: "Basis", value: "Value",
  fee: "Commission" };
const TERMS = { kind: "Kind", dated: "Dated date", first: "First interest date", maturity: "Maturity",
  coupon: "Coupon", calls: "Calls", day_count: "Day count" };
// In this order the rows are shown.
export const ORDER = ["differs", "undecided", "refused", "missing", "bad", "again", "nothing", "right"];

// At a given yield the price follows from the redemption, and with it the money.
const DECIDED = { yield: "yield", price: "price", principal: "price", total: "price" };

// What a redemption does that another than theirs has: it gives a lower figure, as a rule.
function decides({ column, ours, theirs }) {
  const figure = DECIDED[column];
  return figure && scaled(ours, 3) < scaled(theirs, 3) ? `gives the lower ${figure}` : "decides";
}

function redeemed(what, found) {
  const day = found.column === "redemption" ? found.ours : found.day;
  return day ? `the ${what} on ${day} ${decides(found)}` : `another redemption ${decides(found)}`;
}

// The formula by which their figure comes out, and what is said of it.
export const READINGS = {
  MATURITY: ["priced to maturity alone", found => `You price to maturity; ${redeemed("call", found)}.`],
  "FIRST CALL": ["priced to the first call alone",
    found => `You price to the first call; ${redeemed("redemption", found)}.`],
  ROUNDED: ["the price is rounded", () => "You round the price to three decimals; Rule G-33 cuts it off there."],
  COMPOUNDED: ["the one payment left is compounded",
    () => "You compound one last payment; with six months or less to redemption interest is simple."],
  FEBRUARY: ["days with a rule for the end of February",
    () => "You count the end of February as a 30th; the 30/360 of municipal securities has no such rule."],
  GROSS: ["the yield leaves the commission out",
    () => "You leave the commission out of the yield; the yield of the customer has it in."],
  REGULAR: ["the odd first coupon is taken for a regular one",
    () => "You take an odd first coupon for a regular one; interest accrues from the dated date."],
};
const UNREAD = ["no formula that is known",
  ({ column }) => `No formula that we know gives your ${FIGURES[column].toLowerCase()}; how do you compute it?`];

// The readings of which the day of the redemption is told.
export const needsDay = ({ reading, column }) =>
  ["MATURITY", "FIRST CALL"].includes(reading) && column !== "redemption";

function ofBad({ row, kind, number }) {
  if (!row.isWhole) {
    return ["", `another count of fields than the first line has: ${row.count}`,
      "The row is not whole; send it again."];
  }
  const name = kind === "2" ? COLUMNS[number - 1] : "";
  if (!name) return ["", "what it needs is not stated", "The row lacks what was traded; send it again."];
  const text = row.texts[name] ?? "";
  const shown = text.length > 40 ? text.slice(0, 40) + "..." : text;
  return text === "" ? [name, `no ${name} is stated`, `The row has no ${name}; send it again.`]
    : [name, `${name} does not read: ${shown}`, `We cannot read ${name} of the row; send it again.`];
}

const UNKNOWN = ["", "a refusal that this page does not know", "ask whoever runs the desk"];
const sentence = words => words[0].toUpperCase() + words.slice(1) + ".";

// What is not that of the trade that is kept: the words of each firm, of which calls may be none.
function ofTrade({ column, ours, theirs }) {
  const isTerm = column in TERMS;
  const name = (isTerm ? TERMS : TRADED)[column];
  const lower = column === "cusip" ? name : name.toLowerCase();
  return [name, isTerm ? "not the terms of the trade that is kept" : "not that of the trade that is kept",
    `For ${lower} we have ${ours || "none"} and you have ${theirs || "none"}; ` +
    `compare ${isTerm ? "the terms" : "the tickets"}.`];
}

const WORDS = {
  differs: found => {
    if (!(found.column in FIGURES)) return ofTrade(found);
    const [what, say] = READINGS[found.reading] ?? UNREAD;
    return [FIGURES[found.column], what, say(found)];
  },
  undecided: ({ column }) => [FIGURES[column], "undecided: the exact one lies at the boundary of two printed ones",
    `Two printed figures are possible for the ${column}, and yours may be one; agree on one.`],
  refused: ({ number }) => {
    const [, means, todo] = REFUSALS[number] ?? UNKNOWN;
    return ["", `no figures: ${means}`, sentence(typeof todo === "string" ? todo : todo.trade)];
  },
  missing: ({ row }) => row.place
    ? ["", "no live trade is kept under this reference", "We have no trade of this reference; send us its terms."]
    : ["", "a live trade of the desk for which no row came", "Send us your figures of this trade."],
  bad: ofBad,
  again: ({ first }) => ["", `its reference came before, in row ${first}`,
    `The reference stands in row ${first} too; send one row of each trade.`],
  nothing: () => ["", "nothing is stated that could be right", "The row states no figure; send us yours of this trade."],
  right: () => ["", "", ""],
};

// The figure that is spoken of, what it is, and what to say.
export const wordsOf = found => WORDS[found.verdict](found);
