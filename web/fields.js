// What is typed: the form of each field. It is told before anything is sent, since the desk's 400 does not say
// which member is wrong.
import { $, element } from "./dom.js";
import { grouped, scaled } from "./texts.js";

function decimal(places, low, high, words) {
  const form = places ? new RegExp(`^-?\\d+(\\.\\d{1,${places}})?$`) : /^\d+$/;
  const [least, most] = [scaled(low, places), scaled(high, places)];
  return {
    words: `${words}, ${grouped(low)} to ${grouped(high)}` + (places ? `, with up to ${places} decimals` : ""),
    takes: text => form.test(text) && (low.startsWith("-") || !text.startsWith("-")) &&
      scaled(text, places) >= least && scaled(text, places) <= most,
  };
}

function isDay(text) {
  if (!/^\d{4}-\d\d-\d\d$/.test(text) || text < "1900-01-01" || text > "2199-12-31") return false;
  const day = new Date(text + "T00:00:00Z");
  return !Number.isNaN(day.getTime()) && day.toISOString().startsWith(text);
}

// The check digit of a CUSIP, if its first eight places have their form.
export function checkDigit(cusip) {
  if (!/^[0-9A-Z]{8}/.test(cusip)) return "";
  const sum = [...cusip.slice(0, 8)].reduce((total, sign, place) => {
    const value = parseInt(sign, 36) * (place % 2 ? 2 : 1);
    return total + Math.floor(value / 10) + value % 10;
  }, 0);
  return String((10 - sum % 10) % 10);
}

// What is said of a CUSIP whose check digit is another, or "".
export function digitWords(cusip) {
  const digit = checkDigit(cusip);
  if (digit === "" || cusip[8] === digit) return "";
  return `After ${cusip.slice(0, 8)} the check digit is ${digit}, and not ${cusip[8]}: look for a slip in all nine.`;
}

const letters = (form, words) => ({ words, takes: text => form.test(text) });

export const FORMS = {
  desk: letters(/^[A-Z0-9]{1,16}$/, "1 to 16 digits and capital letters"),
  reference: letters(/^[A-Za-z0-9]{1,20}$/, "1 to 20 digits and letters, in which capitals and small letters differ"),
  find: { words: "a reference of 1 to 20 digits and letters, or a day as 2024-04-03",
    takes: text => /^[A-Za-z0-9]{1,20}$/.test(text) || isDay(text) },
  cusip: letters(/^[0-9A-Z]{9}$/, "nine digits and capital letters"),
  name: letters(/^[ -~]{1,60}$/, "1 to 60 characters, without accents"),
  number: letters(/^[0-9]{1,9}$/, "the number after the version that you have seen, 1 to 9 digits"),
  terms: letters(/^[1-9][0-9]?$/, "the number of the terms of the issue that the trade is figured by, 1 to 99"),
  day: { words: "a day of the calendar as 2024-04-03, 1900-01-01 to 2199-12-31", takes: isDay },
  settle: { words: "a day of the calendar as 2024-04-03, from the dated date on and before maturity", takes: isDay },
  par: decimal(0, "1", "1000000000", "whole dollars"),
  price: decimal(6, "0", "999.999999", "dollars per 100 of par"),
  yield: decimal(4, "-99.9999", "999.9999", "percent"),
  rate: decimal(4, "-99.9999", "999.9999", "percent"),
  fee: decimal(3, "0", "10", "dollars per 100 of par, with a price alone"),
  coupon: decimal(7, "0", "30", "percent of par and year"),
};

// What a field stands for when it is sent: commas of a par and the hyphens of a day may be left to the page.
function cleaned(field) {
  const text = field.value.trim();
  switch (field.dataset.form) {
    case "cusip": case "desk": return text.toUpperCase();
    case "par": return /^\d{1,3}(,\d{3})+$/.test(text) ? text.replaceAll(",", "") : text;
    case "day": case "settle": return text.replace(/^(\d{4})(\d\d)(\d\d)$/, "$1-$2-$3");
    default: return text;
  }
}

const labelOf = field => field.labels?.[0]?.textContent ?? field.getAttribute("aria-label");

export function mark(field, words) {
  field.setAttribute("aria-invalid", "true");
  const wrong = $(field.id + "-wrong");
  if (wrong) wrong.textContent = words;
}

export function unmark(field) {
  field.removeAttribute("aria-invalid");
  const wrong = $(field.id + "-wrong");
  if (wrong) wrong.textContent = "";
}

// Each field has a text for what is wrong with it, and the form's line of help shows the form of the one at hand.
export function dress(form) {
  const help = form.querySelector(".help");
  const idle = help?.textContent;
  for (const field of form.querySelectorAll("input[data-form]")) dressField(field);
  form.addEventListener("focusin", event => {
    const rule = FORMS[event.target.dataset?.form];
    if (help) help.textContent = rule ? `${labelOf(event.target)}: ${rule.words}.` : idle;
  });
  form.addEventListener("input", event => unmark(event.target));
  form.addEventListener("change", event => {
    if (FORMS[event.target.dataset?.form]) event.target.value = cleaned(event.target);
  });
}

export function dressField(field) {
  const wrong = element("span", "", "wrong", { id: field.id + "-wrong" });
  field.after(wrong);
  field.setAttribute("aria-describedby", wrong.id);
}

// The members of a body by the names of its fields, or null if one has not its form; that one is marked, and
// the first of them has the focus. Names in `optional` may be empty, and are then left out.
export function read(form, names, optional = []) {
  const body = {};
  let first = null;
  for (const name of names) {
    const field = form.elements[name];
    unmark(field);
    if (field.disabled) continue;
    const text = cleaned(field);
    if (text === "" && optional.includes(name)) continue;
    const rule = FORMS[field.dataset.form];
    if (!rule || rule.takes(text)) {
      body[name] = text;
    } else {
      mark(field, (text === "" ? "Missing: " : "Not of its form: ") + rule.words + ".");
      first ??= field;
    }
  }
  first?.focus();
  return first ? null : body;
}
