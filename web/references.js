// References: their order, those of a day, as 20240403A0001, and those before another.
import { ask } from "./ask.js";
import { FORMS } from "./fields.js";
import { PAGE, readList } from "./texts.js";

const CAPITALS = "ABCDEFGHIJKLMNOPQRSTUVWXYZ";
// The signs of references in the order of the desk, and how many a reference has.
const SIGNS = "0123456789" + CAPITALS + CAPITALS.toLowerCase();
const LENGTH = 20;
// A letter has the numbers 0001 to 9999.
const NUMBERS = 9999;
const LAST = CAPITALS.length * NUMBERS - 1;
// The place of the last reference that is known of a desk and a day.
const lasts = new Map();

// The last text before a reference that has its form.
export function justBefore(reference) {
  const begin = reference.slice(0, -1);
  const place = SIGNS.indexOf(reference.at(-1));
  return place === 0 ? begin : (begin + SIGNS[place - 1]).padEnd(LENGTH, "z");
}

export function today(now = new Date()) {
  return String(now.getFullYear() * 10_000 + (now.getMonth() + 1) * 100 + now.getDate());
}

// The day that a text is, or that a reference begins with, as 20240403, or "".
export function dayOf(text) {
  const [, ...parts] = text.match(/^(\d{4})-?(\d\d)-?(\d\d)/) ?? [];
  return parts.length && FORMS.day.takes(parts.join("-")) ? parts.join("") : "";
}

// A text as a number in the order of the desk, and back. A place without a sign is 0, and nothing stands after one.
const BASE = BigInt(SIGNS.length + 1);
const numberOf = text => [...text.padEnd(LENGTH)]
  .reduce((number, sign) => number * BASE + BigInt(SIGNS.indexOf(sign) + 1), 0n);

function textOf(number) {
  const places = [];
  for (let rest = number; places.length < LENGTH; rest /= BASE) places.unshift(Number(rest % BASE));
  const end = places.indexOf(0);
  return places.slice(0, end < 0 ? LENGTH : end).map(place => SIGNS[place - 1]).join("");
}

// A text between two, or "" if there is none.
function between(low, high) {
  const middle = textOf((numberOf(low) + numberOf(high)) / 2n);
  const text = middle > low ? middle : low + SIGNS[0];
  return text < high && text.length <= LENGTH ? text : "";
}

async function namesBefore(desk, after, reference) {
  const answer = await ask(`/lists/${desk}${after && "/"}${after}`);
  if (answer.kind !== "done") return null;
  return readList(answer.text).map(each => each.reference).filter(each => each < reference);
}

// The text after which the last page before a reference is listed; "" is the first page. The desk lists forward alone,
// so the texts before the reference are halved until a page comes that ends near it. Gives null if the desk does not
// tell, or if it is no more wanted.
export async function pageBefore(desk, reference, isCurrent) {
  let [low, high] = ["", reference];
  let after = "";
  do {
    const names = await namesBefore(desk, after, reference);
    if (!names || !isCurrent()) return null;
    if (names.length < PAGE) {
      if (!after) return "";
      high = after;
    } else {
      const rest = await namesBefore(desk, names.at(-1), reference);
      if (!rest || !isCurrent()) return null;
      if (rest.length < PAGE) return justBefore([...names, ...rest].at(-PAGE));
      low = names.at(-1);
    }
    after = between(low, high);
  } while (after);
  return low;
}

// The references of a day have places from A0001 on. One that is numbered otherwise has none.
function placesOf(references, day) {
  return references.map(each => each.slice(day.length).match(/^([A-Z])(\d{4})$/))
    .filter(found => found && found[2] !== "0000")
    .map(([, letter, number]) => CAPITALS.indexOf(letter) * NUMBERS + Number(number) - 1);
}

function referenceAt(place, day) {
  if (place < 0) return day;
  return day + CAPITALS[Math.floor(place / NUMBERS)] + String(place % NUMBERS + 1).padStart(4, "0");
}

// The place of the last reference of a day. It is not before `low`. A list that does not end within the day leads past
// it, and the rest is halved. Gives null if the desk does not tell.
async function lastPlace(desk, day, low) {
  let high = LAST;
  for (let at = low; ; at = Math.floor((low + high) / 2)) {
    const answer = await ask(`/lists/${desk}/${referenceAt(at, day)}`);
    if (answer.kind !== "done") return null;
    const ours = readList(answer.text).map(each => each.reference).filter(each => each.startsWith(day));
    const places = placesOf(ours, day);
    if (ours.length === PAGE) low = Math.max(at, ...places);
    else if (places.length || at === low) return Math.max(low, ...places);
    else high = at;
    if (low >= high) return low;
  }
}

// The reference after the last one of a desk and a day, or "" if there is none or the desk does not tell.
export async function nextReference(desk, day) {
  const key = `${desk} ${day}`;
  const last = await lastPlace(desk, day, lasts.get(key) ?? -1);
  if (last === null || last === LAST) return "";
  lasts.set(key, last);
  return referenceAt(last + 1, day);
}
