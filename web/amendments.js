// What an amendment changes of the terms of an issue.
import { scaled } from "./texts.js";

const isSame = (name, one, other) =>
  name === "coupon" ? scaled(one || "0", 7) === scaled(other || "0", 7) : one === other;

const isSameCall = (one, other) => Boolean(one && other) && one.date === other.date && one.mark === other.mark &&
  scaled(one.price, 6) === scaled(other.price, 6);

// Each with what is kept and what is typed. A kind has fields that are not sent; `words` has what all are in words.
export function changesOfTerms(kept, typed, words) {
  const terms = { first: "", coupon: "", days: "30/360", ...typed.terms };
  const rows = Object.keys(kept.terms).filter(name => !isSame(name, kept.terms[name], terms[name]))
    .map(name => [words.label(name), words.value(name, kept.terms[name]), words.value(name, terms[name])]);
  const count = Math.max(kept.calls.length, typed.calls.length);
  for (let place = 0; place < count; place += 1) {
    const [now, then] = [kept.calls[place], typed.calls[place]];
    if (!isSameCall(now, then)) rows.push([`Call ${place + 1}`, words.call(now), words.call(then)]);
  }
  return rows;
}
