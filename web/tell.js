// What is said of each answer: what it means and what to do, in the words of the desk's documents.
import { isUnknownPath, TRIES } from "./ask.js";
import { element } from "./dom.js";
import { FAULTS, REFUSALS } from "./refusals.js";

export { FAULTS, REFUSALS };

export const STATUSES = {
  400: ["the body does not have its form",
    "compare its members with the table of requests, and each value with its form; a check has no others"],
  401: ["the name or the password was not taken", "load this page again and log in"],
  403: ["this user may not do that, or not for this desk",
    "check the desk; whoever runs the service says who may do what"],
  404: ["the path is unknown",
    "compare it with the table of requests: a desk is 1 to 16 capitals and digits, a reference 1 to 20 letters and " +
    "digits, a CUSIP nine capitals and digits, and small letters are others than capitals"],
  405: ["the path has the other method, which the field Allow names", "take that one"],
  411: ["a POST has a Transfer-Encoding or no Content-Length", "send the length of the body"],
  413: ["the length is above 65,536",
    "send a shorter body: without blanks, leading zeros and other members none of these forms is as long"],
  421: ["the address of this page is not the service's", "open the page by the name that the service has"],
  429: ["too many requests came at once", "wait a moment, and send the request again"],
  431: ["the first 16,384 bytes have no whole head and might become one, or a head has more than 64 fields",
    "send fewer and shorter header fields"],
  502: ["the desk does not answer; it may be starting", "send the same again: it acts once"],
  503: ["the store failed, and nothing was kept by this request; it may be kept after all over a file of SQLite if a " +
    "sync failed, and over a journal if the server is stopped before it keeps something else",
    "see whether its disk is full, and send the request again"],
  504: ["the desk did not answer in time", "send the same again: it acts once"],
};

const RANGES = "A given yield is from -5 to 100 percent with more than six months to redemption, from -90 to 999.999 " +
  "with six months or less, and from -45 to 999.999 with interest at redemption. A discount rate is from 0 to 30 " +
  "percent. A price, also with its commission, is above 0 and at most 999.999999.";

// What stands after the name on the desk's line, in words.
const DETAILS = {
  3: rest => rest === "issue"
    ? "Other terms are kept under this number. Read terms shows them: compare yours with their source."
    : `Version ${rest.split(" ")[1]} of this trade is kept with other contents.`,
  4: rest => {
    const [number, day] = rest.split(" ");
    const [name, , test] = FAULTS[number] ?? ["", "", ""];
    return `Test ${number}, ${name}` + (day ? `, at the call of ${day}` : "") + `: ${test}.`;
  },
  6: rest => ({ below: "It lies below its range. ", above: "It lies above its range. ",
    "price below zero": "The price at this yield would be below zero. " })[rest] + RANGES,
  7: rest => `The redemption is that of ${rest}.`,
  9: rest => `The redemption is that of ${rest}.`,
  10: rest => {
    const [day, kind, figure] = rest.split(" ");
    return `Up to the redemption of ${day} the boundary is the ${kind} ${figure}. ` +
      "It is no doubt about the bond, but a tie.";
  },
  12: rest => `The next number is ${rest}.`,
};

// Of a conflict what to do differs between an issue and a trade.
const todoOf = (todo, rest) => typeof todo === "string" ? todo : todo[rest === "issue" ? "issue" : "trade"];
const pair = ([means, todo]) => [`What it means: ${means}.`, `What to do: ${todo}.`];

// What stands before the desk says 503 too, and does not know then what the desk has done.
const MAYBE = "What stands before the desk may have said this. Whether it was kept is then not known: send the same " +
  "again, it acts once.";
const OLDER = "The desk does not know this request: it is of an earlier version than this page. All else works as " +
  "before.";
const UNKNOWN = ["", "a refusal that this page does not know", "ask whoever runs the desk"];

// The lines for an answer that is not "done": the first is its head.
export function tell(answer) {
  if (answer.kind === "refused") {
    const [, means, todo] = REFUSALS[answer.number] ?? UNKNOWN;
    const words = [means, todoOf(todo, answer.rest)];
    const detail = DETAILS[answer.number]?.(answer.rest);
    return [answer.text.trim(), ...(detail ? [detail] : []), ...pair(words), "Nothing was changed."];
  }
  if (answer.kind === "cut") {
    return ["No answer came", `It was sent ${answer.sent} times. Whether it was kept is not known.`,
      "What to do: send the same again; what was accepted acts once. What was typed is as it was."];
  }
  const words = STATUSES[answer.status] ?? ["the answer is not one of the desk's", "ask whoever runs the service"];
  const tries = answer.sent > 1 ? [`It was sent ${answer.sent} times.`] : [];
  const head = answer.text.startsWith(String(answer.status)) ? answer.text.trim() : `Status ${answer.status}`;
  return [head, ...tries, ...pair(words), ...(answer.status === 503 ? [MAYBE] : [])];
}

// What is said while an answer is waited for, and after a request was sent again.
function tellWaiting({ isSlow, status, next }) {
  if (isSlow) return ["Waiting for the desk", "It has not answered yet. Nothing has to be sent again by hand."];
  const what = status ? `Status ${status} came` : "The answer was cut";
  return [`${what}: sending again`, `Time ${next} of ${TRIES}. What is sent again acts once.`];
}
export const tellSent = answer => answer.sent > 1
  ? [`No answer came at first, so it was sent ${answer.sent} times; it acted once.`] : [];

// Shows lines in a box, the first as their head. The mood is "good", "bad", "wait" while something is under way, or
// "note" of what was not done as it might seem. Buttons are pairs of a word and what it does.
export function say(box, mood, lines, ...buttons) {
  box.dataset.mood = mood;
  box.replaceChildren(...lines.map((line, place) => element("p", line, place ? "" : "head")));
  if (!buttons.length) return;
  const acts = element("p", "", "acts");
  for (const [word, does] of buttons) {
    const button = element("button", word, "", { type: "button" });
    button.addEventListener("click", does);
    acts.append(button);
  }
  box.append(acts);
}

export function hush(box) {
  delete box.dataset.mood;
  box.replaceChildren();
}

// What went well is said of what was asked, and goes when something else is typed.
export function hushGood(box) {
  if (box.dataset.mood === "good") hush(box);
}

export const refuse = (box, answer, ...buttons) => say(box, "bad", tell(answer), ...buttons);
// The same of a request that a desk of an earlier version does not know.
export function refuseNew(box, answer, what, is = "shown") {
  if (isUnknownPath(answer)) say(box, "note", [`${what} cannot be ${is} here`, OLDER]);
  else refuse(box, answer);
}
export const waitingIn = box => what => say(box, "wait", tellWaiting(what));
