// What an amendment touches: the live trades of the desk that stand by earlier terms of an issue, each to be corrected.
import { ask, eachOf, pace } from "./ask.js";
import { detailed } from "./details.js";
import { $, element } from "./dom.js";
import { dress, read, unmark } from "./fields.js";
import { isEarlier, keptTerms, standing, termsShort } from "./terms.js";
import { grouped, PAGE, readList, readPositions } from "./texts.js";
import { hush, say, tell, waitingIn } from "./tell.js";

const form = $("amended-find");
const told = $("amended-told");
const list = $("amended-list");
let desk = () => "";
let correct = () => {};
// What is under way.
let current = null;

// How many live trades of an issue the desk has, as far as it tells that.
async function countOf(name, cusip) {
  const answer = await ask(`/positions/${name}`, null, waitingIn(told));
  if (answer.kind !== "done") return Infinity;
  return Number(readPositions(answer.text).find(([each]) => each === cusip)?.[1] ?? 0);
}

const UNREAD = ["Not all trades could be read", "What to do: press Find trades again. What was read is known."];

// The live trades of an issue, by the lists of the desk as long as it is wanted. Gives what is told instead if they
// cannot be read.
async function tradesOf(name, cusip, isCurrent) {
  const found = [];
  const most = await countOf(name, cusip);
  let count = 0;
  for (let path = `/lists/${name}`; isCurrent() && found.length < most;) {
    const answer = await ask(path, null, waitingIn(told));
    if (answer.kind !== "done") return { fault: tell(answer) };
    const trades = readList(answer.text);
    const live = trades.filter(({ state }) => state === "LIVE");
    const lines = await eachOf(live, async trade => {
      await pace();
      return detailed(name, trade);
    }, isCurrent);
    if (lines.some(line => line && !line.confirmation)) return { fault: UNREAD };
    found.push(...lines.filter(line => line?.cusip === cusip && line.state === "LIVE"));
    count += trades.length;
    if (!isCurrent() || trades.length < PAGE) break;
    say(told, "wait", ["Looking for trades", `${count} trades of the desk were read, and ${found.length} are of it.`]);
    path = `/lists/${name}/${trades.at(-1).reference}`;
  }
  return { found };
}

function rowOf({ line, stands }) {
  const { reference, number, side, par, settle, price, yields, total } = line;
  const row = element("tr");
  const button = element("button", "Correct", "", { type: "button", ariaLabel: `Correct ${reference}` });
  button.addEventListener("click", () => correct(line.confirmation.desk, reference));
  row.append(element("th", reference, "", { scope: "row" }), element("td", number, "figure"), element("td", side),
    ...[grouped(par), price, yields, settle, grouped(total), termsShort(stands)]
      .map(each => element("td", each, "figure")));
  row.insertCell().append(button);
  return row;
}

function tellEnd(cusip, { terms }, count, touched, isStopped) {
  const [of, head] = [terms.length, `${touched.length} of ${count} live trades of ${cusip}`];
  const words = of === 1 ? [`The terms of ${cusip} were never amended`, `The desk has ${count} live trades of it.`]
    : touched.length ? [`${head} stand by earlier terms than number ${of}`,
      "Correct takes one into the ticket. Correct trade then shows its figures by both before it is sent."]
      : [`None of ${count} live trades of ${cusip} has figures by earlier terms`, `The last terms have number ${of}.`];
  say(told, isStopped || touched.length ? "note" : "good",
    [...isStopped ? ["It was stopped: more may follow"] : [], ...words]);
}

async function look(run, name, cusip) {
  const isCurrent = () => run === current && !run.isStopped;
  const { fault, found } = await tradesOf(name, cusip, isCurrent);
  if (run !== current) return;
  // Terms are read after the trades.
  const kept = fault ? {} : await keptTerms(cusip, waitingIn(told));
  if (run !== current) return;
  if (!kept.terms) {
    say(told, "bad", fault ?? tell(kept.answer));
    return;
  }
  const lines = await eachOf(found, async line => {
    await pace();
    return { line, stands: await standing(line.confirmation, true, () => kept) };
  }, () => run === current);
  if (run !== current) return;
  const touched = lines.filter(({ stands }) => isEarlier(stands) || !stands.numbers.length);
  list.tBodies[0].replaceChildren(...touched.map(rowOf));
  list.hidden = !touched.length;
  tellEnd(cusip, kept, found.length, touched, run.isStopped);
}

function setCurrent(run) {
  current = run;
  $("amended-stop").setAttribute("aria-disabled", String(!run));
  if (run) form.setAttribute("aria-busy", "true");
  else form.removeAttribute("aria-busy");
}

async function find() {
  const typed = read(form, ["cusip"]);
  const name = typed && desk();
  if (!name) return;
  const run = { isStopped: false };
  clearAmended();
  setCurrent(run);
  await look(run, name, typed.cusip);
  if (run === current) setCurrent(null);
}

export function clearAmended() {
  setCurrent(null);
  list.tBodies[0].replaceChildren();
  list.hidden = true;
  hush(told);
}

// Looks for the trades of an issue.
export function findAmended(cusip) {
  form.elements.cusip.value = cusip;
  unmark(form.elements.cusip);
  find();
}

// `correcting` takes the last version of a trade into the ticket.
export function startAmended(deskAtHand, correcting) {
  desk = deskAtHand;
  correct = correcting;
  dress(form);
  setCurrent(null);
  form.addEventListener("submit", event => {
    event.preventDefault();
    find();
  });
  $("amended-stop").addEventListener("click", () => { if (current) current.isStopped = true; });
}
