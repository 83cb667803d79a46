// The desk's trades, page by page.
import { ask, eachOf, isUnknownPath, pace } from "./ask.js";
import { detailed } from "./details.js";
import { $, element } from "./dom.js";
import { dress, mark as markField, read } from "./fields.js";
import { dayOf, justBefore, pageBefore, today } from "./references.js";
import { openTrade } from "./sheet.js";
import { isEarlier, readingOnce, standing, termsShort } from "./terms.js";
import { grouped, PAGE, readList } from "./texts.js";
import { hush, refuse, refuseNew, say, waitingIn } from "./tell.js";

const told = $("trades-told");
const body = $("trades-list").tBodies[0];
// After the reference. The names with `figure` stand at the right.
const COLUMNS = [["number", "figure"], ["state"], ["side"], ["cusip"], ["par", "figure"], ["price", "figure"],
  ["yields", "figure"], ["settle", "figure"], ["total", "figure"], ["terms", "figure"]];
let desk = () => "";
// The paths of the pages up to the one at hand, each after the one before, and how far that one goes.
let pages = [];
let last = "";
// The day whose trades alone are listed, as 20240403, or "".
let day = "";
// The reference of the trade whose row is marked.
let marked = "";
let round = 0;

const listPath = after => `/lists/${desk()}` + (after && `/${after}`);
const lastPath = () => `/latest/${desk()}`;

// Writes what is known of a trade into its row.
function write(row, trade) {
  row.className = trade.state === "CANCELED" ? "canceled" : "";
  const [par, total] = [grouped(trade.par), grouped(trade.total ?? "")];
  const words = { ...trade, state: trade.state.toLowerCase(), par, total };
  COLUMNS.forEach(([name], place) => { row.cells[place + 1].textContent = words[name] ?? ""; });
}

function rowOf(trade) {
  const row = element("tr");
  const first = element("th", "", "", { scope: "row" });
  first.append(element("button", trade.reference, "link", { type: "button", tabIndex: -1 }));
  row.append(first, ...COLUMNS.map(([, name]) => element("td", "", name)));
  write(row, trade);
  row.addEventListener("click", () => {
    mark(trade.reference);
    openTrade(desk(), trade.reference, told);
  });
  return row;
}

const referenceOf = row => row.querySelector("button").textContent;

function mark(reference) {
  marked = reference;
  const rows = [...body.rows];
  for (const each of rows) each.removeAttribute("aria-current");
  const row = rows.find(each => referenceOf(each) === reference);
  row?.setAttribute("aria-current", "true");
  reach(row ?? rows[0]);
}

// One line of the list is reached by Tab; Up and Down go from it to the others.
function reach(row, hasFocus) {
  for (const each of body.querySelectorAll("button")) each.tabIndex = -1;
  const button = row?.querySelector("button");
  if (!button) return;
  button.tabIndex = 0;
  if (hasFocus) button.focus();
}

function walk(event) {
  const rows = [...body.rows];
  const at = rows.indexOf(event.target.closest("tr"));
  const to = { ArrowDown: at + 1, ArrowUp: at - 1, Home: 0, End: rows.length - 1 }[event.key];
  if (to === undefined || !rows[to]) return;
  event.preventDefault();
  reach(rows[to], true);
}

function placeWords({ path, trades, hasMore }) {
  const isFirst = pages[0] === listPath("");
  if (!trades.length) {
    if (day) return `Desk ${desk()} has no trades whose references begin with ${day}.`;
    return [listPath(""), lastPath()].includes(path)
      ? `Desk ${desk()} has no trades. If it should have some, check its name.` : "No trade comes after this.";
  }
  const count = trades.length === 1 ? "1 trade" : `${trades.length} trades`;
  const time = new Date().toTimeString().slice(0, 8);
  const page = isFirst || day ? `Page ${pages.length}` : "Page";
  const name = path === lastPath() ? "Last page" : page + (day && ` of ${day}`);
  return `${name}: ${count}, ${trades[0].reference} to ${last}, read at ${time}.${hasMore ? "" : " No more follow."}`;
}

function allow(id, isAllowed) {
  $(id).setAttribute("aria-disabled", String(!isAllowed));
}

// A page as it is read, of a day if one is given. A full one does not tell whether more follow, so the desk is asked
// for what comes after it.
async function readAt(path, ofDay) {
  const answer = await ask(path, null, waitingIn(told));
  if (answer.kind !== "done") return { answer };
  const trades = readList(answer.text).filter(({ reference }) => reference.startsWith(ofDay));
  const end = trades.at(-1)?.reference ?? "";
  const rest = trades.length === PAGE && path !== lastPath() ? await ask(listPath(end)) : null;
  const isMore = rest?.kind === "done" && rest.text !== "" && rest.text.startsWith(ofDay);
  return { answer, path, trades, end, hasMore: isMore };
}

function draw(page) {
  last = page.end;
  hush(told);
  body.replaceChildren(...page.trades.map(rowOf));
  mark(marked);
  $("trades-place").textContent = placeWords(page);
  allow("trades-first", pages.length > 1 || pages[0] !== listPath(""));
  allow("trades-back", pages.length > 1 || (!day && pages[0] !== listPath("")));
  allow("trades-next", page.hasMore);
  allow("trades-last", page.path !== lastPath());
  complete(page.trades);
}

// Fills in what the list does not tell, a few trades at a time, and then by which terms each stands.
async function complete(trades) {
  const [mine, name, rows] = [round, desk(), [...body.rows]];
  const isCurrent = () => mine === round;
  const lines = await eachOf(trades.map((trade, place) => [trade, rows[place]]), async ([trade, row]) => {
    const line = await detailed(name, trade);
    if (isCurrent()) write(row, line);
    return line;
  }, isCurrent);
  const read = readingOnce();
  await eachOf(lines.map((line, place) => [line, rows[place]]), async ([line, row]) => {
    if (!line?.confirmation) return;
    await pace();
    const stands = await standing(line.confirmation, true, read);
    if (!isCurrent()) return;
    write(row, { ...line, terms: termsShort(stands) });
    row.lastChild.classList.toggle("old", isEarlier(stands));
  }, isCurrent);
}

// Turns to the last of these pages, if it can be read.
async function turn(wanted, ofDay = "") {
  if (!desk()) return;
  const mine = ++round;
  const page = await readAt(wanted.at(-1), ofDay);
  if (mine !== round) return;
  if (page.answer.kind !== "done") {
    refuseNew(told, page.answer, "The last page");
    return;
  }
  pages = wanted;
  day = ofDay;
  draw(page);
}

export const readFirstPage = () => turn([listPath("")]);

// Turns to the page from which one came by the next one, or else to the one that ends before the page at hand.
async function back() {
  if (pages.length > 1) {
    turn(pages.slice(0, -1), day);
    return;
  }
  const mine = ++round;
  const [row] = body.rows;
  const after = row && await pageBefore(desk(), referenceOf(row), () => mine === round);
  if (mine !== round) return;
  if (after === null) say(told, "bad", ["The page before was not found", "The desk did not tell: press it again."]);
  else turn([row ? listPath(after) : lastPath()]);
}

// Lists the trades of the day that is typed, or of today.
function listDay(text) {
  const wanted = text ? dayOf(text) : today();
  if (wanted) turn([listPath(justBefore(wanted))], wanted);
  else markField($("find-reference"), "Missing: a day as 2024-04-03, or a reference that begins with one as 20240403.");
}

// Turns to a page that has the trade, and marks it: the page at hand, the last one, or the one that begins with it.
export async function showTrade(reference) {
  marked = reference;
  const mine = ++round;
  const ways = [[pages, day], [[lastPath()], ""], [[listPath(justBefore(reference))], ""]];
  for (const [wanted, ofDay] of ways.filter(([each]) => each.length)) {
    const page = await readAt(wanted.at(-1), ofDay);
    if (mine !== round) return;
    if (page.answer.kind !== "done" && !isUnknownPath(page.answer)) {
      refuse(told, page.answer);
      return;
    }
    if (page.trades?.some(each => each.reference === reference)) {
      pages = wanted;
      day = ofDay;
      draw(page);
      return;
    }
  }
  hush(told);
}

export function clearTrades() {
  round += 1;
  pages = [];
  day = "";
  marked = "";
  body.replaceChildren();
  $("trades-place").textContent = "";
  hush(told);
}

export function focusTrades() {
  const line = body.querySelector("button[tabindex='0']");
  (line ?? $("find-reference")).focus();
}

// A button that is off has no effect.
function onPress(id, does) {
  $(id).addEventListener("click", () => $(id).getAttribute("aria-disabled") === "true" || does());
}

export function startTrades(deskAtHand) {
  desk = deskAtHand;
  const find = $("find");
  dress(find);
  body.addEventListener("keydown", walk);
  find.addEventListener("submit", event => {
    event.preventDefault();
    const typed = read(find, ["reference"]);
    if (!typed || !desk()) return;
    if (typed.reference.includes("-")) {
      listDay(typed.reference);
      return;
    }
    mark(typed.reference);
    openTrade(desk(), typed.reference, told);
  });
  $("trades-from").addEventListener("click", () => {
    const typed = read(find, ["reference"]);
    if (typed?.reference.includes("-")) listDay(typed.reference);
    else if (typed) turn([listPath(typed.reference)]);
  });
  $("trades-day").addEventListener("click", () => {
    const typed = read(find, ["reference"], ["reference"]);
    if (typed) listDay(typed.reference ?? "");
  });
  onPress("trades-first", readFirstPage);
  onPress("trades-last", () => turn([lastPath()]));
  onPress("trades-again", () => turn(pages.length ? pages : [listPath("")], day));
  onPress("trades-back", back);
  onPress("trades-next", () => turn([...pages, listPath(last)], day));
}
