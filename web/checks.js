// The check of a file of figures that another firm printed: each row is sent to the desk, which says if it is right.
import { ask, eachOf, pace } from "./ask.js";
import { $ } from "./dom.js";
import { dress, read } from "./fields.js";
import { clearFound, showFound, startFound } from "./found.js";
import { bodyOf, bodyOfDay, needsDesk, readPrinted } from "./printed.js";
import { readVerdict } from "./texts.js";
import { hush, refuseNew, say, tell, waitingIn } from "./tell.js";
import { unseen } from "./unseen.js";
import { needsDay, ORDER } from "./verdicts.js";

const form = $("checks");
const told = $("checks-told");
const SEVERAL = { differs: "differ" };
const UNREAD = { fault: ["it could not be read", "What to do: choose it again."] };

let deskAtHand = () => "";
// The file at hand: its name, columns and rows, the desk of its references, and what was found of each row.
let file = null;
// What is under way.
let current = null;
let takes = 0;

const plural = (number, word) => `${number} ${word}${number === 1 ? "" : "s"}`;

function allow(id, isAllowed) {
  $(id).setAttribute("aria-disabled", String(!isAllowed));
}

function setCurrent(run) {
  current = run;
  if (run) form.setAttribute("aria-busy", "true");
  else form.removeAttribute("aria-busy");
  $("checks-way").hidden = !run;
  allow("checks-again", !run && file);
  allow("checks-stop", run);
}

function showWay(words) {
  Object.assign($("checks-progress"), { max: file.rows.length, value: file.found.filter(Boolean).length });
  $("checks-count").textContent = words ?? `${file.found.filter(Boolean).length} of ${plural(file.rows.length, "row")}`;
}

async function sent(body) {
  await pace();
  return ask("/checks", body, waitingIn(told));
}

// What the desk says of a row, or the answer that says nothing of it.
async function judge(row, desk) {
  if (!row.isWhole) return { row, verdict: "bad", kind: "1" };
  if (desk && row.first < row.place) return { row, verdict: "again", first: row.first };
  const answer = await sent(bodyOf(row, desk));
  const said = answer.kind === "done" ? readVerdict(answer.text) : {};
  if (!ORDER.includes(said.verdict)) return { answer };
  if (!needsDay(said)) return { row, ...said };
  const more = await sent(bodyOfDay(row, desk));
  const { column, ours } = more.kind === "done" ? readVerdict(more.text) : {};
  return { row, ...said, day: column === "redemption" ? ours : "" };
}

// Has the rows judged that are not yet, and the trades without a row looked for, as long as the run is the current one.
async function judgeRest(run) {
  const isCurrent = () => run === current && !run.isStopped && !run.failure;
  await eachOf(file.rows.filter((_, place) => !file.found[place]), async row => {
    const said = await judge(row, file.desk);
    if (run !== current) return;
    if (said.answer) run.failure ??= said.answer;
    else file.found[row.place - 1] = said;
    showWay();
  }, isCurrent);
  if (!file.desk || !isCurrent()) return;
  showWay("Looking for trades without a row");
  const { answer, found } = await unseen(file.desk, file.rows.map(each => each.reference), isCurrent);
  if (!isCurrent()) return;
  if (answer) run.failure = answer;
  else file.missing = found.map(reference => ({ row: { place: 0, reference, texts: {} }, verdict: "missing" }));
}

// How many rows have each verdict, and how many trades have no row.
function summary(found) {
  const counts = ORDER.map(each => [each, found.filter(({ verdict }) => verdict === each).length])
    .filter(([, number]) => number)
    .map(([verdict, number]) => `${number} ${number > 1 && SEVERAL[verdict] || verdict}`);
  const rows = `${plural(found.length, "row")} checked: ${counts.join(", ") || "none"}.`;
  if (!file.desk) return [rows];
  if (!file.missing) return [rows, "Trades of the desk without a row were not looked for."];
  return file.missing.length ? [rows, `${plural(file.missing.length, "live trade")} of the desk without a row.`]
    : [rows, "Each live trade of the desk has a row."];
}

function tellEnd(run) {
  const found = file.found.filter(Boolean);
  const words = summary(found);
  const rest = ["Check the rest", () => check(false)];
  showFound(file, [...found, ...file.missing ?? []]);
  if (run.failure) {
    if (run.failure.status === 404) refuseNew(told, run.failure, "A check");
    else say(told, "bad", [...tell(run.failure), ...words], rest);
  } else if (run.isStopped) {
    say(told, "note", [`The check of ${file.name} was stopped`, ...words], rest);
  } else {
    const isRight = !file.missing?.length && found.every(({ verdict }) => verdict === "right");
    const head = isRight ? `${file.name} is right` : `Not all of ${file.name} is right`;
    say(told, isRight ? "good" : "note", [head, ...words]);
  }
}

// Checks the rows of the file, or those that are left.
async function check(isAnew = true) {
  const typed = file && !current && read(form, ["desk"], ["desk"]);
  if (!typed) return;
  if (isAnew) {
    Object.assign(file, { desk: typed.desk ?? "", found: [], missing: null });
    clearFound();
  }
  const run = { isStopped: false, failure: null };
  hush(told);
  setCurrent(run);
  showWay();
  await judgeRest(run);
  if (run !== current) return;
  setCurrent(null);
  tellEnd(run);
}

// Takes another file, in the place of the one at hand.
async function take(chosen) {
  const mine = ++takes;
  file = null;
  setCurrent(null);
  clearFound();
  const text = await chosen.text().catch(() => null);
  if (mine !== takes) return;
  const { fault, names, rows } = text === null ? UNREAD : readPrinted(text);
  if (fault) {
    const [head, ...more] = fault;
    say(told, "bad", [`${chosen.name}: ${head}`, ...more, "Nothing was sent."]);
    return;
  }
  file = { name: chosen.name, names, rows };
  if (form.elements.desk.value === "" && needsDesk(names)) form.elements.desk.value = deskAtHand();
  check();
}

function takeDropped(event) {
  if (!event.dataTransfer.types.includes("Files")) return;
  event.preventDefault();
  if (event.type !== "drop" || !$("check").contains(event.target)) return;
  form.elements.file.files = event.dataTransfer.files;
  take(event.dataTransfer.files[0]);
}

// A file that is dropped elsewhere does not take the place of the page.
export function startChecks(desk) {
  deskAtHand = desk;
  dress(form);
  startFound();
  setCurrent(null);
  const chosen = form.elements.file;
  // The same file may be chosen again.
  chosen.addEventListener("click", () => { chosen.value = ""; });
  chosen.addEventListener("change", () => chosen.files.length && take(chosen.files[0]));
  for (const type of ["dragover", "drop"]) document.addEventListener(type, takeDropped);
  form.addEventListener("submit", event => {
    event.preventDefault();
    check();
  });
  $("checks-stop").addEventListener("click", () => { if (current) current.isStopped = true; });
}
