// What was found of the rows of a file: a table, those first that are not right, and CSV for a spreadsheet.
import { writeCsv } from "./csv.js";
import { $, element } from "./dom.js";
import { grouped } from "./texts.js";
import { say } from "./tell.js";
import { ORDER, wordsOf } from "./verdicts.js";

const list = $("checks-list");
const right = $("checks-right");
const more = $("checks-more");
// So many rows that are not right are shown. The CSV has all.
const MOST = 500;
const HEAD = ["row", "reference", "verdict", "figure", "ours", "theirs", "reading", "what it is", "what to say"];
let csv = "";
let csvName = "";

const nameOf = ({ row }) => row.reference || `row ${row.place}`;

function lineOf(found) {
  const [figure, what, say] = wordsOf(found);
  const row = element("tr");
  const head = element("th", nameOf(found), "", { scope: "row" });
  if (found.row.reference && found.row.place) head.append(" ", element("span", `row ${found.row.place}`, "remark"));
  row.append(head, element("td", figure), element("td", found.ours ?? "", "figure"),
    element("td", found.theirs ?? "", "figure"), element("td", what), element("td", say));
  return row;
}

function recordOf(found) {
  const { row, verdict, ours = "", theirs = "", reading = "" } = found;
  const [figure, what, say] = wordsOf(found);
  return [row.place ? String(row.place) : "", row.reference, verdict, figure, ours, theirs, reading, what, say];
}

// Shows those that are not right by their verdicts, and below them the names of the others.
export function showFound(file, found) {
  const wrong = found.filter(({ verdict }) => verdict !== "right");
  const others = found.filter(({ verdict }) => verdict === "right");
  const sorted = ORDER.flatMap(verdict => wrong.filter(each => each.verdict === verdict));
  list.tBodies[0].replaceChildren(...sorted.slice(0, MOST).map(lineOf));
  list.hidden = !wrong.length;
  more.hidden = wrong.length <= MOST;
  const rest = grouped(String(Math.max(0, wrong.length - MOST)));
  more.textContent = `These are the first ${MOST}. ${rest} more are not right: Copy and Download have all.`;
  const words = others.length === 1 ? "1 row is right" : `${others.length} rows are right`;
  right.querySelector("summary").textContent = words;
  right.querySelector("p").textContent = others.map(nameOf).join(", ");
  right.hidden = !others.length;
  csv = writeCsv([HEAD, ...found.map(recordOf)]);
  csvName = file.name.replace(/\.[^.]*$/, "") + "-checked.csv";
  $("checks-acts").hidden = !found.length;
}

export function clearFound() {
  list.tBodies[0].replaceChildren();
  for (const each of [list, more, right, $("checks-acts")]) each.hidden = true;
}

async function copy() {
  try {
    await navigator.clipboard.writeText(csv);
    say($("checks-told"), "good", ["Copied", "The lines are CSV: paste them into a mail or a spreadsheet."]);
  } catch {
    say($("checks-told"), "bad", ["Nothing was copied", "The browser does not let this page copy: download them."]);
  }
}

function save() {
  const href = URL.createObjectURL(new Blob([csv], { type: "text/csv" }));
  element("a", "", "", { href, download: csvName }).click();
  setTimeout(() => URL.revokeObjectURL(href), 1000);
}

export function startFound() {
  $("checks-copy").addEventListener("click", copy);
  $("checks-save").addEventListener("click", save);
}
