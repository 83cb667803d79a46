// The positions of the desk, in the place of its trades if their tab is chosen.
import { ask } from "./ask.js";
import { $, element } from "./dom.js";
import { isShown } from "./tabs.js";
import { grouped, readPositions } from "./texts.js";
import { hush, refuseNew, waitingIn } from "./tell.js";

const told = $("positions-told");
const place = $("positions-place");
const body = $("positions-list").tBodies[0];
let desk = () => "";
let round = 0;

function rowOf([cusip, ...figures]) {
  const row = element("tr");
  const cells = figures.map(each => element("td", grouped(each), "figure"));
  row.append(element("th", cusip, "", { scope: "row" }), ...cells);
  return row;
}

function placeWords(lines) {
  if (!lines.length) return `Desk ${desk()} has no live trades.`;
  const count = lines.length === 1 ? "1 security" : `${lines.length} securities`;
  return `${count}, read at ${new Date().toTimeString().slice(0, 8)}.`;
}

async function read() {
  if (!desk()) return;
  const mine = ++round;
  const answer = await ask(`/positions/${desk()}`, null, waitingIn(told));
  if (mine !== round) return;
  clearPositions();
  if (answer.kind !== "done") {
    refuseNew(told, answer, "Positions");
    return;
  }
  const lines = readPositions(answer.text);
  body.replaceChildren(...lines.map(rowOf));
  place.textContent = placeWords(lines);
}

export function clearPositions() {
  round += 1;
  body.replaceChildren();
  place.textContent = "";
  hush(told);
}

// Reads them anew if they are shown.
export const refreshPositions = () => isShown("positions") && read();

export function startPositions(deskAtHand) {
  desk = deskAtHand;
  $("positions-again").addEventListener("click", read);
}
