// The versions of the trade on the sheet, each by its number.
import { ask } from "./ask.js";
import { $, element } from "./dom.js";
import { readConfirmation } from "./texts.js";
import { hush, refuseNew, waitingIn } from "./tell.js";

const field = $("sheet-version");
const told = $("sheet-told");
let last = null;
let shown = 0;
let round = 0;

// Offers the versions up to the last one, which is the one that is shown.
export function offerVersions(confirmation) {
  round += 1;
  last = confirmation;
  shown = last.number;
  $("sheet-versions").hidden = shown === 1;
  field.replaceChildren(...Array.from({ length: shown }, (_, place) => element("option", String(place + 1))));
  field.value = shown;
}

async function choose(show) {
  const mine = ++round;
  const number = Number(field.value);
  let version = last;
  if (number !== last.number) {
    const answer = await ask(`/trades/${last.desk}/${last.reference}/${number}`, null, waitingIn(told));
    if (mine !== round) return;
    if (answer.kind !== "done") {
      field.value = shown;
      refuseNew(told, answer, `Version ${number} of ${last.reference}`);
      return;
    }
    version = readConfirmation(answer.text);
  }
  hush(told);
  shown = number;
  show(version);
}

export function startVersions(show) {
  field.addEventListener("change", () => choose(show));
}
