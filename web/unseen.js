// The live trades of a desk that a file has no row of.
import { ask } from "./ask.js";
import { PAGE, readList } from "./texts.js";

// Their references in order, by the lists of the desk, page by page as long as it is wanted. Gives the answer instead
// if it is no list.
export async function unseen(desk, references, isCurrent) {
  const named = new Set(references);
  const found = [];
  for (let path = `/lists/${desk}`; ;) {
    const answer = await ask(path);
    if (answer.kind !== "done") return { answer };
    const trades = readList(answer.text);
    found.push(...trades.filter(({ state, reference }) => state === "LIVE" && !named.has(reference)));
    if (trades.length < PAGE || !isCurrent()) return { found: found.map(each => each.reference) };
    path = `/lists/${desk}/${trades.at(-1).reference}`;
  }
}
