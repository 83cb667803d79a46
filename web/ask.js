// A request to the desk. What was accepted acts once however often it is sent, so a request whose answer does
// not come is sent again.

const PAUSES = [300, 1000, 2500];
// What stands before the desk may hold a request in its queue, and gives up before this.
const PATIENCE = 75_000;
const SLOW = 2_000;
// Statuses of what stands before the desk, and of a store that failed: the same request may go well later.
const LATER = [429, 502, 503, 504];
export const TRIES = PAUSES.length + 1;
// Of many requests so many are under way at once.
const AT_ONCE = 4;
// Of very many one may be sent each so many ms, so that the desk has time for others. Those that were not sent in the
// last second may follow at once: browsers wake a page that is not seen but once a second.
const PACE = 16;
const LATEST = 1000;
// When the last one was due.
let turn = 0;

const pause = time => new Promise(done => setTimeout(done, time));

async function once(path, body) {
  const words = { cache: "no-store", signal: AbortSignal.timeout(PATIENCE) };
  if (body) {
    words.method = "POST";
    words.headers = { "Content-Type": "application/json" };
    words.body = JSON.stringify(body);
  }
  try {
    const answer = await fetch(path, words);
    const text = await answer.text();
    return { status: answer.status, text, isText: (answer.headers.get("Content-Type") ?? "").startsWith("text/plain") };
  } catch {
    return { status: 0, text: "", isText: false };
  }
}

// What came: `kind` is "done", "refused" with number, name and rest, "status", or "cut" if no answer came.
// `sent` says how often it was sent. `waiting` is called before each further time, and when the answer is slow.
export async function ask(path, body, waiting = () => {}) {
  for (let sent = 1; ; sent += 1) {
    const slow = setTimeout(waiting, SLOW, { isSlow: true });
    const came = await once(path, body);
    clearTimeout(slow);
    const isCut = came.status === 0 || (came.text !== "" && !came.text.endsWith("\n"));
    const isLater = isCut || LATER.includes(came.status);
    if (!isLater || sent === TRIES) return { ...sort(came, isCut), sent };
    waiting({ status: isCut ? 0 : came.status, next: sent + 1 });
    await pause(PAUSES[sent - 1]);
  }
}

// Waits for the turn of one of very many.
export async function pace() {
  const now = performance.now();
  turn = Math.max(turn + PACE, now - LATEST);
  if (turn > now) await pause(turn - now);
}

// Does something with each of many, a few at a time, as long as it is wanted. Gives what came of each, in their order.
export async function eachOf(items, does, isCurrent) {
  const came = [];
  let next = 0;
  const worker = async () => {
    while (next < items.length && isCurrent()) {
      const place = next++;
      came[place] = await does(items[place]);
    }
  };
  await Promise.all(Array.from({ length: AT_ONCE }, worker));
  return came;
}

// Whether the desk has no such path, as one of an earlier version than this page.
export const isUnknownPath = answer => answer.kind === "status" && answer.status === 404;

function sort({ status, text, isText }, isCut) {
  if (isCut) return { kind: "cut", status: 0, text: "" };
  const refused = text.match(/^REFUSED (\d+) (\w+) ?(.*)\n$/);
  if (refused) {
    const [, number, name, rest] = refused;
    return { kind: "refused", status, text, number: Number(number), name, rest };
  }
  return { kind: status === 200 && isText ? "done" : "status", status, text };
}
