// The page of the desk: which desk is open, and the ways between the panels.
import { ask } from "./ask.js";
import { clearAmended, findAmended, startAmended } from "./amended.js";
import { startChecks } from "./checks.js";
import { $, element } from "./dom.js";
import { dress, read } from "./fields.js";
import { goToIssue, startIssue } from "./issue.js";
import { clearPositions, refreshPositions, startPositions } from "./positions.js";
import { clearSheet, openTrade, startSheet, takeShown } from "./sheet.js";
import { chooseTab, goToTab, startTabs } from "./tabs.js";
import { propose, quoteIssue, startTicket, takeForLast, takeTrade } from "./ticket.js";
import { clearTrades, focusTrades, readFirstPage, showTrade, startTrades } from "./trades.js";

const house = $("house");
const told = $("house-told");
let desk = "";

// The desk at hand. If none is open that is said at the field.
function deskAtHand() {
  if (!desk) {
    told.textContent = "Open a desk first: type its name here.";
    house.elements.desk.focus();
  }
  return desk;
}

function openDesk(name) {
  desk = name;
  house.elements.desk.value = name;
  told.textContent = "";
  localStorage.setItem("desk", name);
  $("trades-desk").textContent = `of desk ${name}`;
  document.title = `${name} confirmation desk`;
  $("ticket").elements.number.value = "";
  clearSheet();
  clearTrades();
  clearPositions();
  clearAmended();
  readFirstPage();
  refreshPositions();
  propose(name);
}

// The last act is seen in the list, and in the positions if they are shown.
function showAct(reference) {
  showTrade(reference);
  refreshPositions();
}

// Who has logged in and which desks are his, as the service tells it; else the desk's name is typed.
async function openFirstDesk() {
  const answer = await ask("/me");
  const [user, ...names] = answer.kind === "done" ? answer.text.trim().split(" ") : [""];
  if (user) $("house-user").textContent = `logged in as ${user}`;
  $("house-desks").replaceChildren(...names.map(value => element("option", "", "", { value })));
  const before = localStorage.getItem("desk");
  const first = names.length && !names.includes(before) ? names[0] : before;
  if (user && !names.length) told.textContent = "No desk is yours. Quotes may be asked for.";
  else if (first) openDesk(first);
  else told.textContent = "Type the name of a desk and press Enter.";
}

const TARGETS = {
  ticket: () => $("ticket-cusip").focus(),
  trades: () => {
    chooseTab("trades");
    focusTrades();
  },
  positions: () => goToTab("positions"),
  check: () => goToTab("check"),
  issue: () => $("issue-cusip").focus(),
};

function goTo(id) {
  (TARGETS[id] ?? (() => $(id).focus({ preventScroll: true })))();
  $(id).scrollIntoView({ block: "nearest" });
}

function startPanels() {
  const keys = new Map();
  for (const link of document.querySelectorAll("nav a")) {
    const id = link.hash.slice(1);
    keys.set("Key" + link.dataset.key, id);
    link.setAttribute("aria-keyshortcuts", "Alt+" + link.dataset.key);
    link.addEventListener("click", event => {
      event.preventDefault();
      goTo(id);
    });
  }
  document.addEventListener("keydown", event => {
    const isPlain = event.altKey && !event.ctrlKey && !event.metaKey && !event.shiftKey;
    const id = isPlain ? keys.get(event.code) : undefined;
    if (!id || $("sure").open) return;
    event.preventDefault();
    goTo(id);
  });
}

startPanels();
startSheet(takeTrade);
startTicket({ desk: deskAtHand, atHand: () => desk, showTrade: showAct, addIssue: goToIssue });
startIssue(quoteIssue, cusip => {
  goToTab("amended");
  findAmended(cusip);
});
startTrades(() => desk);
startPositions(() => desk);
startChecks(() => desk);
startAmended(deskAtHand, async (name, reference) => {
  const answer = await openTrade(name, reference, $("sheet-told"));
  if (answer.kind === "done") takeShown(takeForLast);
});
startTabs(refreshPositions);
dress(house);
house.addEventListener("submit", event => {
  event.preventDefault();
  const typed = read(house, ["desk"]);
  if (typed) openDesk(typed.desk);
});
openFirstDesk();
