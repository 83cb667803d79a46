// The tabs at the place of the trades, of which one is chosen.
import { $ } from "./dom.js";

const tabs = [...document.querySelectorAll("#trades [role=tab]")];
const tabOf = name => $(`tab-${name}`);
const panelOf = tab => $(tab.getAttribute("aria-controls"));
let changed = () => {};

export const isShown = name => !panelOf(tabOf(name)).hidden;

function choose(tab) {
  for (const each of tabs) {
    const isChosen = each === tab;
    each.setAttribute("aria-selected", String(isChosen));
    each.tabIndex = isChosen ? 0 : -1;
    panelOf(each).hidden = !isChosen;
  }
  changed();
}

export const chooseTab = name => choose(tabOf(name));

export function goToTab(name) {
  chooseTab(name);
  tabOf(name).focus();
}

// The tabs are walked by Left and Right, and Tab goes from the chosen one into its panel. `whenChanged` is called as
// another one is chosen.
export function startTabs(whenChanged) {
  changed = whenChanged;
  tabs.forEach((tab, place) => {
    tab.addEventListener("click", () => choose(tab));
    tab.addEventListener("keydown", event => {
      const step = { ArrowLeft: -1, ArrowRight: 1 }[event.key];
      if (!step) return;
      event.preventDefault();
      const other = tabs.at((place + step) % tabs.length);
      choose(other);
      other.focus();
    });
  });
}
