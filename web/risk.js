// How the price moves with the yield, under the figures. A discounted note has none of it.
import { $, element } from "./dom.js";

const LABELS = {
  "CURRENT YIELD": ["Current yield", "on the price", " %"],
  DURATION: ["Duration", "modified, in years", ""],
  CONVEXITY: ["Convexity", "in years squared", ""],
  DV01: ["DV01", "dollars per 100 of par for 0.01 %", ""],
};

function rowOf([name, value]) {
  const [label, remark, unit] = LABELS[name];
  const row = element("tr");
  row.append(element("th", label, "", { scope: "row" }), element("td", remark, "remark"),
    element("td", value + unit, "value"));
  return row;
}

export function showRisk(risk) {
  if (!risk.length) return;
  const table = element("table");
  table.append(element("caption", "How the price moves with the yield"), ...risk.map(rowOf));
  $("figures-risk").replaceChildren(table);
}
