// The curve of price over yield: each point is a quote of the desk, in the colour of the redemption that decides.
import { ask, eachOf } from "./ask.js";
import { $, element } from "./dom.js";
import { readLines, scaled, split, unscaled } from "./texts.js";

const STEPS = 40;
const COLOURS = 8;
const MARGIN = { left: 56, right: 14, top: 24, bottom: 40 };
let shown = null;

// Figures of the curve are whole numbers of thousandths.
const thousandths = value => Number(scaled(split(value)[0], 3));
const text = number => unscaled(BigInt(number), 3);
const fixed = number => (number / 1000).toFixed(3);

function pointOf(lines, at) {
  return { at, x: thousandths(lines.get("YIELD")), y: thousandths(lines.get("PRICE")), redemption: lines.get("REDEMPTION") };
}

async function quoteAt(body, by, at) {
  const answer = await ask("/quotes", { ...body, basis: by, value: text(at) });
  if (answer.kind === "done") return pointOf(readLines(answer.text), at);
  return { at, refused: answer.kind === "refused" ? answer.name : "without an answer" };
}

// The points between two of other redemptions, halved down to the thousandth at which it changes.
async function changes(low, high, quote, isCurrent) {
  if (low.redemption === high.redemption || high.at - low.at <= 1 || !isCurrent()) return [];
  const middle = await quote(Math.floor((low.at + high.at) / 2));
  if (middle.refused) return [];
  return [...await changes(low, middle, quote, isCurrent), middle, ...await changes(middle, high, quote, isCurrent)];
}

// Asks for the points around a quote. `body` is what was quoted and `lines` its figures. Gives null if the ticket
// has changed meanwhile.
export async function traceCurve(body, lines, isCurrent) {
  const half = Number($("curve-half").value);
  const quoted = pointOf(lines, 0);
  // A discounted note is asked by no yield, so its points are asked by price.
  const first = await quoteAt(body, "yield", quoted.x);
  const by = first.refused === "WrongBasis" ? "price" : "yield";
  const middle = by === "yield" ? quoted.x : quoted.y;
  const places = Array.from({ length: STEPS + 1 }, (_, step) => middle - half + step * (2 * half / STEPS));
  const quote = at => quoteAt(body, by, at);
  const asked = await eachOf(by === "price" ? places.filter(at => at > 0) : places, quote, isCurrent);
  const points = asked.filter(point => point && !point.refused);
  const refused = asked.filter(point => point?.refused);
  const between = [];
  for (let place = 1; place < points.length; place += 1) {
    between.push(...await changes(points[place - 1], points[place], quote, isCurrent));
  }
  if (!isCurrent()) return null;
  points.push(...between);
  points.sort((one, other) => one.x - other.x);
  return { points, refused, quoted };
}

function make(tag, attributes, words) {
  const node = document.createElementNS("http://www.w3.org/2000/svg", tag);
  for (const [name, value] of Object.entries(attributes)) node.setAttribute(name, value);
  if (words !== undefined) node.textContent = words;
  return node;
}

// Round numbers, about so many, between two ends.
function ticks(low, high, count) {
  if (low === high) return [low];
  const rough = (high - low) / count;
  const power = 10 ** Math.floor(Math.log10(rough));
  const step = Math.max(1, [1, 2, 5, 10].find(each => each * power >= rough) * power);
  const first = Math.ceil(low / step) * step;
  return Array.from({ length: Math.floor((high - first) / step) + 1 }, (_, place) => first + place * step);
}

function axes(svg, scale, ends, size) {
  const bottom = size.height - MARGIN.bottom;
  const right = size.width - MARGIN.right;
  const places = ends.y[1] - ends.y[0] < 5000 ? 2 : 1;
  for (const y of ticks(...ends.y, 5)) {
    svg.append(make("line", { class: "grid", x1: MARGIN.left, x2: right, y1: scale.y(y), y2: scale.y(y) }),
      make("text", { x: MARGIN.left - 6, y: scale.y(y) + 4, "text-anchor": "end" }, (y / 1000).toFixed(places)));
  }
  for (const x of ticks(...ends.x, size.width / 70)) {
    svg.append(make("line", { class: "grid", x1: scale.x(x), x2: scale.x(x), y1: MARGIN.top, y2: bottom }),
      make("text", { x: scale.x(x), y: bottom + 16, "text-anchor": "middle" }, (x / 1000).toFixed(2)));
  }
  svg.append(make("text", { class: "axis", x: 4, y: 13 }, "Price, dollars per 100"),
    make("text", { class: "axis", x: right, y: size.height - 6, "text-anchor": "end" }, "Yield, percent"));
}

function range(points, member) {
  const all = points.map(point => point[member]);
  return [Math.min(...all), Math.max(...all)];
}

// The line and the points of one redemption.
function drawn(redemption, place, points, scale) {
  const group = make("g", { class: `redemption redemption${place % COLOURS}`, "data-redemption": redemption });
  const line = points.filter(point => point.redemption === redemption)
    .map(({ x, y }) => ({ x, y, cx: scale.x(x).toFixed(1), cy: scale.y(y).toFixed(1) }));
  group.append(make("polyline", { points: line.map(({ cx, cy }) => `${cx},${cy}`).join(" ") }));
  for (const { x, y, cx, cy } of line) {
    const dot = make("circle", { cx, cy, r: 1.8, "data-x": fixed(x), "data-y": fixed(y) });
    dot.append(make("title", {}, `${fixed(x)} percent: ${fixed(y)}, ${redemption}`));
    group.append(dot);
  }
  return group;
}

// The mark of what was quoted, with its words on the side that has more room.
function quotedMark(quoted, scale, size) {
  const [x, y] = [scale.x(quoted.x), scale.y(quoted.y)];
  const side = x > size.width / 2 ? { x: x - 10, y: y + 18, "text-anchor": "end" } : { x: x + 10, y: y - 10 };
  return [make("circle", { class: "quoted", cx: x, cy: y, r: 5.5 }),
    make("text", { class: "quoted", ...side }, `quoted: ${fixed(quoted.y)} at ${fixed(quoted.x)}`)];
}

function draw() {
  if (!shown) return;
  const { points, quoted, redemptions } = shown;
  const size = { width: Math.max(280, $("curve-plot").clientWidth), height: 270 };
  const ends = { x: range([...points, quoted], "x"), y: range([...points, quoted], "y") };
  const part = (value, low, high) => high === low ? 0.5 : (value - low) / (high - low);
  const slope = (low, high, from, to) => value => from + part(value, low, high) * (to - from);
  const scale = {
    x: slope(...ends.x, MARGIN.left, size.width - MARGIN.right),
    y: slope(...ends.y, size.height - MARGIN.bottom, MARGIN.top),
  };
  const yields = `yields from ${fixed(ends.x[0])} to ${fixed(ends.x[1])} percent`;
  const svg = make("svg", { ...size, viewBox: `0 0 ${size.width} ${size.height}`, role: "img",
    "aria-label": `Price over ${yields}. The table below has the redemptions.` });
  axes(svg, scale, ends, size);
  svg.append(...redemptions.map((redemption, place) => drawn(redemption, place, points, scale)), ...quotedMark(quoted, scale, size));
  $("curve-plot").replaceChildren(svg);
}

function legend() {
  const table = document.createElement("table");
  const head = table.createTHead().insertRow();
  for (const [word, name] of [["Redemption that decides", ""], ["Yields", "figure"], ["Prices", "figure"]]) {
    head.append(element("th", word, name, { scope: "col" }));
  }
  const body = table.createTBody();
  shown.redemptions.forEach((redemption, place) => {
    const line = shown.points.filter(point => point.redemption === redemption);
    const [x0, x1] = range(line, "x");
    const [y0, y1] = range(line, "y");
    const [day, price, ...label] = redemption.split(" ");
    const row = body.insertRow();
    const colour = `swatch redemption redemption${place % COLOURS}`;
    const swatch = make("svg", { class: colour, width: 24, height: 10, "aria-hidden": "true" });
    swatch.append(make("line", { x1: 0, x2: 24, y1: 5, y2: 5 }));
    const name = element("td");
    const words = ` at ${Number(price)}, ${label.join(" ").toLowerCase()}`;
    name.append(swatch, " ", element("span", day, "whole"), words);
    row.append(name, element("td", `${fixed(x0)} to ${fixed(x1)}`, "figure"),
      element("td", `${fixed(y1)} to ${fixed(y0)}`, "figure"));
  });
  const notes = ["A redemption that decides at none of these yields has no line here. The figures above have each."];
  if (shown.refused.length) {
    const names = [...new Set(shown.refused.map(point => point.refused))].join(", ");
    notes.unshift(`At ${shown.refused.length} of ${STEPS + 1} yields there is no price: ${names}.`);
  }
  $("curve-legend").replaceChildren(table, ...notes.map(words => element("p", words, "note")));
}

export function showCurve(curve) {
  shown = { ...curve, redemptions: [...new Set(curve.points.map(point => point.redemption))] };
  $("curve").classList.add("has");
  draw();
  legend();
}

export function clearCurve() {
  shown = null;
  $("curve").classList.remove("has");
  $("curve-plot").replaceChildren();
  $("curve-legend").replaceChildren();
}

export function startCurve(again) {
  let width = 0;
  new ResizeObserver(() => {
    if ($("curve-plot").clientWidth === width) return;
    width = $("curve-plot").clientWidth;
    draw();
  }).observe($("curve-plot"));
  $("curve-half").addEventListener("change", () => shown && again());
}
