"""Looks at a page that hold for each of its states: contrast, overlaps, labels, what sticks out."""

# Texts whose contrast to what they stand on is below 4.5, and lines of the curve below 3.
FAINT = """
const numbers = colour => colour.match(/[\\d.]+/g).map(Number);
const linear = part => part <= 0.04045 ? part / 12.92 : ((part + 0.055) / 1.055) ** 2.4;
const light = colour => {
    const [r, g, b] = numbers(colour).map(each => linear(each / 255));
    return 0.2126 * r + 0.7152 * g + 0.0722 * b;
};
const ground = node => {
    for (; node; node = node.parentElement) {
        const colour = getComputedStyle(node).backgroundColor;
        if ((numbers(colour)[3] ?? 1) > 0) return colour;
    }
    return "rgb(255, 255, 255)";
};
const ratio = (one, other) => {
    const [low, high] = [light(one), light(other)].sort((a, b) => a - b);
    return (high + 0.05) / (low + 0.05);
};
const found = [];
const hold = (node, colour, least, what) => {
    const is = ratio(colour, ground(node));
    const name = node.id || node.className.baseVal || node.className;
    if (is < least) found.push(`${what} ${node.tagName} ${name}: ${is.toFixed(2)}`);
};
for (const node of document.querySelectorAll("body *")) {
    const style = getComputedStyle(node);
    if (!node.getClientRects().length || node.closest(":disabled") || style.visibility !== "visible") continue;
    const isField = node.matches("input, select");
    const hasText = [...node.childNodes].some(each => each.nodeType === 3 && each.data.trim());
    if (node.closest("svg")) {
        if (node.tagName === "text") hold(node, style.fill, 4.5, "text");
        if (node.matches("g.redemption")) hold(node, style.color, 3, "line");
        continue;
    }
    if (isField) hold(node, style.borderTopColor, 3, "edge");
    if (isField || hasText) hold(node, style.color, 4.5, "text");
    if (node.placeholder) hold(node, getComputedStyle(node, "::placeholder").color, 4.5, "placeholder");
}
return found;
"""

# Labels and fields that lie over one another, fields too narrow to be read, links too low to be hit, and what sticks
# out of the window.
MISPLACED = """
const box = node => node.getBoundingClientRect();
const name = node => node.id || node.textContent;
const before = (one, other) => one < other - 0.5;
const meet = (one, other) => before(one.left, other.right) && before(other.left, one.right) &&
    before(one.top, other.bottom) && before(other.top, one.bottom);
const shown = [...document.querySelectorAll("input, select, button, label, h1, h2, nav a")]
    .filter(each => each.getClientRects().length && !each.closest("dialog"));
const found = [];
shown.forEach((one, place) => shown.slice(place + 1).forEach(other => {
    const isApart = !one.contains(other) && !other.contains(one);
    if (isApart && meet(box(one), box(other))) found.push(`${name(one)} over ${name(other)}`);
}));
const width = document.documentElement.clientWidth;
const total = document.documentElement.scrollWidth;
for (const each of shown) {
    if (box(each).left < 0 || box(each).right > width + 0.5) found.push(`${name(each)} sticks out`);
}
for (const each of shown) {
    if (each.matches("input") && box(each).width < 60) found.push(`${name(each)} is ${box(each).width} wide`);
    if (each.matches("nav a") && box(each).height < 24) found.push(`${name(each)} is ${box(each).height} high`);
}
if (total > width) found.push(`the page is ${total} wide`);
for (const list of document.querySelectorAll(".wide")) {
    if (list.scrollWidth > list.clientWidth) found.push(`${list.firstElementChild.id || "a table"} sticks out`);
}
return found;
"""

# Fields that have not exactly one name, and labels that name no field.
UNNAMED = """
const fields = [...document.querySelectorAll("input, select")]
    .filter(each => (each.labels.length === 1) === each.hasAttribute("aria-label"));
const labels = [...document.querySelectorAll("label")].filter(each => !each.control);
return [...fields, ...labels].map(each => each.id || each.textContent);
"""

# What has the focus, and whether that can be seen.
FOCUS = """
const node = document.activeElement;
const style = getComputedStyle(node);
const isSeen = node !== document.body && style.outlineStyle !== "none" && parseFloat(style.outlineWidth) >= 2;
return [node.id || node.textContent || node.tagName, isSeen];
"""

# The rows of a table as its texts.
ROWS = """
return [...document.querySelectorAll(arguments[0])].map(row => [...row.cells].map(cell => cell.innerText.trim()));
"""

# All that is typed in the forms.
TYPED = """
return Object.fromEntries([...document.querySelectorAll("input, select")].map(each => [each.id, each.value]));
"""

# Figures that do not stand at the right edge of their column, in one line and with digits of one width.
RAGGED = """
const lines = each => {
    const range = document.createRange();
    range.selectNodeContents(each);
    return new Set([...range.getClientRects()].map(box => Math.round(box.top))).size;
};
return [...document.querySelectorAll(".figure, .value")].filter(each => {
    const style = getComputedStyle(each);
    const isName = each.parentElement.cells?.[0].textContent === "Name";
    const isAligned = style.textAlign === "right" && style.fontVariantNumeric.includes("tabular-nums");
    return !isAligned || (lines(each) > 1 && !isName);
}).map(each => each.id || each.textContent);
"""

# The points of the curve: their group, and yield and price as texts.
POINTS = """
return [...document.querySelectorAll("#curve-plot circle[data-x]")]
    .map(each => [each.parentElement.dataset.redemption, each.dataset.x, each.dataset.y]);
"""
