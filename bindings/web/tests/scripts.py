"""The scripts that bindings/web/tests/page.py runs in the page that it tests, as expressions of JavaScript."""

# Texts in view whose contrast with what is behind them is below 4.5, as the accessibility guidelines ask for.
CONTRAST = """
(() => {
  const parts = (color) => color.match(/[\\d.]+/g).map(Number);
  const light = (channel) => (channel / 255 <= 0.04045 ? channel / 255 / 12.92 : ((channel / 255 + 0.055) / 1.055) ** 2.4);
  const luminance = ([red, green, blue]) => 0.2126 * light(red) + 0.7152 * light(green) + 0.0722 * light(blue);
  const behind = (node) => {
    for (let it = node; it; it = it.parentElement) {
      const color = parts(getComputedStyle(it).backgroundColor);
      if (color.length === 3 || color[3] === 1) return color;
    }
    return [255, 255, 255];
  };
  const drawnBehind = (text) => {
    const { left, top, width, height } = text.getBoundingClientRect();
    const isRect = (it) => it.tagName === "rect" && getComputedStyle(it).fillOpacity === "1" && getComputedStyle(it).fill !== "none";
    const rect = document.elementsFromPoint(left + width / 2, top + height / 2).find(isRect);
    return rect ? parts(getComputedStyle(rect).fill) : behind(text.closest("svg").parentElement);
  };
  const found = new Set();
  for (const node of document.body.querySelectorAll("*")) {
    const hasText = Array.from(node.childNodes).some((it) => it.nodeType === 3 && it.textContent.trim());
    if (!hasText || node.closest("title, .hidden") || !node.checkVisibility({ visibilityProperty: true })) continue;
    const isDrawn = node.closest("svg");
    const [one, other] = isDrawn ? [luminance(parts(getComputedStyle(node).fill)), luminance(drawnBehind(node))]
      : [luminance(parts(getComputedStyle(node).color)), luminance(behind(node))];
    const contrast = (Math.max(one, other) + 0.05) / (Math.min(one, other) + 0.05);
    if (contrast < 4.5) found.add(`${node.tagName} ${node.className} ${contrast.toFixed(2)}`);
  }
  return [...found].slice(0, 8);
})()
"""

# References of one element to another by an id that no element has, and stops of the keyboard that no mark shows.
REFERENCES = """
(() => {
  const names = ["aria-controls", "aria-labelledby", "aria-describedby", "for"];
  const ids = (node, name) => (node.getAttribute(name) ?? "").split(" ").filter(Boolean);
  return Array.from(document.querySelectorAll("body *")).flatMap((node) => names.flatMap((name) =>
    ids(node, name).filter((id) => !document.getElementById(id)).map((id) => `${node.tagName} ${name} ${id}`)));
})()
"""

STOP = """
(() => {
  const it = document.activeElement;
  const { outlineStyle, outlineWidth } = getComputedStyle(it);
  const name = it.getAttribute("aria-label") || it.labels?.[0]?.textContent.trim() || it.textContent.trim().slice(0, 40);
  return { name, isSeen: outlineStyle !== "none" && outlineWidth !== "0px", isBody: it === document.body };
})()
"""

# Rows of the table in view: the first ones up to a number, and the last.
ROWS = """
async (most) => {
  const table = document.querySelector("[role=tabpanel]:not([hidden]) .table");
  const count = Number(table.getAttribute("aria-rowcount")) - 1;
  const frame = () => new Promise((resume) => requestAnimationFrame(resume));
  const found = {};
  const take = async () => {
    await frame();
    await frame();
    while (table.querySelector(".waiting")) await frame();
    for (const row of table.querySelectorAll(".row")) {
      found[row.dataset.index] = Array.from(row.children, (cell) => cell.textContent);
    }
  };
  for (let top = 0; ; top += table.clientHeight - 120) {
    table.scrollTop = top;
    await take();
    if (top + table.clientHeight >= table.scrollHeight || Object.keys(found).length >= most) break;
  }
  table.scrollTop = table.scrollHeight;
  await take();
  return { count, found };
}
"""

# The terms of a list and what it says of each; what the Overview says of the checks.
TERMS = "Array.from(%s, (it) => `${it.textContent}: ${it.nextElementSibling.textContent}`)"
CHECKS = TERMS % """Array.from(document.querySelectorAll(".card")).find((it) =>
  it.querySelector("h3")?.textContent === "What the checks say").querySelectorAll("dt")"""

# Looks a name up in each hash table: what the page says of the table, of its check and of the name.
LOOK_UPS = """
(async (name) => {
  const cards = Array.from(document.querySelectorAll("[role=tabpanel]:not([hidden]) .card"));
  const frame = () => new Promise((resume) => requestAnimationFrame(resume));
  for (const form of cards.map((it) => it.querySelector("form"))) {
    form.querySelector("input").value = name;
    form.requestSubmit();
    while (!form.querySelector("output").textContent || /not checked/.test(form.parentElement.textContent)) await frame();
  }
  return cards.map((it) => ["h3", ".checked", "output"].map((part) => it.querySelector(part).textContent));
})
"""

# Numbers that are cut off in their places, and whether the page is wider than the window.
CUT = """
(() => {
  const isCut = (it) => it.checkVisibility() && it.scrollWidth > it.clientWidth + 1 && getComputedStyle(it).overflowX !== "auto";
  const cut = Array.from(document.querySelectorAll(".number, .count, dd, td, .hextitle span, #filesize")).filter(isCut);
  return [...cut.map((it) => it.textContent), ...(document.documentElement.scrollWidth > innerWidth ? ["the page"] : [])];
})()
"""

# Clicks a section in the strip; whether the symbols of a section are shown.
CLICK = """Array.from(document.querySelectorAll(".strip rect")).find((it) => it.textContent.startsWith("%s  "))
  .dispatchEvent(new MouseEvent("click"))"""
INSIDE = "document.querySelector('.insidesection h3')?.textContent === 'Symbols in %s' && !document.querySelector('.insidesection').hidden"

# Whether the build id, the last of what people look for, is in view.
FIRST = """document.querySelector(".id").getBoundingClientRect().bottom < document.getElementById("panels").getBoundingClientRect().bottom"""

# The pieces of the map, as far as they are drawn, and the bytes of no part that the page says.
PIECES = """
async () => {
  const map = document.querySelector(".mapscroll");
  const frame = () => new Promise((resume) => requestAnimationFrame(resume));
  const found = new Map();
  for (let top = 0; ; top += map.clientHeight / 2) {
    map.scrollTop = top;
    await frame();
    await frame();
    for (const it of map.querySelectorAll("[role=option]:not(.segment)")) {
      const said = it.getAttribute("aria-label");
      const [, label, start, end] = said.match(/^(.*): 0x([0-9a-f]+) to 0x([0-9a-f]+), /);
      found.set(parseInt(start, 16), [label, parseInt(end, 16)]);
    }
    if (top + map.clientHeight >= map.scrollHeight) break;
  }
  const said = document.querySelector("[role=tabpanel]:not([hidden]) .said").textContent;
  return { pieces: [...found].sort((one, other) => one[0] - other[0]), said };
}
"""

# How many elements there are that no module of the page makes.
MADE = "document.querySelectorAll('body script, body img:not(.brand img), body b, body i, body [onerror], body [onload]').length"
