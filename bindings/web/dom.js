// Makes elements. All that comes from a file goes in as text: nothing here, or in any other module of the page, makes
// markup of a string, and the page's policy forbids it.

const SVG = "http://www.w3.org/2000/svg";

function filled(made, attributes, children) {
  for (const [name, value] of Object.entries(attributes)) {
    if (name.startsWith("on")) made.addEventListener(name.slice(2), value);
    else if (name.startsWith("aria-")) made.setAttribute(name, value);
    else if (value !== null && value !== undefined && value !== false) made.setAttribute(name, value === true ? "" : value);
  }
  made.append(...children.flat().filter((child) => child !== null && child !== undefined));
  return made;
}

/** An element with attributes, listeners (`onclick`) and children, which are nodes and texts. */
export function element(tag, attributes = {}, ...children) {
  return filled(document.createElement(tag), attributes, children);
}

export function svg(tag, attributes = {}, ...children) {
  return filled(document.createElementNS(SVG, tag), attributes, children);
}

export function byId(id) {
  return document.getElementById(id);
}

/** The text of an error, marked as one. */
export function faultNode(fault) {
  return element("span", { class: "fault", title: fault.message }, fault.message);
}

/** What a check says: that it passes, or its error. */
export function verdictNode(fault) {
  return fault ? faultNode(fault) : element("span", { class: "fine" }, "passes");
}

/** A message in a box: of sort `error`, `fine` or `note`. */
export function notice(sort, ...children) {
  return element("p", { class: `notice ${sort}` }, ...children);
}

/** Choices with a label: a `select` element with `[value, text]` each. */
export function select(label, choices, onchange) {
  const options = choices.map(([value, text]) => element("option", { value }, text));
  const chosen = element("select", { onchange }, options);
  return { node: element("label", { class: "field" }, element("span", {}, label), chosen), chosen };
}
