// The list of tabs, for the keyboard too: arrows move, Home and End go to the ends. A panel is made when it is first shown.
// A tab that is clicked is a step for Back; one that the keyboard goes over is none.
import { element } from "./dom.js";
import { grouped } from "./text.js";

export class Tabs {
  /** @param chosen is called with the title of a tab, and whether it was clicked */
  constructor(list, panels, chosen = () => {}) {
    Object.assign(this, { list, panels, chosen, tabs: [], current: "Overview" });
    list.addEventListener("keydown", (event) => this.key(event));
  }

  /** Each tab: its title, a count or null, and what makes its panel: `{ node, shown }`. */
  fill(tabs) {
    this.tabs = tabs.map(([title, count, make]) => ({ title, make, made: null, button: this.button(title, count) }));
    this.list.replaceChildren(...this.tabs.map(({ button }) => button));
    this.panels.replaceChildren();
    this.show(this.tabs.find(({ title }) => title === this.current) ?? this.tabs[0]);
  }

  button(title, count) {
    const id = title.toLowerCase().replaceAll(" ", "");
    const number = count === null ? null : element("span", { class: "count" }, grouped(count));
    return element("button", { type: "button", role: "tab", id: `tab-${id}`, class: count === 0 ? "none" : null,
      onclick: () => this.choose(title, true) }, element("span", {}, title), number);
  }

  choose(title, isClick) {
    this.show(this.tabs.find((it) => it.title === title) ?? this.tabs[0]);
    this.chosen(this.current, isClick);
  }

  show(shown) {
    this.current = shown.title;
    shown.made ??= this.made(shown);
    for (const tab of this.tabs) {
      const isShown = tab === shown;
      tab.button.setAttribute("aria-selected", isShown);
      tab.button.tabIndex = isShown ? 0 : -1;
      if (tab.made) tab.made.holder.hidden = !isShown;
    }
    shown.button.scrollIntoView({ block: "nearest", inline: "nearest" });
    shown.made.shown?.();
  }

  made(tab) {
    const panel = tab.make();
    const id = tab.button.id.replace("tab-", "panel-");
    const holder = element("div", { role: "tabpanel", id, "aria-labelledby": tab.button.id }, panel.node);
    this.panels.append(holder);
    tab.button.setAttribute("aria-controls", id);
    return { ...panel, shown: panel.shown, holder };
  }

  key(event) {
    const at = this.tabs.findIndex(({ title }) => title === this.current);
    const last = this.tabs.length - 1;
    const moves = { ArrowDown: at + 1, ArrowRight: at + 1, ArrowUp: at - 1, ArrowLeft: at - 1, Home: 0, End: last };
    if (!(event.key in moves)) return;
    event.preventDefault();
    const next = this.tabs[Math.max(0, Math.min(moves[event.key], last))];
    this.choose(next.title, false);
    next.button.focus();
  }
}
