// The pane of the bytes: open or closed, which the browser remembers once it was chosen.

const KEY = "bytes";

export class Dock {
  /** @param opened is called when the pane was closed and is open */
  constructor(node, button, opened) {
    Object.assign(this, { node, button, opened });
  }

  /** What was chosen, `open` or `closed`; null if nothing was, or the browser keeps nothing. */
  kept() {
    try {
      return localStorage.getItem(KEY);
    } catch {
      return null;
    }
  }

  keep(chosen) {
    try {
      localStorage.setItem(KEY, chosen);
    } catch {
      // A browser that keeps nothing forgets it.
    }
  }

  get isClosed() {
    return this.node.classList.contains("closed");
  }

  show(isOpen) {
    if (isOpen !== this.isClosed) return;
    this.node.classList.toggle("closed", !isOpen);
    this.button.setAttribute("aria-expanded", isOpen);
    if (isOpen) this.opened();
  }

  open() {
    this.show(true);
  }

  close() {
    this.show(false);
  }

  toggle() {
    this.show(this.isClosed);
    this.keep(this.isClosed ? "closed" : "open");
  }
}
