// Keeps what the worker sent of long tables and of the bytes, page by page.

const MOST_PAGES = 64;

export class Pages {
  /**
   * @param size of a page, in items
   * @param ask returns the items `first .. first + size`, as a promise
   * @param arrived is called when a page is there
   */
  constructor(size, ask, arrived) {
    Object.assign(this, { size, ask, arrived, held: new Map(), asked: new Set() });
  }

  /** The item at an index, or undefined where its page isn't here yet; then it is asked for. */
  at(index) {
    const page = Math.floor(index / this.size);
    const items = this.held.get(page);
    if (items) return items[index - page * this.size];
    if (!this.asked.has(page)) this.fetch(page);
    return undefined;
  }

  async fetch(page) {
    this.asked.add(page);
    try {
      const items = await this.ask(page * this.size, this.size);
      this.held.set(page, items);
      if (this.held.size > MOST_PAGES) this.held.delete(this.held.keys().next().value);
      this.arrived();
    } catch {
      // The worker ended: another file is being opened.
    } finally {
      this.asked.delete(page);
    }
  }
}
