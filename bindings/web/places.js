// Back and Forward: the start, each file that was opened and each view of it are entries of the browser's history.

// Entries of the page before a reload name files that are gone.
const FIRST = performance.timeOrigin;

export class Places {
  /** @param go is called where Back or Forward leads: with a file and the title of a tab, or with nothing for the start */
  constructor(go) {
    Object.assign(this, { go, files: [] });
    history.replaceState(null, "");
    addEventListener("popstate", ({ state }) => {
      const source = this.files[state?.file - FIRST];
      if (source) go(source, state.tab);
      else go(null);
    });
  }

  /** The view of a file is shown: as a new entry, or in the place of the one before. */
  show(source, tab, isNew) {
    if (!this.files.includes(source)) this.files.push(source);
    const place = { file: FIRST + this.files.indexOf(source), tab };
    if (history.state?.file === place.file && (!isNew || history.state.tab === tab)) history.replaceState(place, "");
    else history.pushState(place, "");
  }

  /** The start is shown. */
  start() {
    if (history.state) history.pushState(null, "");
  }
}
