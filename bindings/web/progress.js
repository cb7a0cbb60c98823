// The progress bar, with the button that stops the work.
import { byId } from "./dom.js";

const LATE = 150;

export class Progress {
  constructor(stop) {
    Object.assign(this, { node: byId("progress"), bar: byId("bar"), text: byId("stage"), timer: 0 });
    byId("stop").addEventListener("click", stop);
  }

  /** Begins to show work, where it takes longer than a moment. */
  begin(name) {
    this.name = name;
    this.bar.removeAttribute("value");
    this.text.textContent = `Opening ${name}`;
    this.timer = setTimeout(() => this.reveal(), LATE);
  }

  reveal() {
    this.node.hidden = false;
  }

  show({ stage, done, total }) {
    this.bar.max = Math.max(total, 1);
    this.bar.value = done;
    this.text.textContent = total ? `${stage}: ${Math.floor((100 * done) / total)} %` : stage;
    clearTimeout(this.late);
    if (done >= total) this.late = setTimeout(() => this.end(), LATE);
    else if (this.node.hidden && !this.timer) this.timer = setTimeout(() => this.reveal(), LATE);
  }

  end() {
    clearTimeout(this.timer);
    this.timer = 0;
    this.node.hidden = true;
  }
}
