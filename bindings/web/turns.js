// Work in batches: between two of them the worker does what else was asked, tells how far it is, and may be
// stopped.

const EVERY = 40;

/** What hands out pieces of work. */
export class Turns {
  /** @param tell is called with `{ stage, done, total }` */
  constructor(tell) {
    this.tell = tell;
    this.works = new Set();
  }

  /** Begins work that is `total` long. A second begun under the same stage ends the first. */
  begin(stage, total) {
    for (const other of this.works) if (other.stage === stage) other.stopped = true;
    const work = new Work(this, stage, total);
    this.works.add(work);
    return work;
  }

  /** Ends all work at its next turn. */
  stop() {
    for (const work of this.works) work.stopped = true;
    this.works.clear();
  }
}

class Work {
  constructor(turns, stage, total) {
    Object.assign(this, { turns, stage, total, stopped: false, told: 0 });
  }

  /** Says that `done` of the work is done, and lets other messages in where that was long ago. */
  async turn(done) {
    const now = performance.now();
    if (now - this.told < EVERY && done < this.total) return;
    this.told = now;
    if (!this.stopped) this.turns.tell({ stage: this.stage, done: Number(done), total: Number(this.total) });
    await new Promise((resume) => setTimeout(resume));
  }

  /** Says that the work has ended, by its end or a stop. */
  end() {
    this.turns.works.delete(this);
    if (this.told) this.turns.tell({ stage: this.stage, done: Number(this.total), total: Number(this.total) });
  }
}
