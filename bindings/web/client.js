// Asks the worker that holds the module and the file.

const SCRIPT = "worker.js";
const policy = globalThis.trustedTypes?.createPolicy("worker", { createScriptURL: () => SCRIPT });

/** One worker, with the questions whose results aren't here yet. */
export class Client {
  /** @param onprogress is called with `{ stage, done, total }` */
  constructor(onprogress = () => {}) {
    this.worker = new Worker(policy ? policy.createScriptURL(SCRIPT) : SCRIPT, { type: "module" });
    this.asked = new Map();
    this.last = 0;
    this.worker.addEventListener("message", ({ data }) => {
      if (data.progress) onprogress(data.progress);
      else this.settle(data);
    });
    this.worker.addEventListener("error", (event) => this.end(event.message || "The worker ended."));
  }

  settle({ id, result, failed }) {
    const { resolve, reject } = this.asked.get(id);
    this.asked.delete(id);
    if (failed === undefined) resolve(result);
    else reject(new Error(failed));
  }

  /** The worker's result of a call. */
  ask(call, given = {}) {
    this.last += 1;
    const id = this.last;
    const asked = new Promise((resolve, reject) => this.asked.set(id, { resolve, reject }));
    this.worker.postMessage({ id, call, given });
    return asked;
  }

  /** Ends the worker, whatever it does. */
  end(why = "Stopped.") {
    this.worker.terminate();
    for (const { reject } of this.asked.values()) reject(new Error(why));
    this.asked.clear();
  }
}
