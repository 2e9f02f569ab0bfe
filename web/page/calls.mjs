/** Calls of hpr from the page: each is a promise, made in a worker that can be stopped. */

/** A call that was stopped, or for which the worker died. */
export class Stopped extends Error {}

/** A worker, and the calls that it hasn't answered yet. */
export class Calls {
  #make;
  #module;
  #worker = null;
  #waiting = new Map();
  #next = 0;

  /**
   * @param {() => Worker} make makes the worker
   * @param {ArrayBuffer | null} module the bytes of hpr.wasm, where it makes calls
   */
  constructor(make, module = null) {
    this.#make = make;
    this.#module = module;
  }

  /** How many calls are waiting for their answer. */
  get waiting() {
    return this.#waiting.size;
  }

  /** What a call of hpr with these words over these files comes to. */
  async call(words, files) {
    return (await this.#ask({ words, files })).told;
  }

  /** Where the boxes and the lines of a graph are to be drawn. */
  async layout(graph) {
    return (await this.#ask({ graph })).placed;
  }

  /** Ends all calls that are waiting. The next one begins in a new worker. */
  stop() {
    this.#worker?.terminate();
    this.#worker = null;
    const waiting = [...this.#waiting.values()];
    this.#waiting.clear();
    waiting.forEach(({ fail }) => fail(new Stopped('stopped')));
  }

  #ask(request) {
    if (this.#worker === null) {
      this.#start();
    }
    return this.#sent(request);
  }

  #start() {
    this.#worker = this.#make();
    this.#worker.onmessage = ({ data }) => this.#answered(data);
    this.#worker.onerror = (event) => {
      console.error(event.message);
      this.stop();
    };
    if (this.#module !== null) {
      this.#sent({ module: this.#module }).catch((error) => console.error(error));
    }
  }

  #sent(request) {
    const id = this.#next++;
    return new Promise((done, fail) => {
      this.#waiting.set(id, { done, fail });
      this.#worker.postMessage({ id, ...request });
    });
  }

  #answered({ id, error, ...answer }) {
    const it = this.#waiting.get(id);
    this.#waiting.delete(id);
    if (error === undefined) {
      it?.done(answer);
    } else {
      it?.fail(new Error(error));
    }
  }
}
