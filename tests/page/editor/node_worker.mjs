// A worker of the page in node: runs the script of a page's worker in a thread, as a browser does.

import { Worker as Thread, isMainThread, parentPort, workerData } from "node:worker_threads";
import { fileURLToPath } from "node:url";

/** A worker as browsers have it, over a script. */
export class NodeWorker {
  constructor(script) {
    this.thread = new Thread(fileURLToPath(import.meta.url), { workerData: String(script) });
    this.thread.on("message", (data) => this.onmessage?.({ data }));
    this.thread.on("error", (error) => this.onerror?.(error));
  }

  postMessage(message) {
    this.thread.postMessage(message);
  }

  terminate() {
    this.thread.terminate();
  }
}

if (!isMainThread) {
  globalThis.postMessage = (message) => parentPort.postMessage(message);
  await import(workerData);
  parentPort.on("message", (data) => globalThis.onmessage({ data }));
}
