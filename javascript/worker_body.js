// What runs in the worker of a `WorkerSession`: a session, and its answers to the calls.

import { Engine } from "./engine.js";
import { Session } from "./session.js";

const THREADS = "node:worker_threads"; // a name that bundlers for browsers do not look for

/** Holds a lock as long as this worker lives. Whoever waits for it hears of the end. */
function hold(lock) {
  return new Promise((resolve) => {
    navigator.locks.request(lock, () => {
      resolve();
      return new Promise(() => {});
    });
  });
}

/** Answers the calls that come to a port, one by one. */
function serve(port) {
  let session = null;

  async function carryOut(call, words) {
    if (call !== "open") return words ? session[call](...words) : session[call];
    const [module, lock] = words;
    if (lock) await hold(lock);
    session = await Session.open({ engine: module && (await Engine.load(module)) });
  }

  port.onmessage = async ({ data: { id, call, words } }) => {
    try {
      port.postMessage({ id, value: await carryOut(call, words) });
    } catch ({ name, message }) {
      port.postMessage({ id, error: { name, message } });
    }
  };
}

if (typeof WorkerGlobalScope === "function") serve(globalThis);
else import(/* webpackIgnore: true */ /* @vite-ignore */ THREADS).then(({ parentPort }) => serve(parentPort));
