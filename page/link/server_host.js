// The server: how it is asked; and how it proves, after a loss, that it is the one of this book, before it is asked anything
// else. Another program may have taken its port.

import { OK, Socket } from "./web_socket.js";

/** @typedef {import("./web_socket.js").Answer} Answer */

const PATIENCE = 5000; // milliseconds for a proof
const SILENCE = 8000; // milliseconds without a word, after which the server counts as lost: it says one every three seconds
/** @type {{ timeout: (milliseconds: number) => AbortSignal }} */
const signals = /** @type {any} */ (AbortSignal); // the types of an older compiler lack `timeout`
const NO_ANSWER = "it does not answer";
const QUICK = /^(edit|view|midi\/\d+)$/; // what is asked through a socket: its answer takes milliseconds

export class Server {
  /** `key` is the secret of the book, which came with the page. Without a `host` no socket is opened.
   * @param {{ pathname: string, port: string, host?: string }} location
   * @param {string} key */
  constructor({ pathname, port, host = "" }, key) {
    this.token = pathname.split("/")[1];
    this.port = port || "80";
    this.host = host;
    this.key = key;
    /** @type {Socket | null} */
    this.socket = null; // while the window hears what happens to the book
    this.lost = new AbortController(); // ends what was asked of a server that was lost since
    this.renewed = () => {}; // the server was started again: it has another token
    this.called = "server";
    this.offers = { saving: /** @type {const} */ ("folder"), score: true, zip: true, midi: true, codes: true };
  }

  /** The server has the text also when the window goes. */
  isKept() {
    return true;
  }

  /** Whether this browser can check a proof. */
  get canProve() {
    return Boolean(this.key && globalThis.crypto?.subtle);
  }

  /** The address of a name.
   * @type {(name: string) => string} */
  address(name) {
    return `/${this.token}/${name}`;
  }

  /** Asks the server; its answer, or an error with its status.
   * @param {string} name
   * @param {object} [body]
   * @returns {Promise<any>} */
  async ask(name, body) {
    const message = body && this.message(name, body);
    if (message) return answerIn(await message);
    const answer = await fetchOrFail(this.address(name), this.lost.signal, body && { method: "POST", body: JSON.stringify(body) });
    return objectOf(answer);
  }

  /** The bytes of a file, or null.
   * @type {(name: string) => Promise<ArrayBuffer | null>} */
  async bytes(name) {
    const message = this.message(name, {});
    if (message) return message.then(({ status, answer }) => (status === OK ? answer : null));
    const answer = await fetchOrFail(this.address(name), this.lost.signal);
    return answer.ok ? answer.arrayBuffer() : null;
  }

  /** Asks through the socket; null if none is open, if the name is none for it, or if there is too much to ask.
   * @type {(name: string, body: object) => Promise<Answer> | null} */
  message(name, body) {
    return this.socket?.isOpen && QUICK.test(name) ? this.socket.ask(name, body) : null;
  }

  /** Opens a socket. A browser may refuse that: then all is asked by requests.
   * @type {() => Socket | null} */
  connect() {
    try {
      return this.host ? new Socket(`ws://${this.host}${this.address("socket")}`, NO_ANSWER) : null;
    } catch {
      return null;
    }
  }

  /** Hears the objects that the server sends, one after another; throws when it says no more, which also aborts `control`.
   * @type {(name: string, control: AbortController, heard: (news: any) => void) => Promise<void>} */
  async hear(name, control, heard) {
    /** @type {ReturnType<typeof setTimeout> | undefined} */
    let timer = undefined;
    const wait = () => {
      clearTimeout(timer);
      timer = setTimeout(() => control.abort(), SILENCE);
    };
    wait();
    /** @type {Socket | null} */
    let socket = null;
    try {
      const answer = await fetchOrFail(this.address(name), control.signal);
      if (!answer.ok) await objectOf(answer);
      if (!answer.body) throw new Error(NO_ANSWER);
      socket = this.socket = answer.headers.has("Sec-WebSocket-Version") ? this.connect() : null;
      const reader = answer.body.pipeThrough(new TextDecoderStream()).getReader();
      for (let rest = ""; ; ) {
        const { done, value } = await reader.read();
        if (done) throw new Error(NO_ANSWER);
        wait();
        const lines = (rest + value).split("\n");
        rest = lines.pop() ?? "";
        for (const line of lines) if (line && !control.signal.aborted) heard(JSON.parse(line));
      }
    } catch (error) {
      throw statusOf(error) ? error : new Error(NO_ANSWER);
    } finally {
      clearTimeout(timer);
      control.abort();
      socket?.close();
    }
  }

  /** What was asked of the server is given up. */
  lose() {
    this.socket?.close();
    this.lost.abort();
    this.lost = new AbortController();
  }

  /** Lets the server prove that it has the key of the book, and shows it that this page has it too; then it gives the token of
   * its present start. Whoever else has the port gets nothing. */
  async prove() {
    if (!this.canProve) throw new Error("open the address that it prints when it is started again");
    const nonce = hex(crypto.getRandomValues(new Uint8Array(16)));
    const { run, proof } = await askWithoutToken(`/proof/${nonce}`);
    if (!/^[0-9a-f]{16}$/.test(run) || !/^[0-9a-f]{64}$/.test(proof)) throw stranger();
    const key = await crypto.subtle.importKey("raw", bytes(this.key), { name: "HMAC", hash: "SHA-256" }, false, ["sign", "verify"]);
    const message = (/** @type {string} */ who) => new TextEncoder().encode(`${who} ${this.port} ${run} ${nonce}`);
    if (!(await crypto.subtle.verify("HMAC", key, bytes(proof), message("server")))) throw stranger();
    const own = hex(new Uint8Array(await crypto.subtle.sign("HMAC", key, message("page"))));
    const { token } = await askWithoutToken(`/proof/${nonce}/${own}`);
    if (token === this.token) return;
    this.token = token;
    this.renewed();
  }
}

/** Asks without a token. Who answers something else is a stranger; an answer that does not come to its end is none.
 * @type {(path: string) => Promise<any>} */
async function askWithoutToken(path) {
  const answer = await fetchOrFail(path, signals.timeout(PATIENCE));
  const object = await answer.json().catch((error) => {
    throw error instanceof SyntaxError ? stranger() : new Error(NO_ANSWER);
  });
  if (!answer.ok) throw stranger();
  return { ...object };
}

/** The status of an answer that was an error, undefined if there was no answer.
 * @type {(error: unknown) => number | undefined} */
export function statusOf(error) {
  return error instanceof Error && "status" in error ? /** @type {{ status: number }} */ (error).status : undefined;
}

function stranger() {
  return new Error("another program has its port. Nothing is sent to that one; do not load this page anew");
}

/** @param {string} path
 * @param {AbortSignal} signal
 * @param {RequestInit} [options] */
async function fetchOrFail(path, signal, options) {
  return fetch(path, { ...options, signal, redirect: "error" }).catch(() => {
    throw new Error(NO_ANSWER);
  });
}

/** The object of an answer.
 * @type {(answer: Response) => Promise<any>} */
async function objectOf(answer) {
  const object = await answer.json().catch(() => {
    throw new Error(NO_ANSWER);
  });
  if (!answer.ok) throw refusal(answer.status, object);
  return object;
}

/** What a message brought, or an error with its status.
 * @type {(message: Answer) => any} */
function answerIn({ status, answer }) {
  if (status !== OK) throw refusal(status, answer);
  return answer;
}

/** The error of an answer.
 * @param {number} status
 * @param {{ error: string }} object */
function refusal(status, object) {
  return Object.assign(new Error(object.error), { status, told: object });
}

/** @type {(numbers: Uint8Array) => string} */
const hex = (numbers) => [...numbers].map((number) => number.toString(16).padStart(2, "0")).join("");
const bytes = (/** @type {string} */ digits) => Uint8Array.from(digits.match(/../g) ?? [], (pair) => parseInt(pair, 16));
