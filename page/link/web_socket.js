// A WebSocket to the server: a key waits milliseconds less for the answer to a message than for that to a request.

/** What the server answers to a message.
 * @typedef {{ status: number, answer: any }} Answer
 * Who waits for an answer.
 * @typedef {{ done: (answer: Answer) => void, fail: (error: Error) => void }} Waiting */

const MOST = 30_000; // characters of a message; the server takes four bytes of each
const NUMBER = 4; // bytes before a file
export const OK = 200; // a status

export class Socket {
  /** @param {string} address
   * @param {string} noAnswer says why there is no answer, if the connection ends */
  constructor(address, noAnswer) {
    this.noAnswer = noAnswer;
    this.count = 0; // messages
    /** @type {Map<number, Waiting>} */
    this.waiting = new Map(); // by the number of a message
    this.socket = new WebSocket(address);
    this.socket.binaryType = "arraybuffer";
    this.socket.onmessage = ({ data }) => this.hear(data);
    this.socket.onclose = () => this.end();
  }

  /** Whether a message may be sent. */
  get isOpen() {
    return this.socket.readyState === WebSocket.OPEN;
  }

  /** Asks the server; null if the message is too long.
   * @type {(name: string, body: object) => Promise<Answer> | null} */
  ask(name, body) {
    const number = this.count + 1, message = JSON.stringify({ number, name, body });
    if (message.length > MOST) return null;
    this.count = number;
    this.socket.send(message);
    return new Promise((done, fail) => this.waiting.set(number, { done, fail }));
  }

  /** @type {(data: string | ArrayBuffer) => void} */
  hear(data) {
    if (typeof data === "string") {
      const { number, status, answer } = JSON.parse(data);
      this.answer(number, { status, answer });
    } else {
      this.answer(new DataView(data).getUint32(0), { status: OK, answer: data.slice(NUMBER) });
    }
  }

  /** @type {(number: number, answer: Answer) => void} */
  answer(number, answer) {
    this.waiting.get(number)?.done(answer);
    this.waiting.delete(number);
  }

  /** Nothing more is answered. */
  end() {
    for (const { fail } of this.waiting.values()) fail(new Error(this.noAnswer));
    this.waiting.clear();
  }

  close() {
    this.socket.close();
    this.end();
  }
}
