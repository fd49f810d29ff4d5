// Questions in a line above the text. One is shown at a time; the others wait for its answer, so that none is lost.

import { hide } from "../base/elements.js";

/** What each answer does; null puts the question off.
 * @typedef {Record<string, (() => void) | null>} Answers
 * `compare` shows the differences between the texts of a question, and answers nothing.
 * @typedef {{ name: string, about: unknown, words: string, answers: Answers, compare?: () => void }} Question */

const TOO_SOON = 400; // milliseconds in which a click is meant for the question before

export class Questions {
  /** `notice` shows a question, `later` is the button of those that are put off; `back` takes the focus after an answer.
   * @param {HTMLElement} notice
   * @param {HTMLElement} later
   * @param {HTMLElement} back */
  constructor(notice, later, back) {
    this.notice = notice;
    this.later = later;
    this.back = back;
    /** @type {Question[]} */
    this.queue = [];
    /** @type {Question[]} */
    this.putOff = [];
    /** @type {Question | undefined} */
    this.shown = undefined;
    /** @type {Element | null} */
    this.before = null; // what had the focus
    later.addEventListener("click", () => this.recall());
  }

  /** The question of a name, also one that waits or was put off.
   * @type {(name: string) => Question | undefined} */
  find(name) {
    return [...this.queue, ...this.putOff].find((one) => one.name === name);
  }

  /** Asks `words`, with a function for each answer; null puts the question off. A question of the same name about the same
   * thing is not asked twice; one about another thing takes its place.
   * @type {(question: { name: string, about?: unknown, words: string, answers: Answers, compare?: () => void, focus?: boolean }) => void} */
  ask({ name, about = null, words, answers, compare, focus = false }) {
    const known = this.find(name);
    if (!known || known.about !== about) {
      this.withdraw(name);
      this.queue.push({ name, about, words, answers, compare });
      this.show();
    }
    if (focus) this.focus(name);
  }

  /** Takes back a question that has no point any more.
   * @type {(name: string) => void} */
  withdraw(name) {
    if (!this.find(name)) return;
    this.queue = this.queue.filter((one) => one.name !== name);
    this.putOff = this.putOff.filter((one) => one.name !== name);
    this.show();
  }

  /** Shows a question first, and gives it the focus.
   * @type {(name: string) => void} */
  focus(name) {
    const one = this.find(name);
    if (!one) return;
    this.putOff = this.putOff.filter((other) => other !== one);
    this.queue = [one, ...this.queue.filter((other) => other !== one)];
    this.show();
    this.enter();
  }

  /** Gives the focus to the question that is shown; whether there is one.
   * @type {() => boolean} */
  enter() {
    const button = this.notice.querySelector("button");
    if (!button) return false;
    if (!this.notice.contains(document.activeElement)) this.before = document.activeElement;
    button.disabled = false;
    button.focus();
    return true;
  }

  /** Asks again what was put off. */
  recall() {
    this.queue.push(...this.putOff);
    this.putOff = [];
    this.show();
    this.enter();
  }

  /** Shows the first question. */
  show() {
    const [one] = this.queue;
    hide(this.later, !this.putOff.length, this.back);
    this.later.textContent = this.putOff.length === 1 ? "1 question" : `${this.putOff.length} questions`;
    if (one !== this.shown) this.replace(one);
    const more = this.queue.length - 1;
    const count = this.notice.querySelector("small");
    if (count) count.textContent = more > 0 ? `${more} more ${more === 1 ? "question" : "questions"} after this` : "";
  }

  /** @type {(one: Question | undefined) => void} */
  replace(one) {
    const hadFocus = this.notice.contains(document.activeElement);
    const wasShown = Boolean(this.shown);
    this.shown = one;
    this.notice.hidden = !one;
    this.notice.replaceChildren();
    if (hadFocus) this.leave();
    if (!one) return;
    const words = Object.assign(document.createElement("span"), { textContent: one.words });
    const buttons = Object.entries(one.answers).map(([name, act]) => this.button(one, name, act, wasShown));
    const compares = one.compare ? [comparing(one.compare)] : [];
    this.notice.append(words, ...buttons, ...compares, document.createElement("small"));
  }

  /** @type {(one: Question, name: string, act: (() => void) | null, wasShown: boolean) => HTMLButtonElement} */
  button(one, name, act, wasShown) {
    const button = Object.assign(document.createElement("button"), { type: "button", textContent: name, disabled: wasShown });
    if (wasShown) setTimeout(() => (button.disabled = false), TOO_SOON);
    button.addEventListener("click", () => {
      this.queue = this.queue.filter((other) => other !== one);
      if (!act) this.putOff.push(one);
      this.leave();
      this.show();
      act?.();
    });
    return button;
  }

  /** Gives the focus back. */
  leave() {
    const { before } = this;
    this.before = null;
    const isThere = before instanceof HTMLElement && before.isConnected && before !== document.body && !before.matches(":disabled");
    (isThere ? before : this.back).focus({ preventScroll: true });
  }
}

/** @type {(compare: () => void) => HTMLButtonElement} */
function comparing(compare) {
  const button = Object.assign(document.createElement("button"), { type: "button", className: "compare", textContent: "Show the differences" });
  button.addEventListener("click", compare);
  return button;
}
