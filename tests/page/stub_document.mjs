// As much of a browser's document as the page's text box needs, for tests in node: elements, a text area with a selection, and
// whoever types into it.

class Element {
  constructor() {
    this.style = { setProperty() {} };
    this.classList = { toggle() {}, add() {}, remove() {} };
    this.acts = new Map(); // by event: what hears it
    Object.assign(this, { scrollTop: 0, clientHeight: 400, clientWidth: 600, offsetWidth: 600, offsetHeight: 400, scrollWidth: 600, scrollLeft: 0 });
  }

  addEventListener(name, act) {
    this.acts.set(name, [...(this.acts.get(name) ?? []), act]);
  }

  /** Lets those hear an event who want to. */
  tell(name, event = {}) {
    for (const act of this.acts.get(name) ?? []) act({ preventDefault() {}, ...event });
  }

  querySelectorAll() {
    return [];
  }

  focus() {
    document.activeElement = this;
  }

  scrollIntoView() {}
  append() {}
  before() {}
  replaceChildren() {}
}

/** A text area: what is typed there changes its value without setting it. */
class Area extends Element {
  constructor() {
    super();
    this.text = "";
    this.sets = 0; // how often its value was set
    this.setSelectionRange(0, 0, "forward");
  }

  get value() {
    return this.text;
  }

  set value(text) {
    this.text = text;
    this.sets += 1;
    this.setSelectionRange(text.length, text.length, "forward");
  }

  setSelectionRange(start, end, direction = "forward") {
    Object.assign(this, { selectionStart: start, selectionEnd: end, selectionDirection: direction });
  }

  /** Types over what is selected; `composed` is how many characters before the caret a composition replaces. */
  type(words, composed = 0) {
    const start = this.selectionStart - composed;
    this.tell("beforeinput", { inputType: "insertText" });
    this.text = this.text.slice(0, start) + words + this.text.slice(this.selectionEnd);
    this.setSelectionRange(start + words.length, start + words.length);
    this.tell("input");
  }
}

/** The root of a text box. */
export function sheetRoot() {
  const parts = new Map();
  const querySelector = (name) => {
    if (!parts.has(name)) parts.set(name, name === "textarea" ? new Area() : new Element());
    return parts.get(name);
  };
  return { querySelector };
}

globalThis.document = Object.assign(new Element(), { createDocumentFragment: () => new Element(), createElement: () => new Element() });
globalThis.getComputedStyle = () => ({ lineHeight: "20px" });
globalThis.requestAnimationFrame = () => {};
globalThis.ResizeObserver = class {
  observe() {}
};
