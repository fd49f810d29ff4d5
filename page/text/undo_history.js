// What can be undone and done again: steps of line edits, which are moved over the edits of others.

/** @typedef {import("./line_edits.js").Replacement} Replacement
 * @typedef {import("./selection.js").Selection} Selection
 * Lines start..stop became `count` others.
 * @typedef {{ start: number, stop: number, count: number }} Region
 * Edits in order, at places of one text, with the selections before and after them. `writing` is the name of what another program
 * wrote, if they come from there.
 * @typedef {{ edits: Replacement[], before: Selection, after: Selection, when?: number, writing?: string }} Step */

const ONE_GO = 800; // milliseconds: keys in one line within this are undone together
const MOST_STEPS = 1000;
const MOST_REGIONS = 100; // of a step that is left out; one of more counts as one long region

/** The step that takes a step back.
 * @type {(step: Step) => Step} */
export function inverse(step) {
  let more = 0;
  const edits = step.edits.map(({ start, taken, put }) => {
    const edit = { start: start + more, taken: put, put: taken };
    more += put.length - taken.length;
    return edit;
  });
  return { ...step, edits, before: step.after, after: step.before };
}

/** The regions of a step, one after another: each is at a place of the text that those before it leave.
 * @type {(step: Step) => Region[]} */
function regions({ edits }) {
  const last = edits[edits.length - 1], end = last.start + last.taken.length;
  const each = edits.map(({ start, taken, put }) => ({ start, stop: start + taken.length, count: put.length })).reverse();
  if (each.length <= MOST_REGIONS) return each;
  const more = each.reduce((sum, { start, stop, count }) => sum + count - (stop - start), 0);
  return [{ start: edits[0].start, stop: end, count: end - edits[0].start + more }];
}

/** A selection, after lines became others.
 * @type {(selection: Selection, stop: number, more: number) => Selection} */
function movedSelection(selection, stop, more) {
  const move = (/** @type {import("./selection.js").Place} */ place) => (place.line >= stop ? { ...place, line: place.line + more } : place);
  return selection && { ...selection, start: move(selection.start), end: move(selection.end) };
}

/** A step and the edits of others, both of one text: the step after them, and them after the step; null if they meet.
 * @type {(step: Step, others: Region[]) => { step: Step, others: Region[] } | null} */
function rebaseStep(step, others) {
  let { edits, before, after } = step;
  /** @type {Region[]} */
  const then = [];
  for (const { start, stop, count } of others) {
    const more = count - (stop - start);
    /** @type {Replacement[]} */
    const now = [];
    let shift = 0; // by the edits of the step that are before this one
    for (const edit of edits) {
      if (stop <= edit.start) {
        now.push({ ...edit, start: edit.start + more });
      } else if (start >= edit.start + edit.taken.length) {
        now.push(edit);
        shift += edit.put.length - edit.taken.length;
      } else {
        return null;
      }
    }
    then.push({ start: start + shift, stop: stop + shift, count });
    edits = now;
    before = movedSelection(before, stop, more);
    after = movedSelection(after, stop + shift, more);
  }
  return { step: { ...step, edits, before, after }, others: then };
}

/** Steps, of which the last one applies to the present text and the others follow it, after edits of others. Those that meet
 * one are left out.
 * @type {(steps: Step[], edits: Region[]) => Step[]} */
function movedOver(steps, edits) {
  /** @type {Step[]} */
  const kept = [];
  let others = edits;
  for (const step of steps.slice().reverse()) {
    const both = rebaseStep(step, others);
    if (both) kept.push(both.step);
    others = both ? both.others : [...regions(inverse(step)), ...others];
  }
  return kept.reverse();
}

export class History {
  constructor() {
    /** @type {Step[]} */
    this.past = []; // steps: { edits: [{ start, taken, put }], before, after, when }, the selections before and after
    /** @type {Step[]} */
    this.future = []; // steps that were undone, the last one first to be done again
  }

  /** The last step that can be undone. */
  get last() {
    return this.past[this.past.length - 1];
  }

  /** Another step. Keys in one line that follow each other soon are one, but for steps that are to be undone alone.
   * @type {(step: Step, isAlone?: boolean) => void} */
  add(step, isAlone = false) {
    const { last } = this, when = isAlone ? -Infinity : performance.now();
    this.future = [];
    const isNext = !isAlone && last && when - (last.when ?? -Infinity) < ONE_GO && last.edits[0].start === step.edits[0].start;
    if (isNext && isOneLine(last) && isOneLine(step)) {
      last.edits = [{ ...last.edits[0], put: step.edits[0].put }];
      Object.assign(last, { after: step.after, when });
    } else {
      this.past.push({ ...step, when });
    }
    if (this.past.length > MOST_STEPS) this.past.shift();
  }

  /** Adds an edit of what another program wrote. All edits of one name are one step; they come from the end of the text to its
   * begin.
   * @type {(writing: string, edit: Replacement, before: Selection, after: Selection) => void} */
  addWritten(writing, edit, before, after) {
    const { last } = this;
    if (last?.writing === writing) Object.assign(last, { edits: [edit, ...last.edits], after });
    else this.add({ edits: [edit], before, after, writing }, true);
  }

  /** The edits that take the last step back, with the selection then; null if there is none.
   * @type {() => Step | null} */
  undo() {
    const step = this.past.pop();
    if (!step) return null;
    this.future.push(step);
    return inverse(step);
  }

  /** The edits that do again what was undone last.
   * @type {() => Step | null} */
  redo() {
    const step = this.future.pop();
    if (!step) return null;
    this.past.push({ ...step, when: -Infinity });
    return step;
  }

  /** Someone else replaced lines of the present text: steps at other lines move, and those that meet them are left out.
   * @type {(start: number, stop: number, count: number) => void} */
  others(start, stop, count) {
    const edits = [{ start, stop, count }];
    this.past = movedOver(this.past.map(inverse), edits).map(inverse);
    this.future = movedOver(this.future, edits);
  }

  /** Returns the newest steps as text, at most about this many characters.
   * @type {(most: number) => string} */
  stored(most) {
    let room = most;
    const [past, future] = [this.past, this.future].map((steps) => {
      /** @type {string[]} */
      const texts = [];
      for (const step of steps.slice().reverse()) {
        const text = JSON.stringify({ edits: step.edits, before: step.before, after: step.after });
        room -= text.length;
        if (room < 0) break;
        texts.unshift(text);
      }
      return texts.join();
    });
    return `{"past":[${past}],"future":[${future}]}`;
  }

  /** Takes steps that were stored.
   * @type {(text: string) => void} */
  restore(text) {
    /** @type {{ past: Step[], future: Step[] }} */
    const { past, future } = JSON.parse(text);
    this.past = past.map((step) => ({ ...step, when: -Infinity }));
    this.future = future;
  }
}

/** Whether a step replaces a line by a line.
 * @type {(step: Step) => boolean} */
function isOneLine({ edits }) {
  return edits.length === 1 && edits[0].taken.length === 1 && edits[0].put.length === 1;
}
