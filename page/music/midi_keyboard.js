// A keyboard that is connected by MIDI: which keys are pressed, and which of them together.

/** @typedef {{ requestMIDIAccess?: () => Promise<MIDIAccess> }} Machine */

const NO_MIDI = "This browser has no Web MIDI. Chromium, Chrome, Edge and Firefox have it";
const REFUSED = "The browser does not let this page hear a MIDI keyboard. Allow MIDI devices in its settings for this page";
const TOGETHER = 50; // milliseconds from the first key of a chord to the last one
const NOTE_ON = 9; // of a message to a channel

export class MidiKeyboard {
  /** @param {Machine} machine */
  constructor(machine = navigator) {
    this.machine = machine;
    /** @type {MIDIAccess | null} */
    this.access = null; // while it is heard
    /** @type {number[]} */
    this.keys = []; // that were pressed just now
    /** @type {ReturnType<typeof setTimeout> | undefined} */
    this.timer = undefined;
    /** @type {(keys: number[]) => void} */
    this.pressed = () => {}; // keys that were pressed together
    /** @type {() => void} */
    this.changed = () => {}; // keyboards were connected, or are no more
  }

  /** The names of the keyboards that are heard.
   * @returns {string[]} */
  get names() {
    return this.inputs.map(({ name }) => name || "a MIDI keyboard");
  }

  /** @returns {MIDIInput[]} */
  get inputs() {
    return [...(this.access?.inputs.values() ?? [])].filter(({ state }) => state !== "disconnected");
  }

  /** Hears all keyboards, also those that are connected later. Throws an error that says why it cannot. */
  async open() {
    if (!this.machine.requestMIDIAccess) throw new Error(NO_MIDI);
    const access = await this.machine.requestMIDIAccess().catch(() => {
      throw new Error(REFUSED);
    });
    this.access = access;
    access.onstatechange = () => {
      this.listen();
      this.changed();
    };
    this.listen();
  }

  listen() {
    for (const input of this.inputs) input.onmidimessage = ({ data }) => data && this.hear(data);
  }

  /** Hears no more. */
  close() {
    for (const input of this.inputs) input.onmidimessage = null;
    if (this.access) this.access.onstatechange = null;
    this.access = null;
    clearTimeout(this.timer);
    this.keys = [];
  }

  /** Hears a message: the begin of a note is a key that was pressed. One with the velocity 0 ends.
   * @type {(message: Uint8Array) => void} */
  hear([status, key, velocity]) {
    if (status >> 4 !== NOTE_ON || !velocity) return;
    if (!this.keys.length) this.timer = setTimeout(() => this.tell(), TOGETHER);
    this.keys.push(key);
  }

  tell() {
    const { keys } = this;
    this.keys = [];
    this.pressed(keys);
  }
}
