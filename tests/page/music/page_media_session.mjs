// Tries the keys for media and the lock of the screen without a browser, on stand-ins for them. The argument is the folder of the page's
// scripts. Each test prints a line, `ok` or `FAILED`, with its name.

import { pathToFileURL } from "node:url";

import { run, same } from "../testing.mjs";

const hears = [];
globalThis.document = { hidden: false, addEventListener: (_, act) => hears.push(act) };
globalThis.MediaMetadata = class {
  constructor(words) {
    Object.assign(this, words);
  }
};
const { MediaKeys } = await import(pathToFileURL(`${process.argv[2]}/music/media_session.js`));

/** The keys over a stand-in: what was done, what the machine shows, and the locks that it gave. */
function world(more = {}) {
  const done = [], locks = [], handlers = {};
  const machine = {
    mediaSession: { setActionHandler: (name, act) => (handlers[name] = act), playbackState: "none", metadata: null },
    wakeLock: {
      async request(kind) {
        const lock = { kind, released: false, async release() { lock.released = true; } };
        locks.push(lock);
        return lock;
      },
    },
    ...more,
  };
  const keys = new MediaKeys({ playOrStop: () => done.push("play or stop"), step: (isForward) => done.push(isForward) }, () => ({ title: "Kesh", album: "reels.abc" }), machine);
  return { keys, machine, done, locks, handlers };
}
const rest = () => new Promise((then) => setTimeout(then, 0));

const tests = {
  "keys act on the tune that plays, and on the one that does not"() {
    const { keys, done, handlers } = world();
    handlers.pause();
    handlers.stop();
    handlers.play();
    keys.show(true);
    handlers.play();
    handlers.pause();
    handlers.nexttrack();
    handlers.previoustrack();
    same(done, ["play or stop", "play or stop", true, false]);
  },

  "the machine shows the tune and whether it plays"() {
    const { keys, machine } = world();
    keys.show(true);
    same([machine.mediaSession.playbackState, { ...machine.mediaSession.metadata }], ["playing", { title: "Kesh", album: "reels.abc", artist: "" }]);
    keys.show(false);
    same(machine.mediaSession.playbackState, "paused");
  },

  async "the screen stays on while it plays, also after the tab was hidden"() {
    const { keys, locks } = world();
    keys.show(true);
    await rest();
    same(locks.map(({ kind, released }) => [kind, released]), [["screen", false]]);
    locks[0].released = true; // as the browser does when the tab is hidden
    hears.at(-1)();
    await rest();
    same(locks.map(({ released }) => released), [true, false]);
    keys.show(false);
    await rest();
    same(locks.map(({ released }) => released), [true, true]);
    hears.at(-1)();
    await rest();
    same(locks.length, 2);
  },

  async "a lock that comes after the end is given back, and one is enough"() {
    const { keys, locks } = world();
    keys.show(true);
    keys.show(false);
    await rest();
    same(locks.map(({ released }) => released), [true]);
    keys.show(true);
    await rest();
    hears.at(-1)();
    await rest();
    same(locks.map(({ released }) => released), [true, false, true]);
  },

  async "a browser may have none of this, or refuse it"() {
    const refusing = { mediaSession: { setActionHandler: () => { throw new TypeError(); } }, wakeLock: { request: async () => { throw new Error(); } } };
    for (const machine of [{ mediaSession: undefined, wakeLock: undefined }, refusing]) {
      const { keys } = world(machine);
      keys.show(true);
      await rest();
      keys.show(false);
      await rest();
    }
  },
};

await run(tests);
process.exit(0);
