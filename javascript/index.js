// The package: a session over the text of a tune book, which keeps the MIDI file of each tune current, edit by edit.

export { Engine, isSupported } from "./engine.js";
export * from "./errors.js";
export { Session } from "./session.js";
