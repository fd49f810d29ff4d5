// A link that has a tune in its fragment. A browser sends no fragment to a server.

import { base64Of, bytesOfBase64 } from "../base/base64.js";

export const MOST_CHARACTERS = 8000; // of a link: programs cut longer ones
const MOST_BYTES = 1_000_000; // of the text in a link: a short link may unpack to a long text
const NAMES = { packed: "abc-z", plain: "abc" };

/** Whether this browser packs and unpacks as links do: some have the streams, but not this format.
 * @type {() => boolean} */
function canPack() {
  try {
    return Boolean(new CompressionStream("deflate-raw") && new DecompressionStream("deflate-raw"));
  } catch {
    return false;
  }
}

/** A link to the page at an address with a text.
 * @type {(address: string, text: string) => Promise<string>} */
export async function linkOf(address, text) {
  const bytes = new TextEncoder().encode(text), page = address.split("#")[0];
  if (!canPack()) return `${page}#${NAMES.plain}=${lettersOf(bytes)}`;
  return `${page}#${NAMES.packed}=${lettersOf(await piped(bytes, new CompressionStream("deflate-raw")))}`;
}

/** The text in a fragment, null if it has none. Throws an error that says why a text cannot be read.
 * @type {(fragment: string) => Promise<string | null>} */
export async function textIn(fragment) {
  const [, name, letters] = /^#(abc|abc-z)=(.*)$/.exec(fragment) ?? [];
  if (!name) return null;
  const isPacked = name === NAMES.packed;
  if (isPacked && !canPack()) throw new Error("this browser cannot unpack it");
  try {
    const bytes = bytesOfBase64(letters.replaceAll("-", "+").replaceAll("_", "/"));
    return new TextDecoder("utf-8", { fatal: true }).decode(isPacked ? await piped(bytes, new DecompressionStream("deflate-raw")) : bytes);
  } catch {
    throw new Error("it is not whole");
  }
}

/** Bytes that went through a stream. Throws if they are too many.
 * @type {(bytes: Uint8Array, stream: CompressionStream | DecompressionStream) => Promise<Uint8Array>} */
async function piped(bytes, stream) {
  const reader = new Blob([bytes]).stream().pipeThrough(stream).getReader();
  /** @type {Uint8Array[]} */
  const parts = [];
  for (let size = 0; ; ) {
    const { done, value } = await reader.read();
    if (done) return new Uint8Array(await new Blob(parts).arrayBuffer());
    size += value.length;
    if (size > MOST_BYTES) throw new Error("the text is too long");
    parts.push(value);
  }
}

/** Bytes as letters that may be in a fragment: base 64, as in addresses.
 * @type {(bytes: Uint8Array) => string} */
function lettersOf(bytes) {
  return base64Of(bytes).replaceAll("+", "-").replaceAll("/", "_").replaceAll("=", "");
}
