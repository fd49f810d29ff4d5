// Bytes in base 64.

/** The bytes that letters in base 64 are. Throws if they are not.
 * @type {(letters: string) => Uint8Array} */
export const bytesOfBase64 = (letters) => Uint8Array.from(atob(letters), (letter) => letter.charCodeAt(0));

/** Bytes in base 64.
 * @type {(bytes: Uint8Array) => string} */
export const base64Of = (bytes) => btoa(Array.from(bytes, (byte) => String.fromCharCode(byte)).join(""));
