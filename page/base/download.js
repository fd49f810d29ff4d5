// Files that the browser stores.

const WHILE = 60000; // milliseconds that the browser has to read one

/** Lets the browser store a file under a name.
 * @type {(content: Blob, name: string) => void} */
export function download(content, name) {
  const anchor = document.createElement("a");
  anchor.href = URL.createObjectURL(content);
  anchor.download = name;
  anchor.click();
  setTimeout(() => URL.revokeObjectURL(anchor.href), WHILE);
}
