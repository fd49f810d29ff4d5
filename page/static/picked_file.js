// A file that the user picked in the browser's dialog, by the File System Access API; some browsers do not have it.

/** What the API has, and the types of an older compiler lack.
 * @typedef {{ mode: "read" | "readwrite" }} Mode
 * @typedef {FileSystemFileHandle & { createWritable: () => Promise<any>, queryPermission?: (mode: Mode) => Promise<string>, requestPermission?: (mode: Mode) => Promise<string> }} Handle
 * @typedef {{ showOpenFilePicker?: (options: object) => Promise<Handle[]>, showSaveFilePicker?: (options: object) => Promise<Handle> }} Pickers */

const TYPES = [{ description: "Tune book in ABC notation", accept: { "text/vnd.abc": [".abc", ".txt"] } }];
const NO_DIALOG = "the browser does not open its dialog for files", FORBIDDEN = 403;
const pickers = /** @type {Pickers} */ (globalThis);

/** Whether the user can pick files that the page writes. */
export const canPick = Boolean(pickers.showOpenFilePicker && pickers.showSaveFilePicker);

/** Lets the user pick a file to open.
 * @returns {Promise<PickedFile>} */
export async function pickToOpen() {
  const [handle] = (await pickers.showOpenFilePicker?.({ types: TYPES }).catch(refuse)) ?? [];
  return new PickedFile(handle);
}

/** Lets the user pick a file to save into.
 * @type {(name: string) => Promise<PickedFile>} */
export async function pickToSave(suggestedName) {
  return new PickedFile(/** @type {Handle} */ (await pickers.showSaveFilePicker?.({ suggestedName, types: TYPES }).catch(refuse)));
}

/** Raises the error of a dialog: an `AbortError` if the user closed it, else one in plain words.
 * @type {(error: Error) => never} */
function refuse(error) {
  throw error.name === "AbortError" ? error : Object.assign(new Error(NO_DIALOG), { status: FORBIDDEN });
}

export class PickedFile {
  /** @param {Handle} handle */
  constructor(handle) {
    this.handle = handle;
  }

  get name() {
    return this.handle.name;
  }

  /** Whether the page may read it without a question. After a restart of the browser it may not. */
  async isReadable() {
    return (await this.handle.queryPermission?.({ mode: "read" })) !== "prompt";
  }

  /** Its bytes, null if it is gone.
   * @returns {Promise<Uint8Array | null>} */
  async read() {
    await this.permit("read");
    try {
      return new Uint8Array(await (await this.handle.getFile()).arrayBuffer());
    } catch (error) {
      if (/** @type {Error} */ (error).name === "NotFoundError") return null;
      throw error;
    }
  }

  /** Replaces its bytes in one step.
   * @type {(bytes: Uint8Array) => Promise<void>} */
  async write(bytes) {
    await this.permit("readwrite");
    const stream = await this.handle.createWritable();
    try {
      await stream.write(bytes);
      await stream.close();
    } catch (error) {
      await stream.abort().catch(() => {});
      throw error;
    }
  }

  /** Asks the user for a permission that the page does not have.
   * @type {(mode: Mode["mode"]) => Promise<void>} */
  async permit(mode) {
    const { handle } = this;
    if ((await handle.queryPermission?.({ mode })) !== "prompt") return;
    if ((await handle.requestPermission?.({ mode })) !== "granted") throw new Error("the browser does not permit it");
  }
}
