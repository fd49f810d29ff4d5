// What keeps the book of a page: a server, or the browser itself.

/** How text becomes a file: "folder" if a book that was named is in a folder, "picked" if the user picks a file in the browser's
 * dialog, "downloads" if the browser can only download.
 * @typedef {"folder" | "picked" | "downloads"} Saving */
/** What a host offers besides the book, its faults, its tunes and its files. What it does not offer has no button.
 * @typedef {object} Offers
 * @property {Saving} saving
 * @property {boolean} score whether it draws scores
 * @property {boolean} zip whether it puts the MIDI files of all tunes into a .zip
 * @property {boolean} [midi] whether it reads MIDI files
 * @property {boolean} [codes] whether it makes QR codes, and keeps the address to which links lead: else that is the page's own */
/** A host. `ask` and `bytes` take the names that a server has, such as "book", "edit" or "midi/1".
 * @typedef {object} BookHost
 * @property {string} called its name in a sentence, after "the"
 * @property {Offers} offers
 * @property {() => boolean} isKept whether it keeps the text that it has when the window goes
 * @property {boolean} canProve whether it can prove that it is the one of this book
 * @property {() => void} renewed is called when it was started again
 * @property {(name: string) => string} address the address of a name
 * @property {(name: string, body?: object) => Promise<any>} ask asks it; throws an error with the status of the answer, if there was one
 * @property {(name: string) => Promise<ArrayBuffer | null>} bytes the bytes of a file, or null
 * @property {(name: string, control: AbortController, heard: (news: any) => void) => Promise<void>} hear hears what happens to the book
 * @property {() => void} lose gives up what was asked
 * @property {() => Promise<void>} prove lets it prove that it is the one of this book */

export {};
