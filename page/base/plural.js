// Numbers of things, as words.

/** How many there are of a thing: "1 fault", "2 faults".
 * @type {(count: number, thing: string) => string} */
export const counted = (count, thing) => `${count} ${thing}${count === 1 ? "" : "s"}`;
