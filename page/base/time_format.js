// Seconds as a clock shows them.

/** Minutes and seconds: 75 is "1:15".
 * @type {(seconds: number) => string} */
export const clock = (seconds) => `${Math.floor(seconds / 60)}:${String(Math.floor(seconds % 60)).padStart(2, "0")}`;
