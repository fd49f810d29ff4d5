// Numbers for tunes that need one.

export const LARGEST = 999_999_999; // number of a tune

/** The first number after another one that no tune has; null if there is none.
 * @type {(numbers: number[], after: number) => number | null} */
export function freeNumber(numbers, after) {
  const taken = new Set(numbers);
  let number = after + 1;
  while (taken.has(number)) number += 1;
  return number > LARGEST ? null : number;
}

/** The number after the largest one of a book; null if there is none.
 * @type {(numbers: number[]) => number | null} */
export function nextNumber(numbers) {
  return freeNumber(numbers, numbers.reduce((most, one) => Math.max(most, one), 0));
}
