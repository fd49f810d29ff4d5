// Binary search in sorted lists.

/** How many of the first items of a sorted list are before something.
 * @template T
 * @param {T[]} list
 * @param {(item: T) => boolean} isBefore */
export function countBefore(list, isBefore) {
  let low = 0, high = list.length;
  while (low < high) {
    const middle = (low + high) >> 1;
    if (isBefore(list[middle])) low = middle + 1;
    else high = middle;
  }
  return low;
}
