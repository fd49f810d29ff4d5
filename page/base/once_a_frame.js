// What is done at most once in a frame of the browser.

/** Returns a function after whose calls something is done once, in the next frame.
 * @type {(act: () => void) => () => void} */
export function onceAFrame(act) {
  let isDue = false;
  return () => {
    if (isDue) return;
    isDue = true;
    requestAnimationFrame(() => {
      isDue = false;
      act();
    });
  };
}
