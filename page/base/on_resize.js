// What is to be done when an element has another size.

/** Acts in the next frame after an element got another size. An act that changes sizes itself would else be late for the browser's
 * present frame, which is an error there.
 * @param {Element} element
 * @param {() => void} act */
export function onResize(element, act) {
  let frame = 0;
  new ResizeObserver(() => {
    cancelAnimationFrame(frame);
    frame = requestAnimationFrame(act);
  }).observe(element);
}
