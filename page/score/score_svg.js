// The score as a file: its pages one below the other in one SVG, black on white.

import { SVG } from "./score_elements.js";

const STYLE = "svg { fill: #000; color: #000; white-space: pre } .score-stroke { fill: none; stroke: #000 } .score-paper { fill: #fff } .score-place { display: none }";

/** The words of the file of some drawings, each with its width and its height.
 * @type {(images: SVGElement[]) => string} */
export function svgOf(images) {
  const sizes = images.map((image) => sizeOf(image)), root = document.createElementNS(SVG, "svg");
  const width = Math.max(...sizes.map((size) => size.width)), height = sizes.reduce((sum, size) => sum + size.height, 0);
  root.setAttribute("viewBox", `0 0 ${width} ${height}`);
  root.setAttribute("width", String(width));
  root.setAttribute("height", String(height));
  root.append(Object.assign(document.createElementNS(SVG, "style"), { textContent: STYLE }), paperOf(width, height));
  let y = 0;
  images.forEach((image, n) => {
    const copy = /** @type {SVGElement} */ (image.cloneNode(true));
    copy.setAttribute("y", String(y));
    root.append(copy);
    y += sizes[n].height;
  });
  return `<?xml version="1.0" encoding="UTF-8"?>\n${new XMLSerializer().serializeToString(root)}\n`;
}

/** @type {(image: SVGElement) => { width: number, height: number }} */
function sizeOf(image) {
  return { width: parseFloat(image.getAttribute("width") ?? "0"), height: parseFloat(image.getAttribute("height") ?? "0") };
}

/** A white sheet below the score.
 * @type {(width: number, height: number) => SVGElement} */
function paperOf(width, height) {
  const paper = document.createElementNS(SVG, "rect");
  for (const [name, value] of Object.entries({ width, height, fill: "#fff" })) paper.setAttribute(name, String(value));
  return paper;
}
