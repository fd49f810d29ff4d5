// A QR code as an image.

import { SVG } from "../score/score_elements.js";

const MARGIN = 4; // squares of a code without which telephones do not find it

/** The path of the dark squares of a code, whose rows are made of 0 and 1.
 * @type {(rows: string[]) => string} */
export function pathOf(rows) {
  return rows.flatMap((row, y) => [...row.matchAll(/1+/g)].map(({ index, 0: run }) => `M${index} ${y}h${run.length}v1h-${run.length}z`)).join("");
}

/** @type {(rows: string[]) => SVGElement} */
export function codeImage(rows) {
  const image = document.createElementNS(SVG, "svg"), path = document.createElementNS(SVG, "path"), side = rows.length + 2 * MARGIN;
  image.setAttribute("viewBox", `${-MARGIN} ${-MARGIN} ${side} ${side}`);
  image.setAttribute("role", "img");
  image.setAttribute("aria-label", "QR code of the link");
  path.setAttribute("d", pathOf(rows));
  image.append(path);
  return image;
}
