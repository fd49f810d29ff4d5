// Elements of a drawing, made one by one of what the server sends: those that are listed here, with attributes that are listed
// here. No text is ever read as markup. svg_markup.py makes what the server sends.

/** A node of a drawing, as the server sends it: its tag, its attributes, and what is in it; or a text.
 * @typedef {[tag: string, attributes: Record<string, any>, ...inside: any[]]} Node
 * @typedef {string | Node} Content
 * @typedef {{ element: SVGElement, row: number, column: number, kind: string, heads: number[], page: Page }} DrawnPlace */

export const SVG = "http://www.w3.org/2000/svg";
const TAGS = new Set(["g", "defs", "path", "ellipse", "circle", "line", "rect", "text", "tspan", "use"]);
const ATTRIBUTES = new Set([
  "class", "cx", "cy", "d", "dx", "dy", "font-family", "font-size", "font-style", "font-weight", "height", "href", "id", "r", "rx", "ry",
  "stroke-dasharray", "stroke-width", "text-anchor", "transform", "viewBox", "width", "x", "x1", "x2", "y", "y1", "y2",
]);
const EDGE = 4; // pixels between words and the edge of their image

/** An image of a drawing: its element is there at once, what is in it when it is filled. */
export class Page {
  /** @param {Node} node
   * @param {DrawnPlace[]} places */
  constructor([, attributes, ...inside], places) {
    this.inside = inside;
    /** @type {SVGElement[]} */
    this.words = [];
    /** @type {Map<Content, SVGElement>} */
    this.covers = new Map(); // by the node of a note: the element that covers it
    this.element = made("svg", attributes);
    this.cover(inside, places);
  }

  /** Makes the elements that cover notes.
   * @type {(nodes: Content[], places: DrawnPlace[]) => void} */
  cover(nodes, places) {
    for (const node of nodes) {
      const [tag, attributes, ...inside] = node;
      if (tag === "place") {
        const { row, column, kind, x, y, width, height, heads = [] } = attributes;
        const element = made("rect", { class: "score-place", rx: "2", x, y, width, height });
        this.covers.set(node, element);
        places.push({ element, row, column, kind, heads, page: this });
      } else if (typeof node !== "string") {
        this.cover(inside, places);
      }
    }
  }

  /** Makes what is in the image, if it is not there. */
  fill() {
    this.element.append(...this.contents(this.inside));
    this.inside = [];
    this.fit();
  }

  /** Writes words smaller that would be cut at an edge of the image, such as a long title. */
  fit() {
    const image = this.element.getBoundingClientRect();
    const rooms = this.words.map((words) => roomOf(words, image));
    this.words.forEach((words, n) => {
      if (rooms[n] < 1) words.setAttribute("font-size", (parseFloat(getComputedStyle(words).fontSize) * rooms[n]).toFixed(2));
    });
    this.words = [];
  }

  /** @type {(nodes: Content[]) => (string | SVGElement)[]} */
  contents(nodes) {
    return nodes.flatMap((node) => this.content(node) ?? []);
  }

  /** A text, or the element of a node; null if it is not to be shown.
   * @type {(node: Content) => string | SVGElement | null} */
  content(node) {
    if (typeof node === "string") return node;
    const cover = this.covers.get(node);
    if (cover) return cover;
    const [tag, attributes, ...inside] = node;
    if (!TAGS.has(tag)) return null;
    const element = made(tag, attributes);
    element.append(...this.contents(inside));
    if (tag === "text") this.words.push(element);
    return element;
  }
}

/** The part of their width that words may have in an image. Words that fit, or have no room at all, may have all of it.
 * @type {(words: SVGElement, image: DOMRect) => number} */
function roomOf(words, image) {
  const { left, right, width } = words.getBoundingClientRect();
  if (!width || (left >= image.left && right <= image.right)) return 1;
  const anchor = words.getAttribute("text-anchor"), middle = (left + right) / 2;
  const rooms = { middle: 2 * Math.min(middle - image.left, image.right - middle) - EDGE, end: right - image.left };
  const room = (rooms[/** @type {"middle" | "end"} */ (anchor)] ?? image.right - left) - EDGE;
  return room > 0 ? Math.min(1, room / width) : 1;
}

/** An element, with those of its attributes that are known.
 * @type {(tag: string, attributes: Record<string, any>) => SVGElement} */
function made(tag, attributes) {
  const element = document.createElementNS(SVG, tag);
  for (const [name, value] of Object.entries(attributes)) {
    if (ATTRIBUTES.has(name) && (name !== "href" || /^#score-[\w.-]+$/.test(value))) element.setAttribute(name, value);
  }
  return element;
}

/** The pages of a drawing, not filled yet; and the places of its notes, each with its page and the element that covers it.
 * @type {(images: Node[]) => { pages: Page[], places: DrawnPlace[] }} */
export function laidOut(images) {
  /** @type {DrawnPlace[]} */
  const places = [];
  const pages = images.filter(([tag]) => tag === "svg").map((image) => new Page(image, places));
  return { pages, places };
}
