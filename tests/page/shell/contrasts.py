"""How well one reads the text that a page in a browser shows: the contrast of each word and placeholder with its background."""

from typing import Any

LEAST = 4.5  # of WCAG for text of this size
SCHEMES = ("light", "dark")
LOW = """
const least = arguments[0], found = [];
const pen = Object.assign(document.createElement("canvas"), { width: 1, height: 1 }).getContext("2d", { willReadFrequently: true });
const parts = (colour) => {
  pen.clearRect(0, 0, 1, 1);
  pen.fillStyle = colour;
  pen.fillRect(0, 0, 1, 1);
  const [red, green, blue, alpha] = pen.getImageData(0, 0, 1, 1).data;
  return [red, green, blue, alpha / 255];
};
const over = ([red, green, blue, alpha], back) => [red, green, blue].map((part, at) => part * alpha + back[at] * (1 - alpha));
const ground = (one) => {
  const own = parts(getComputedStyle(one).backgroundColor);
  return own[3] === 1 || !one.parentElement ? over(own, [255, 255, 255]) : over(own, ground(one.parentElement));
};
const light = (colour) => {
  const [red, green, blue] = colour.map((part) => (part / 255 <= 0.04045 ? part / 3294.6 : ((part / 255 + 0.055) / 1.055) ** 2.4));
  return 0.2126 * red + 0.7152 * green + 0.0722 * blue;
};
const look = (one, colour, words) => {
  const back = ground(one), [low, high] = [light(over(parts(colour), back)), light(back)].sort((a, b) => a - b);
  const contrast = (high + 0.05) / (low + 0.05);
  if (contrast < least) found.push([words, Math.round(contrast * 100) / 100]);
};
const all = document.createTreeWalker(document.body, NodeFilter.SHOW_TEXT);
for (let text = all.nextNode(); text; text = all.nextNode()) {
  const one = text.parentElement, { color, fill } = getComputedStyle(one), colour = one instanceof SVGElement ? fill : color;
  if (text.data.trim() && one.checkVisibility({ visibilityProperty: true }) && parts(colour)[3]) look(one, colour, text.data.trim());
}
for (const one of document.querySelectorAll("input:is([type=text], [type=search], [type=number]), select")) {
  if (!one.checkVisibility({ visibilityProperty: true })) continue;
  look(one, getComputedStyle(one).color, `value of ${one.id}`);
  if (one.placeholder) look(one, getComputedStyle(one, "::placeholder").color, one.placeholder);
}
return found;
"""


def low_contrasts(driver: Any) -> list[tuple[str, str, float]]:
    """The scheme of colours, the words and the contrast of what is hard to read, by day and by night."""
    found = []
    for scheme in SCHEMES:
        driver.execute_cdp_cmd("Emulation.setEmulatedMedia", {"features": [{"name": "prefers-color-scheme", "value": scheme}]})
        found += [(scheme, words, contrast) for words, contrast in driver.execute_script(LOW, LEAST)]
    driver.execute_cdp_cmd("Emulation.setEmulatedMedia", {"features": []})
    return found
