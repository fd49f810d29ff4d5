// Colours of voices that differ enough from their background, light or dark.

const HUES = [212, 28, 145, 330, 265, 50, 185, 0, 95, 300, 240, 15, 165, 70, 200];
const SATURATION = 0.7;
const LEAST = 3.2, MOST = 6.5; // contrast of the softest and of the loudest note
const STEPS = 100; // of lightness

/** Red, green and blue, from 0 to 1, of a hue in degrees, a saturation and a lightness.
 * @type {(hue: number, saturation: number, lightness: number) => number[]} */
function rgbOf(hue, saturation, lightness) {
  const reach = saturation * Math.min(lightness, 1 - lightness);
  return [0, 8, 4].map((n) => {
    const k = (n + hue / 30) % 12;
    return lightness - reach * Math.max(-1, Math.min(k - 3, 9 - k, 1));
  });
}

/** The relative luminance of a colour, as WCAG 2 defines it.
 * @type {(rgb: number[]) => number} */
function luminance(rgb) {
  const [red, green, blue] = rgb.map((part) => (part <= 0.04045 ? part / 12.92 : ((part + 0.055) / 1.055) ** 2.4));
  return 0.2126 * red + 0.7152 * green + 0.0722 * blue;
}

/** The contrast of two colours, from 1 to 21.
 * @type {(one: number[], other: number[]) => number} */
export function contrast(one, other) {
  const [dark, light] = [luminance(one), luminance(other)].sort((a, b) => a - b);
  return (light + 0.05) / (dark + 0.05);
}

/** A colour as it is written in style sheets, #rgb or #rrggbb.
 * @type {(text: string) => number[]} */
function rgbOfText(text) {
  const digits = /^\s*#([0-9a-f]+)\s*$/i.exec(text)?.[1] ?? "000000";
  const parts = digits.length < 6 ? [...digits].map((digit) => digit + digit) : digits.match(/../g) ?? [];
  return parts.slice(0, 3).map((part) => parseInt(part, 16) / 255);
}

export class Shades {
  /** The colours of voices on some grounds, which are all light or all dark.
   * @param {string[]} grounds */
  constructor(grounds) {
    this.grounds = grounds.map(rgbOfText);
    this.isDark = luminance(this.grounds[0]) < 0.2;
    /** @type {Map<string, string>} */
    this.found = new Map(); // by voice and velocity
  }

  /** The colour of a voice for notes of a velocity: the louder, the greater its contrast.
   * @type {(voice: number, velocity?: number) => string} */
  of(voice, velocity = 127) {
    const loud = Math.round((velocity / 127) * 8) / 8, name = `${voice % HUES.length} ${loud}`;
    const shade = this.found.get(name) ?? this.shade(HUES[voice % HUES.length], LEAST + (MOST - LEAST) * loud);
    this.found.set(name, shade);
    return shade;
  }

  /** The colour of a hue that is as near to the grounds as a contrast with all of them allows.
   * @type {(hue: number, wanted: number) => string} */
  shade(hue, wanted) {
    for (let step = 0; step <= STEPS; step += 1) {
      const lightness = this.isDark ? step / STEPS : 1 - step / STEPS;
      const rgb = rgbOf(hue, SATURATION, lightness);
      if (this.grounds.every((ground) => contrast(rgb, ground) >= wanted)) return textOf(rgb);
    }
    return this.isDark ? "#ffffff" : "#000000";
  }
}

/** @type {(rgb: number[]) => string} */
function textOf(rgb) {
  return `#${rgb.map((part) => Math.round(part * 255).toString(16).padStart(2, "0")).join("")}`;
}
