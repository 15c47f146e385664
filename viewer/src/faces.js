// The faces of the tiles, drawn by strokes and dots on 30 by 40, so that neither fonts nor pictures are needed.
import {KINDS, REDS, isRed} from "./tiles.js";

// Characters as strokes on a square of 100, so that no font is needed.
/** @type {Record<string, string>} */
const STROKES = {
  1: "M10 50H90", 2: "M20 28H80M8 76H92", 3: "M15 20H85M22 50H78M8 82H92",
  4: "M12 20H88V85H12ZM39 20Q39 48 22 64M61 20V50Q61 60 80 60",
  5: "M15 16H85M46 16L34 82M24 48H72L66 82M6 82H94", 6: "M50 6V24M8 36H92M36 52L14 90M62 52L88 90",
  7: "M8 50L92 36M42 8V74Q42 86 56 86H88V72", 8: "M38 20Q34 62 8 88M58 14Q66 62 94 88",
  9: "M12 36H66Q62 72 68 82Q74 90 92 86V70M38 8Q40 62 8 92",
  ten_thousand: "M5 16H95M32 4V28M68 4V28M24 34H76V60H24ZM24 47H76M50 34V82M12 70H88V90Q88 98 76 96M12 70V98M30 84L66 80",
  E: "M8 19H92M50 3V97M20 34H80V66H20ZM20 50H80M46 67Q34 84 8 93M54 67Q66 84 92 93",
  S: "M12 18H88M50 3V34M14 34H86V94M14 34V97M37 42L43 54M63 42L57 54M30 58H70M28 74H72M50 58V94",
  W: "M8 16H92M14 36H86V92H14ZM39 16V36Q39 58 26 66M61 16V56Q61 63 76 63",
  N: "M38 8V94M10 36H38M6 84L38 70M62 8V78Q62 90 74 90H94V74M62 46L92 30",
  C: "M16 28H84V66H16ZM50 4V97",
  F: "M14 16H38Q34 38 6 50M18 28L28 36M62 6Q66 32 95 48M84 12L70 24M93 26L78 37"
    + "M12 56H38V67H15V79H38Q38 97 24 93M56 54H80V66H93M58 54Q58 68 50 71M52 78H84Q76 92 50 98M60 80Q72 94 95 97",
};
// Circles: middle, radius, colour.
/** @type {Record<number, (number | string)[][]>} */
const PINS = {
  1: [[15, 20, 9.5, "red"]], 2: [[15, 11, 6.5, "green"], [15, 29, 6.5, "blue"]],
  3: [[7.5, 9, 5.3, "blue"], [15, 20, 5.3, "red"], [22.5, 31, 5.3, "green"]],
  4: [[8.5, 11, 5.5, "blue"], [21.5, 11, 5.5, "green"], [8.5, 29, 5.5, "green"], [21.5, 29, 5.5, "blue"]],
  5: [[8, 9.5, 5, "blue"], [22, 9.5, 5, "green"], [15, 20, 5, "red"], [8, 30.5, 5, "green"], [22, 30.5, 5, "blue"]],
  6: [[9, 8.5, 4.6, "green"], [21, 8.5, 4.6, "green"], [9, 20.5, 4.6, "red"], [21, 20.5, 4.6, "red"], [9, 31.5, 4.6, "red"], [21, 31.5, 4.6, "red"]],
  7: [[7, 6.5, 3.9, "green"], [15, 10.5, 3.9, "green"], [23, 14.5, 3.9, "green"],
    [9, 23.5, 3.9, "red"], [21, 23.5, 3.9, "red"], [9, 33, 3.9, "red"], [21, 33, 3.9, "red"]],
  8: [6, 15.3, 24.6, 34].flatMap(y => [[9, y, 4.2, "blue"], [21, y, 4.2, "blue"]]),
  9: [[8, "green"], [20, "red"], [32, "blue"]].flatMap(([y, colour]) => [6.5, 15, 23.5].map(x => [x, y, 3.9, colour])),
};
// Bamboos: middle, slant in degrees, colour.
/** @type {Record<number, (number | string)[][]>} */
const BARS = {
  2: [[15, 11], [15, 29]], 3: [[15, 11], [8.5, 29], [21.5, 29]], 4: [[8.5, 11], [21.5, 11], [8.5, 29], [21.5, 29]],
  5: [[7.5, 10.5], [22.5, 10.5], [15, 20, 0, "red"], [7.5, 29.5], [22.5, 29.5]],
  6: [11, 29].flatMap(y => [7, 15, 23].map(x => [x, y])),
  7: [[15, 7.5, 0, "red"], [7, 20], [15, 20], [23, 20], [7, 32], [15, 32], [23, 32]],
  8: [[6, 11], [12, 11.5, 32], [18, 11.5, -32], [24, 11], [6, 29], [12, 28.5, -32], [18, 28.5, 32], [24, 29]],
  9: [8, 20, 32].flatMap(y => [7, 15, 23].map(x => [x, y, 0, x === 15 ? "red" : "green"])),
};
const BIRD = `<path d="M8 33Q7 20 14 14Q13 9 17 7Q22 5 23 10L26 12L22.5 13Q23 22 16 27Q13 30 13 34Z" fill="var(--green)"/>
  <path d="M10 35L6 36M13 35L12 37M12 30Q18 34 24 32" stroke="var(--red)" stroke-width="1.8" fill="none"/>
  <path d="M17 7L16 3M19.5 6L20 2.5" stroke="var(--red)" stroke-width="1.5"/><circle cx="19.5" cy="10" r="1.2" fill="var(--tile)"/>`;

/** @param {string | number} name @param {number} x @param {number} y @param {number} size @param {string} colour @param {number} width */
const strokes = (name, x, y, size, colour, width) =>
  `<path d="${STROKES[name]}" transform="translate(${x} ${y}) scale(${size / 100})" fill="none" stroke="var(--${colour})"
    stroke-width="${width}" stroke-linecap="round" stroke-linejoin="round"/>`;

/**
 * Paths by their colours, so that a tile has few elements.
 * @param {(readonly [colour: string, path: string])[]} pieces @param {(colour: string, path: string) => string} draw
 */
function byColour(pieces, draw) {
  const colours = [...new Set(pieces.map(([colour]) => colour))];
  return colours.map(wanted => draw(wanted, pieces.filter(([colour]) => colour === wanted).map(([, path]) => path).join(""))).join("");
}

/** @param {number} x @param {number} y @param {number} r */
const circle = (x, y, r) => `M${x - r} ${y}a${r} ${r} 0 1 0 ${2 * r} 0a${r} ${r} 0 1 0 ${-2 * r} 0`;

/** @param {(number | string)[][]} pins @param {(plain: string) => string} colour */
function circlesOf(pins, colour) {
  const pieces = pins.map(([x, y, r, plain]) => /** @type {const} */ ([colour(String(plain)), circle(+x, +y - .6, +r)]));
  const rings = pins.map(([x, y, r]) => circle(+x, +y - .6, +r * .5)).join("");
  return byColour(pieces, (fill, path) => `<path d="${path}" fill="var(--${fill})"/>`)
    + `<path d="${rings}" fill="none" stroke="var(--tile)" stroke-width="${+pins[0][2] * .2}"/>`;
}

/** @param {(number | string)[][]} bars @param {number} long @param {(plain: string) => string} colour */
function barsOf(bars, long, colour) {
  const whole = bars.map(([x, y, slant = 0, plain = "green"]) => {
    const turn = +slant * Math.PI / 180, half = long / 2 - 2;
    const across = (Math.sin(turn) * half).toFixed(2), down = (Math.cos(turn) * half).toFixed(2);
    return {x: +x, y: +y - .6, across: +across, down: +down, turn, colour: colour(String(plain))};
  });
  const pieces = whole.map(it => /** @type {const} */ ([it.colour, `M${it.x + it.across} ${it.y - it.down}L${it.x - it.across} ${it.y + it.down}`]));
  const notches = whole.map(({x, y, turn}) =>
    `M${(x - 2 * Math.cos(turn)).toFixed(2)} ${(y - 2 * Math.sin(turn)).toFixed(2)}L${(x + 2 * Math.cos(turn)).toFixed(2)} ${(y + 2 * Math.sin(turn)).toFixed(2)}`).join("");
  return byColour(pieces, (stroke, path) => `<path d="${path}" stroke="var(--${stroke})" stroke-width="4" stroke-linecap="round"/>`)
    + `<path d="${notches}" stroke="var(--tile)"/>`;
}

/** @param {string} tile */
function faceOf(tile) {
  const number = +tile[0];
  /** @param {string} plain */
  const colour = plain => isRed(tile) ? "red" : plain;
  const dot = isRed(tile) ? `<circle cx="25.3" cy="5" r="2.6" fill="var(--red)"/>` : "";
  if (tile[1] === "m") return strokes(number, 7, 3.5, 16, colour("black"), 11) + strokes("ten_thousand", 7, 20.5, 16, "red", 8.5) + dot;
  if (tile[1] === "p") return circlesOf(PINS[number], colour) + dot;
  if (tile === "1s") return BIRD;
  if (tile[1] === "s") return barsOf(BARS[number], number < 6 ? 14 : number < 7 || number === 8 ? 15 : 9.5, colour) + dot;
  if (tile === "P") return `<rect x="5.5" y="5.5" width="19" height="28" rx="1.5" fill="none" stroke="var(--blue)" stroke-width="2.2"/>`;
  return strokes(tile, 4, 8.5, 22, {F: "green", C: "red"}[tile] ?? "black", 9);
}

/**
 * A tile's body: its side below, its upper face above it.
 * @param {string} fill @param {string} edge
 */
const bodyOf = (fill, edge) => `<rect x=".6" y=".6" width="28.8" height="38.8" rx="3.4" fill="var(--${edge})"/>
  <rect x="1.1" y="1.1" width="27.8" height="36" rx="3" fill="var(--${fill})"/>`;

/** The symbols of all tiles, as SVG; a tile is shown by a use of its symbol. */
export function symbolsOfTiles() {
  const symbols = [...KINDS, ...REDS].map(tile =>
    `<symbol id="t-${tile}" viewBox="0 0 30 40">${bodyOf(isRed(tile) ? "red-tile" : "tile", "tile-edge")}${faceOf(tile)}</symbol>`);
  symbols.push(`<symbol id="t-back" viewBox="0 0 30 40">${bodyOf("back", "back-edge")}</symbol>`);
  return symbols.join("");
}
