// The names of tiles, their kinds and their order.

/** The 34 kinds in tile order, as mjai writes them. */
export const KINDS = [..."mps"].flatMap(suit => [1, 2, 3, 4, 5, 6, 7, 8, 9].map(number => number + suit)).concat([..."ESWNPFC"]);
export const REDS = ["5mr", "5pr", "5sr"];
/** What stands for a tile that isn't told. */
export const HIDDEN = "?";

const PLACES = new Map([...KINDS, ...REDS].map(tile => [tile, KINDS.indexOf(tile.slice(0, 2))]));

/**
 * The kind of a tile: a red five is a five.
 * @param {string} tile
 */
export const kindOf = tile => tile.slice(0, 2);

/**
 * The place of a tile's kind in tile order, from 0.
 * @param {string} tile
 */
export const placeOf = tile => PLACES.get(tile) ?? -1;

/** @param {unknown} value @returns {value is string} */
export const isTile = value => typeof value === "string" && PLACES.has(value);

/**
 * A tile or a hidden one.
 * @param {unknown} value @returns {value is string}
 */
export const isShown = value => value === HIDDEN || isTile(value);

/**
 * How many of each kind there are.
 * @param {string[]} tiles
 */
export function countsOf(tiles) {
  const counts = new Array(34).fill(0);
  for (const tile of tiles) counts[placeOf(tile)] += 1;
  return counts;
}

/** @param {string} tile */
export const isRed = tile => tile.length === 3;

/** @param {string} tile */
const rank = tile => tile === HIDDEN ? 99 : placeOf(tile) + (isRed(tile) ? .5 : 0);

/** @param {string[]} tiles */
export const sorted = tiles => [...tiles].sort((a, b) => rank(a) - rank(b));

/**
 * The kind that an indicator makes a dora.
 * @param {string} indicator
 */
export function doraOf(indicator) {
  const place = placeOf(indicator);
  if (place < 27) return KINDS[place - place % 9 + (place % 9 + 1) % 9];
  return place < 31 ? KINDS[27 + (place - 26) % 4] : KINDS[31 + (place - 30) % 3];
}
