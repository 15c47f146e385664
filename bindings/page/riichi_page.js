// What a page asks of a hand: its waits, its shanten with the nearest complete hand, its best discard, and furiten. The numbers are those of
// crates/riichi_page, as riichi_page.wasm, whose memory has 64-bit places. Where the browser has no such memories, `load` answers null and a
// page shows no numbers.

const NO_KINDS = (1n << 64n) - 1n;
const NO_NUMBER = 255;
const FORM_NUMBERS = {run: 0, triplet: 1, kan: 2};

/**
 * A hand is `held`, how many concealed tiles of each of the 34 kinds, and its melds, each by its form and its lowest kind. Each call answers
 * null where that is no hand: of thirteen tiles for `shanten`, of fourteen for `bestDiscard`, and a meld counts as three.
 * @typedef {{form: "run" | "triplet" | "kan", low: number}} PageMeld
 * @typedef {{
 *   waits: (held: number[], melds?: PageMeld[]) => number[] | null,
 *   shanten: (held: number[], melds?: PageMeld[]) => {number: number, target: number[]} | null,
 *   bestDiscard: (held: number[], melds?: PageMeld[]) => number | null,
 *   furiten: (waits: number[], own: number[], passed: number[], passedInRiichi: number[]) => boolean,
 * }} Hands
 */

/**
 * The kinds of a set, in tile order.
 * @param {bigint} bits
 */
function kindsIn(bits) {
  const kinds = [];
  for (let kind = 0; kind < 34; kind += 1) if ((bits >> BigInt(kind)) & 1n) kinds.push(kind);
  return kinds;
}

/** @param {number[]} kinds */
const bitsOf = kinds => kinds.reduce((bits, kind) => bits | (1n << BigInt(kind)), 0n);

/**
 * The calls of the library in these bytes; null where there are no 64-bit memories.
 * @param {Uint8Array} bytes @returns {Hands | null}
 */
export function load(bytes) {
  if (typeof WebAssembly === "undefined" || !WebAssembly.validate(bytes)) return null;
  const library = /** @type {any} */ (new WebAssembly.Instance(new WebAssembly.Module(bytes)).exports);
  // (arguments stand above all that the library uses of its memory: it takes none beyond its stack and its tables)
  const at = Number(library.__heap_base.value);
  const place = BigInt(at), melded = place + 64n, target = place + 128n;

  /**
   * Calls the library with a hand; null where the numbers have no room.
   * @param {(...given: bigint[]) => any} call @param {number[]} held @param {PageMeld[]} melds @param {bigint[]} more
   */
  function ask(call, held, melds, ...more) {
    if (held.length > 64 || melds.length > 16) return null;
    const memory = new Uint8Array(library.memory.buffer);
    memory.set(held, at);
    melds.forEach((meld, k) => memory.set([FORM_NUMBERS[meld.form], meld.low], at + 64 + 2 * k));
    return call(place, BigInt(held.length), melded, BigInt(melds.length), ...more);
  }

  return {
    waits(held, melds = []) {
      const bits = ask(library.riichi_page_waits, held, melds);
      return bits === null || BigInt.asUintN(64, bits) === NO_KINDS ? null : kindsIn(bits);
    },
    shanten(held, melds = []) {
      const number = ask(library.riichi_page_shanten, held, melds, target, 34n);
      if (number === null || number === NO_NUMBER) return null;
      return {number, target: Array.from(new Uint8Array(library.memory.buffer, at + 128, 34))};
    },
    bestDiscard(held, melds = []) {
      const kind = ask(library.riichi_page_best_discard, held, melds);
      return kind === NO_NUMBER ? null : kind;
    },
    furiten(waits, own, passed, passedInRiichi) {
      return Boolean(library.riichi_page_furiten(bitsOf(waits), bitsOf(own), bitsOf(passed), bitsOf(passedInRiichi)));
    },
  };
}
