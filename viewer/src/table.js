// Drawing the table, seen from above: a square in which an upright tile is 30 by 40. A seat is drawn as the one at the bottom, and
// turned to its side.
import {make} from "./dom.js";
import {HIDDEN, doraOf, isRed, kindOf} from "./tiles.js";
import {grouped, signed, tileIn} from "./tell.js";

/**
 * @typedef {import("./state.js").State} State
 * @typedef {import("./state.js").Seat} Seat
 * @typedef {import("./state.js").Meld} Meld
 * @typedef {import("./state.js").Discard} Discard
 * @typedef {import("./texts.js").Texts} Texts
 * @typedef {import("./dom.js").Attributes} Attributes
 * @typedef {import("./state.js").Nearness} Nearness
 * What is drawn: the state, how near each hand is, the names, the seat at the bottom, and the dora kinds.
 * @typedef {{state: State, nearness: (Nearness | null)[], names: string[], bottom: number, texts: Texts, dora: Set<string>}} Scene
 */

const SIDE = 564, MIDDLE = SIDE / 2, WIDE = 30, HIGH = 40, EDGE = 4;
// Half the middle's side, and where the rivers begin behind it.
const CENTRE = 92, RIVER = 96;
const PLATE_WIDE = 116, PLATE_HIGH = 88;
// The box of a mark on a tile.
const FRAME = {x: 1, y: 1, width: WIDE - 2, height: HIGH - 2, rx: 3.4};

/** @param {string} words @param {number} x @param {number} y @param {number} size @param {Attributes} attributes */
const label = (words, x, y, size, attributes = {}) => make("text", {x, y, "font-size": size, ...attributes}, [words]);

const FONT = "system-ui, sans-serif";
/** @type {Map<string, number>} */
const widths = new Map();
const ruler = /** @type {CanvasRenderingContext2D} */ (document.createElement("canvas").getContext("2d"));

/**
 * How wide words are.
 * @param {string} words @param {number} size @param {number} weight
 */
function widthOf(words, size, weight = 400) {
  const key = `${size} ${weight} ${words}`;
  let wide = widths.get(key);
  if (wide === undefined) {
    ruler.font = `${weight} ${size}px ${FONT}`;
    wide = ruler.measureText(words).width;
    if (widths.size > 5000) widths.clear();
    widths.set(key, wide);
  }
  return wide;
}

/**
 * The beginning of words that fits, with a sign where something is left out.
 * @param {string} words @param {number} size @param {number} wide
 */
export function cut(words, size, wide) {
  if (widthOf(words, size) <= wide) return words;
  const letters = [...words];
  while (letters.length && widthOf(letters.join("") + "…", size) > wide) letters.pop();
  return letters.join("") + "…";
}

/**
 * An upright tile.
 * @param {Scene | null} scene @param {string} tile @param {number} x @param {number} y @param {Attributes} attributes
 */
function tileAt(scene, tile, x, y, attributes = {}) {
  const isBack = tile === HIDDEN || "data-back" in attributes;
  const isDora = !isBack && scene && scene.dora.has(kindOf(tile));
  const isBright = scene && !isBack && (isDora || isRed(tile));
  const group = make("g", {transform: `translate(${x} ${y})`, "data-tile": tile, "data-dora": isBright ? "" : null, ...attributes});
  group.append(make("use", {href: `#t-${isBack ? "back" : tile}`, width: WIDE, height: HIGH, class: isDora ? "of-dora" : null}));
  if (isDora) group.append(make("path", {class: "dora", d: "M1.1 4Q1.1 1.1 4 1.1H13L1.1 13Z"}));
  return group;
}

/**
 * A tile on its side, whose box stands on the line y + HIGH.
 * @param {Scene} scene @param {string} tile @param {number} x @param {number} y @param {Attributes} attributes
 */
const tileOnSide = (scene, tile, x, y, attributes = {}) =>
  tileAt(scene, tile, 0, 0, {"data-side": "", ...attributes, transform: `translate(${x} ${y + HIGH}) rotate(-90)`});

/**
 * The tiles of a meld from the left, the called one on its side: first for the seat to the left, last for the one to the right.
 * A tile that was added to a pon lies on the far side of the called one.
 * @param {Scene} scene @param {Meld} meld @param {number} seat @param {number} x @param {number} y
 */
function meldAt(scene, meld, seat, x, y) {
  const group = make("g", {class: "meld", "data-type": meld.type});
  if (meld.called === null) {
    // (a red five is one of the two that are seen)
    const [seen, ...others] = [...meld.tiles].sort((a, b) => b.length - a.length);
    [others[0], seen, ...others.slice(1)].forEach((tile, index) =>
      group.append(tileAt(scene, tile, x + index * WIDE, y, index % 3 ? {} : {"data-back": ""})));
    return {group, wide: 4 * WIDE};
  }
  const from = (meld.target - seat + 4) % 4;
  const place = from === 3 ? 0 : from === 2 ? 1 : meld.tiles.length;
  let at = x;
  for (let index = 0; index <= meld.tiles.length; index += 1) {
    if (index === place) {
      group.append(tileOnSide(scene, meld.called, at, y, {"data-called": ""}));
      if (meld.added) group.append(tileOnSide(scene, meld.added, at, y - WIDE, {"data-added": ""}));
      if (meld.isRobbed) group.lastElementChild?.append(make("rect", {class: "frame won", ...FRAME}));
      at += HIGH;
    }
    if (index < meld.tiles.length) {
      group.append(tileAt(scene, meld.tiles[index], at, y));
      at += WIDE;
    }
  }
  return {group, wide: at - x};
}

/**
 * A seat's concealed tiles and its melds.
 * @param {Scene} scene @param {number} index
 */
function handOf(scene, index) {
  const {state, names, texts} = scene;
  const seat = state.seats[index], name = names[index];
  const y = SIDE - HIGH - EDGE;
  /** @param {(string | null)[]} tiles */
  const listed = tiles => tiles.flatMap(tile => tile ? [tileIn(tile, texts)] : []).join(", ");
  const hand = make("g", {class: "hand", role: "img", "aria-label": texts.hand(name, listed([...seat.hand, seat.drawn]))});
  seat.hand.forEach((tile, place) => hand.append(tileAt(scene, tile, place * WIDE, y)));
  const next = seat.hand.length * WIDE + 8;
  if (seat.drawn) hand.append(tileAt(scene, seat.drawn, next, y, {"data-drawn": ""}));
  if (seat.drawn && seat.isWinner) hand.append(make("rect", {class: "frame", ...FRAME, x: next + 1, y: y + 1}));
  const said = seat.melds.map(it => `${it.type} ${listed([...it.tiles, it.called, it.added])}`).join("; ") || texts.none;
  const melds = make("g", {class: "melds", role: "img", "aria-label": texts.melds(name, said)});
  let wide = 0;
  for (const meld of seat.melds) {
    const drawn = meldAt(scene, meld, index, wide, y);
    melds.append(drawn.group);
    wide += drawn.wide + 5;
  }
  // (a tile added to a pon of the seat to the left may lie beside the first tile)
  const start = EDGE + HIGH + WIDE / 2 + 9, foot = SIDE - EDGE, room = SIDE - start - EDGE;
  const needed = next + (seat.drawn ? WIDE : 0) + (wide ? 8 + wide - 5 : 0);
  const scale = Math.min(1, room / needed);
  hand.setAttribute("transform", `translate(${start} ${foot}) scale(${scale}) translate(0 ${-foot})`);
  melds.setAttribute("transform", `translate(${foot - (wide - 5) * scale} ${foot}) scale(${scale}) translate(0 ${-foot})`);
  return [hand, melds];
}

/**
 * A seat's discards in rows of six; of more than eighteen the rows are longer and the tiles smaller, so that all lie in the same room.
 * @param {Scene} scene @param {number} index
 */
function riverOf(scene, index) {
  const {state, names, texts} = scene;
  const {river} = state.seats[index];
  const said = river.map(it => tileIn(it.pai, texts)).join(", ") || texts.none;
  const group = make("g", {class: "river", role: "img", "aria-label": texts.river(names[index], said)});
  const long = Math.max(6, Math.ceil(river.length / 3));
  const scale = (6 * WIDE + HIGH - WIDE) / (long * WIDE + HIGH - WIDE);
  group.setAttribute("transform", `translate(${MIDDLE - 3 * WIDE - 5} ${MIDDLE + RIVER}) scale(${scale})`);
  river.forEach((tile, place) => {
    const row = Math.floor(place / long);
    const x = river.slice(row * long, place).reduce((sum, it) => sum + (it.isRiichi ? HIGH : WIDE), 0);
    const y = row * (HIGH + 1);
    /** @type {Attributes} */
    const marks = {
      class: tile.isCalled ? "called" : null, "data-riichi": tile.isRiichi ? "" : null, "data-called": tile.isCalled ? "" : null,
      "data-drawn": tile.isDrawn ? "" : null, "data-newest": tile === state.newest ? "" : null,
    };
    const node = tile.isRiichi ? tileOnSide(scene, tile.pai, x, y, marks) : tileAt(scene, tile.pai, x, y, marks);
    if (tile.isDrawn) node.append(make("rect", {class: "shade", ...FRAME}));
    if (tile.isRiichi) node.append(make("rect", {class: "bid", x: 1, y: 1, width: 4, height: HIGH - 2, rx: 2}));
    if (tile.isCalled) node.append(make("rect", {class: "frame taken", ...FRAME}));
    else if (tile === state.newest) node.append(make("rect", {class: tile.isWon ? "frame won" : "frame", ...FRAME}));
    group.append(node);
  });
  return group;
}

/**
 * What a plate says of its seat in a word: how near the hand is, or that it was ready.
 * @param {Scene} scene @param {number} index
 */
function standingOf(scene, index) {
  const {state, texts} = scene;
  const nearness = scene.nearness[index];
  const isReady = state.seats[index].isReady || nearness?.shanten === 0;
  if (state.seats[index].isWinner || (!nearness && !isReady)) return "";
  if (isReady) return nearness?.isFuriten ? texts.furiten : texts.ready;
  return nearness ? texts.shanten(nearness.shanten) : "";
}

/**
 * The wind, name and points of a seat, upright in the corner to its left.
 * @param {Scene} scene @param {number} index @param {number} position
 */
function plateOf(scene, index, position) {
  const {state, names, texts} = scene;
  // Between two rivers a corner has room from the rivers' side to where a tile added to a pon may lie.
  const near = EDGE + HIGH + WIDE - 10 + 3, far = SIDE - near;
  const x = position === 0 || position === 3 ? near : far - PLATE_WIDE;
  const y = position === 0 || position === 1 ? (MIDDLE + RIVER + far - PLATE_HIGH) / 2 : (MIDDLE - RIVER + near - PLATE_HIGH) / 2;
  const wind = (index - state.dealer + 4) % 4;
  const delta = state.deltas[index];
  const {riichi, isReaching} = state.seats[index];
  const standing = standingOf(scene, index);
  const points = grouped(state.points[index]);
  const said = [names[index], texts.winds[wind], `${points} ${texts.points}`, standing, riichi ? texts.riichi : ""].filter(Boolean).join(", ");
  const group = make("g", {class: state.turn === index ? "plate turn" : "plate", role: "img", "aria-label": said});
  group.append(make("title", {}, [names[index]]));
  group.append(make("rect", {class: "ground", x, y, width: PLATE_WIDE, height: PLATE_HIGH, rx: 9}));
  // a bar on the seat's own side
  const bar = [[10, PLATE_HIGH - 4, PLATE_WIDE - 20, 3], [PLATE_WIDE - 4, 10, 3, PLATE_HIGH - 20], [10, 1, PLATE_WIDE - 20, 3], [1, 10, 3, PLATE_HIGH - 20]];
  const [dx, dy, width, height] = bar[position];
  group.append(make("rect", {class: "bar", x: x + dx, y: y + dy, width, height, rx: 1.5}));
  group.append(make("circle", {cx: x + 20, cy: y + 19, r: 12, class: index === state.dealer ? "wind dealer" : "wind"}));
  group.append(label(texts.winds[wind].slice(0, 1), x + 20, y + 24.5, 15, {"text-anchor": "middle", "font-weight": 700, class: "letter"}));
  group.append(label(cut(names[index], 16, PLATE_WIDE - 46), x + 38, y + 24.5, 16, {class: "name"}));
  const size = Math.min(25, 25 * (PLATE_WIDE - 22) / widthOf(points, 25, 600));
  group.append(label(points, x + 10, y + 55, size, {"font-weight": 600, class: "points"}));
  const wideOfDelta = delta ? widthOf(signed(delta), 15, 600) + 6 : 0;
  if (delta) group.append(label(signed(delta), x + PLATE_WIDE - 9, y + 77, 15, {"text-anchor": "end", "font-weight": 600, class: delta > 0 ? "gain" : "loss"}));
  const words = riichi || isReaching ? texts.riichi : standing;
  if (words && widthOf(words, 15) <= PLATE_WIDE - 18 - wideOfDelta) group.append(label(words, x + 10, y + 77, 15, {class: "quiet"}));
  return group;
}

/**
 * Round, counts, indicators and what is left of the wall.
 * @param {Scene} scene
 */
function centreOf({state, texts}) {
  /** @param {string[]} tiles */
  const listed = tiles => tiles.map(tile => tileIn(tile, texts)).join(", ");
  const title = texts.round(texts.winds["ESWN".indexOf(state.round)], state.number);
  const counts = texts.counts(state.honba, state.deposits), left = texts.left(state.left);
  const said = texts.centre(title, counts, left, listed(state.indicators), listed(state.hidden));
  const group = make("g", {id: "centre", role: "img", "aria-label": said});
  const middle = {"text-anchor": "middle"};
  group.append(make("rect", {class: "ground", x: MIDDLE - CENTRE, y: MIDDLE - CENTRE, width: 2 * CENTRE, height: 2 * CENTRE, rx: 12}));
  const hasHidden = state.hidden.length > 0;
  const top = MIDDLE + (hasHidden ? 0 : 14);
  group.append(label(title, MIDDLE, top - 53, 26, {...middle, "font-weight": 600}));
  group.append(label(counts, MIDDLE, top - 32, 14, {...middle, class: "quiet"}));
  /** @type {[string[], string, number][]} */
  const rows = [[state.indicators, "indicators", top - 25], [state.hidden, "hidden", top + 16]];
  for (const [tiles, name, y] of rows) {
    const row = make("g", {class: name});
    if (name === "indicators" || hasHidden) {
      for (let place = 0; place < 5; place += 1) row.append(tileAt(null, tiles[place] ?? HIDDEN, MIDDLE - 2.5 * WIDE + place * WIDE, y));
    }
    group.append(row);
  }
  group.append(label(left, MIDDLE, MIDDLE + (hasHidden ? 74 : 58), 14, {...middle, class: "quiet"}));
  return group;
}

const stick = () => make("g", {class: "stick"}, [
  make("rect", {x: MIDDLE - 45, y: MIDDLE + CENTRE - 10, width: 90, height: 7, rx: 3.5}),
  make("circle", {cx: MIDDLE, cy: MIDDLE + CENTRE - 6.5, r: 2.2}),
]);

/**
 * The scene of a state.
 * @param {State} state @param {(Nearness | null)[]} nearness @param {string[]} names @param {number} bottom @param {Texts} texts @returns {Scene}
 */
export const sceneOf = (state, nearness, names, bottom, texts) =>
  ({state, nearness, names, bottom, texts, dora: new Set([...state.indicators, ...state.hidden].map(doraOf))});

/**
 * The parts of the table: the felt, the middle and the four seats.
 * @param {Scene} scene
 */
export function tableOf(scene) {
  const nodes = [make("rect", {class: "felt", width: SIDE, height: SIDE, rx: 14}), centreOf(scene)];
  for (let position = 0; position < 4; position += 1) {
    const index = (scene.bottom + position) % 4;
    const turned = make("g", {transform: `rotate(${-90 * position} ${MIDDLE} ${MIDDLE})`}, [riverOf(scene, index), ...handOf(scene, index)]);
    if (scene.state.seats[index].riichi) turned.append(stick());
    nodes.push(make("g", {class: "seat", "data-seat": index, role: "group", "aria-label": scene.names[index]}, [turned, plateOf(scene, index, position)]));
  }
  return nodes;
}
