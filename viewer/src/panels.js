// Drawing what stands beside the table: the words, the results, the four hands, the list of deeds, the graph and the strip of hands.
import {toldTo} from "./state.js";
import {element, make} from "./dom.js";
import {cut} from "./table.js";
import {grouped, sentenceOf, signed, summaryOf, tileIn, titleOf, worthOf} from "./tell.js";

/**
 * @typedef {import("./state.js").Deed} Deed
 * @typedef {import("./read.js").Game} Game
 * @typedef {import("./read.js").Hand} Hand
 * @typedef {import("./texts.js").Texts} Texts
 */

/** @param {string} caption @param {{words: string, value: string, isSum?: boolean}[]} list */
function rowsOf(caption, list) {
  const rows = list.map(({words, value, isSum}) =>
    element("tr", null, isSum ? {class: "sum"} : {}, [element("th", words, {scope: "row"}), element("td", value)]));
  return element("table", null, {}, [element("caption", caption), ...rows]);
}

/** @param {Deed} deed @param {string[]} names @param {Texts} texts */
function resultOf(deed, names, texts) {
  const tables = [];
  if (deed.type === "hora") {
    const {rows, sum, points} = worthOf(deed, texts);
    if (rows.length || sum || points) tables.push(rowsOf(texts.yakus, [...rows, {words: sum, value: points, isSum: true}]));
  }
  const moved = names.map((words, seat) => ({words, value: signed(deed.deltas[seat])})).filter((_, seat) => deed.deltas[seat] !== 0);
  tables.push(rowsOf(moved.length ? texts.payments : texts.noPayments, moved));
  return element("div", null, {class: "result"}, [element("h3", sentenceOf(deed, names, texts)), element("div", null, {class: "tables"}, tables)]);
}

/**
 * What has happened up to a deed of a hand: its sentence, where it stands, and the results.
 * @param {Game} game @param {number} hand @param {number} deed @param {(deed: Deed) => Deed} told @param {Texts} texts
 */
export function wordsAt(game, hand, deed, told, texts) {
  const {deeds, results} = game.hands[hand];
  const {deed: newest, line} = deeds[deed - 1];
  const nodes = deeds.slice(0, deed).filter(it => results.includes(it.deed)).map(it => resultOf(it.deed, game.names, texts));
  if (game.end && hand === game.hands.length - 1 && deed === deeds.length) {
    const {scores} = game.end;
    const order = [0, 1, 2, 3].sort((a, b) => scores[b] - scores[a] || a - b);
    nodes.push(element("div", null, {class: "result", id: "end"}, [
      element("h3", texts.gameOver), rowsOf(texts.points, order.map(seat => ({words: game.names[seat], value: grouped(scores[seat])}))),
    ]));
  }
  return {
    sentence: sentenceOf(told(newest), game.names, texts),
    where: texts.where(hand + 1, game.hands.length, deed, deeds.length, line), nodes,
  };
}

/**
 * A small upright tile among words.
 * @param {string} tile @param {Texts} texts
 */
const smallTile = (tile, texts) => make("svg", {viewBox: "0 0 30 40", class: "tile", role: "img", "aria-label": tileIn(tile, texts)}, [
  make("use", {href: `#t-${tile}`, width: 30, height: 40}),
]);

/**
 * The rows of the four hands: how near each is, its waits and what is left of them.
 * @param {(import("./state.js").Nearness | null)[]} all @param {number | null} turn @param {string[]} names @param {Texts} texts
 */
export function seatRows(all, turn, names, texts) {
  return names.map((name, index) => {
    const nearness = all[index];
    const words = !nearness ? texts.unknown : nearness.shanten > 0 ? texts.shanten(nearness.shanten) : texts.ready;
    const waits = element("div", null, {class: "waits"});
    for (const {kind, left} of nearness?.waits ?? []) {
      waits.append(element("span", null, {class: "wait", "data-wait": kind, "data-left": left, title: texts.leftOf(tileIn(kind, texts), left)}, [
        smallTile(kind, texts), element("span", `×${left}`),
      ]));
    }
    const distance = element("td", words, {"data-shanten": nearness?.shanten ?? ""});
    if (nearness?.isFuriten) distance.append(element("strong", texts.furiten, {class: "furiten"}));
    const row = element("tr", null, {"data-seat": index}, [
      element("th", null, {scope: "row"}, [element("span", name, {title: name, dir: "auto"})]), distance, element("td", null, {}, [waits]),
    ]);
    if (turn === index) row.setAttribute("class", "turn");
    return row;
  });
}

/**
 * The deeds of a hand as buttons.
 * @param {Hand} hand @param {string[]} names @param {(deed: Deed) => Deed} told @param {Texts} texts
 */
export const deedItems = (hand, names, told, texts) => hand.deeds.map(({deed}, index) => element("li", null, {}, [
  element("button", sentenceOf(told(deed), names, texts), {type: "button", tabindex: -1, "data-deed": index + 1, class: `of-${deed.type}`}),
]));

/**
 * The hands of a game as buttons.
 * @param {Game} game @param {Texts} texts
 */
export const handItems = (game, texts) => game.hands.map((hand, index) => {
  const start = hand.deeds[0].deed;
  const title = titleOf(start, texts) + (start.honba ? `, ${texts.honba(start.honba)}` : "");
  const button = element("button", null, {type: "button", "data-hand": index}, [element("span", title), element("small", summaryOf(hand, game.names, texts))]);
  return element("li", null, {}, [button]);
});

const GRAPH_HIGH = 132, LEFT = 60, RIGHT = 100, TOP = 10, BOTTOM = 12;

/**
 * The points before each hand and after the last.
 * @param {Game} game @param {number[]} last
 */
const pointsOf = (game, last) => [...game.hands.map(hand => hand.start), last];

/**
 * Places the labels at the ends of the lines so that none lies on another.
 * @param {number[]} wanted
 */
function spread(wanted) {
  const order = [0, 1, 2, 3].sort((a, b) => wanted[a] - wanted[b]);
  const places = [...wanted], gap = 20, last = GRAPH_HIGH - BOTTOM;
  order.forEach((seat, rank) => {
    const least = rank ? places[order[rank - 1]] + gap : TOP;
    places[seat] = Math.max(least, Math.min(wanted[seat], last - (3 - rank) * gap));
  });
  return places;
}

/**
 * The points of the four seats before each hand and after the last: a line each, and a column to press for each hand.
 * @param {Game} game @param {number[]} last the points now @param {number} current the hand that is shown @param {Texts} texts
 * @param {number} room how many pixels there are from left to right
 */
export function graphOf(game, last, current, texts, room) {
  const whole = Math.max(260, room);
  const all = pointsOf(game, last);
  const low = Math.min(0, ...all.flat()), high = Math.max(...all.flat(), 1000);
  const across = whole - LEFT - RIGHT, down = GRAPH_HIGH - TOP - BOTTOM;
  /** @param {number} place */
  const x = place => LEFT + across * place / Math.max(1, all.length - 1);
  /** @param {number} points */
  const y = points => TOP + down * (high - points) / (high - low);
  const nodes = [];
  for (const points of [...new Set([low, 0, high])]) {
    nodes.push(make("path", {class: points === 0 ? "zero" : "rule", d: `M${LEFT} ${y(points)}H${LEFT + across}`}));
  }
  const isNear = low < 0 && y(0) - y(high) > 20 && y(low) - y(0) > 20;
  for (const points of low === 0 || isNear ? [...new Set([low, 0, high])] : [low, high]) {
    nodes.push(make("text", {x: LEFT - 8, y: y(points) + 4, "font-size": 12, "text-anchor": "end"}, [grouped(points)]));
  }
  game.hands.forEach((hand, index) => {
    const said = [titleOf(hand.deeds[0].deed, texts), ...game.names.map((name, seat) => `${name} ${grouped(all[index + 1][seat])}`)].join(", ");
    const wide = x(index + 1) - x(index);
    nodes.push(make("g", {role: "button", tabindex: 0, "aria-label": said, "data-hand": index, class: index === current ? "column current" : "column"}, [
      make("title", {}, [said]), make("rect", {x: x(index), y: TOP, width: wide, height: down}),
    ]));
  });
  game.names.forEach((_, seat) => {
    nodes.push(make("path", {class: `line seat-${seat}`, d: all.map((points, place) => `${place ? "L" : "M"}${x(place)} ${y(points[seat])}`).join("")}));
  });
  const places = spread(last.map(y));
  game.names.forEach((name, seat) => {
    const end = LEFT + across;
    nodes.push(make("path", {class: "rule", d: `M${end + 1} ${y(last[seat])}L${end + 9} ${places[seat]}`}));
    nodes.push(make("path", {class: `line seat-${seat}`, d: `M${end + 10} ${places[seat]}h17`}));
    nodes.push(make("text", {x: end + 31, y: places[seat] + 4, "font-size": 12}, [cut(name, 12, RIGHT - 34)]));
  });
  const svg = make("svg", {viewBox: `0 0 ${whole} ${GRAPH_HIGH}`, role: "group", "aria-label": texts.graph}, nodes);
  return svg;
}

/**
 * Deeds as they are told to a viewer, or to everybody.
 * @param {number | null} viewer @returns {(deed: Deed) => Deed}
 */
export const teller = viewer => deed => viewer === null ? deed : toldTo(deed, viewer);
