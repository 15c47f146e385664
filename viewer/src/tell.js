// What happened, in the words of a language.
import {HIDDEN, isRed, isShown, placeOf} from "./tiles.js";
import {isSeat} from "./state.js";

/**
 * @typedef {import("./state.js").Deed} Deed
 * @typedef {import("./texts.js").Texts} Texts
 */

/**
 * The name of a tile.
 * @param {string} tile @param {Texts} texts
 */
export function tileIn(tile, texts) {
  if (tile === HIDDEN) return texts.unknown;
  const place = placeOf(tile);
  if (place >= 27) return texts.honours[place - 27];
  const name = [texts.man, texts.pin, texts.sou][Math.floor(place / 9)][place % 9];
  return isRed(tile) ? texts.red(name) : name;
}

const THOUSANDS = new Intl.NumberFormat("en-US");

/** @param {number} value */
export const grouped = value => (value < 0 ? "−" : "") + THOUSANDS.format(Math.abs(value));
/** @param {number} value */
export const signed = value => (value > 0 ? "+" : "") + grouped(value);

/**
 * Why a line can't be shown.
 * @param {import("./state.js").Fault} fault @param {Texts} texts
 */
export const faultIn = ({kind, parts}, texts) => texts.faults[kind](...parts);

/**
 * The name of a hand, as East 1.
 * @param {Deed} start @param {Texts} texts
 */
export const titleOf = (start, texts) => texts.round(texts.winds["ESWN".indexOf(start.bakaze)], start.kyoku);

/**
 * A deed in one sentence.
 * @param {Deed} deed @param {string[]} names @param {Texts} texts @returns {string}
 */
export function sentenceOf(deed, names, texts) {
  const who = isSeat(deed.actor) ? names[deed.actor] : "";
  const tile = isShown(deed.pai) ? tileIn(deed.pai, texts) : "";
  switch (deed.type) {
    case "start_kyoku": return texts.begins(titleOf(deed, texts));
    case "tsumo": return deed.pai === HIDDEN ? texts.drawsHidden(who) : texts.draws(who, tile);
    case "dahai": return deed.tsumogiri ? texts.discardsDrawn(who, tile) : texts.discards(who, tile);
    case "chi": case "pon": case "daiminkan": return texts.calls[deed.type](who, tile, names[deed.target]);
    case "ankan": return texts.ankan(who, tileIn(deed.consumed[3], texts));
    case "kakan": return texts.kakan(who, tile);
    case "dora": return texts.dora(tileIn(deed.dora_marker, texts));
    case "reach": return texts.reach(who);
    case "reach_accepted": return texts.reachAccepted(who);
    case "hora": return deed.actor === deed.target ? texts.tsumo(who, tile) : texts.ron(who, tile, names[deed.target]);
    case "ryukyoku": return texts.drawn(texts.reasons[deed.reason] ?? deed.reason);
    default: return texts.handOver;
  }
}

/**
 * What a hand came to, in a few words.
 * @param {import("./read.js").Hand} hand @param {string[]} names @param {Texts} texts
 */
export function summaryOf(hand, names, texts) {
  const [first] = hand.results;
  if (!first) return texts.notOver;
  if (first.type === "ryukyoku") {
    const reason = first.reason === "fanpai" ? "" : texts.reasons[first.reason] ?? first.reason;
    return reason ? `${texts.draw}: ${reason}` : texts.draw;
  }
  if (hand.results.length > 1) return hand.results.map(deed => names[deed.actor]).join(", ");
  const points = first.hora_points ?? first.deltas[first.actor];
  return (first.actor === first.target ? texts.tsumoFor : texts.ronFor)(names[first.actor], grouped(points));
}

/**
 * What a win is worth: its yaku, each with its han, and the sum.
 * @param {Deed} win @param {Texts} texts
 */
export function worthOf(win, texts) {
  const isYakuman = win.fan >= 100;
  const rows = (win.yakus ?? []).map((/** @type {[string, number?]} */ [name, han]) => ({
    words: texts.yaku[name] ?? name.replaceAll("_", " "), value: isYakuman ? texts.yakuman : han === undefined ? "" : texts.han(han),
  }));
  const sum = isYakuman ? texts.yakuman : win.fan === undefined ? "" : texts.hanAndFu(win.fan, win.fu ?? 0);
  return {rows, sum, points: win.hora_points === undefined ? "" : grouped(win.hora_points)};
}
