// The state of a hand, and what each deed changes in it.
import {HIDDEN, KINDS, countsOf, kindOf, placeOf, sorted} from "./tiles.js";

/**
 * A deed as its line tells it. The fields are those of mjai.
 * @typedef {{type: string, [field: string]: any}} Deed
 * @typedef {{pai: string, seat: number, isDrawn: boolean, isRiichi: boolean, isCalled: boolean, isWon: boolean}} Discard
 * A meld, and whether its added tile was won on.
 * @typedef {{type: string, tiles: string[], called: string | null, target: number, added: string | null, isRobbed: boolean}} Meld
 * @typedef {{
 *   hand: string[], drawn: string | null, melds: Meld[], river: Discard[],
 *   riichi: boolean, isReaching: boolean, isReady: boolean, isWinner: boolean, isRon: boolean, isShown: boolean,
 *   passed: Set<string>, passedInRiichi: Set<string>,
 * }} Seat
 * @typedef {{
 *   round: string, number: number, honba: number, deposits: number, dealer: number, indicators: string[], hidden: string[],
 *   left: number, points: number[], deltas: number[], seats: Seat[], turn: number | null,
 *   last: Discard | null, newest: Discard | null, offered: {pai: string, seat: number} | null, isOver: boolean,
 * }} State
 */

/**
 * Why a line can't be shown. Each kind has its words in each language.
 * @typedef {"noJson" | "noType" | "badField" | "badHeader" | "badWall" | "noStart" | "begunTwice" | "beforeStart" | "afterEnd"
 *   | "beforeHand" | "handNotOver" | "handBegun" | "handOver" | "points" | "noTileToWin" | "wonTwice" | "notHeld" | "notDrawn" | "drawnTwice"
 *   | "notDiscarded" | "noPon" | "fiveIndicators" | "noHandToShow" | "shownCount" | "otherShown"} FaultKind
 */
export class Fault extends Error {
  /** @param {FaultKind} kind @param {(string | number)[]} parts what stands in its words */
  constructor(kind, ...parts) {
    super(kind);
    this.kind = kind;
    this.parts = parts;
  }
}

/** @param {unknown} value @returns {value is number} */
export const isSeat = value => typeof value === "number" && Number.isInteger(value) && value >= 0 && value < 4;

/**
 * The state after the start of a hand.
 * @param {Deed} deed @param {number[]} points @param {number} deposits @returns {State}
 */
export function begin(deed, points, deposits) {
  /** @param {string[]} hand @returns {Seat} */
  const seatOf = hand => ({
    hand: sorted(hand), drawn: null, melds: [], river: [], riichi: false, isReaching: false, isReady: false,
    isWinner: false, isRon: false, isShown: false, passed: new Set(), passedInRiichi: new Set(),
  });
  return {
    round: deed.bakaze, number: deed.kyoku, honba: deed.honba, deposits: deed.kyotaku ?? deposits, dealer: deed.oya,
    indicators: [deed.dora_marker], hidden: [], left: 70, points: [...points], deltas: [0, 0, 0, 0],
    seats: deed.tehais.map(seatOf), turn: null, last: null, newest: null, offered: null, isOver: false,
  };
}

/**
 * Changes the state by the next deed of the hand; throws where the state doesn't allow it.
 * @param {State} state @param {Deed} deed
 */
export function apply(state, deed) {
  if (state.isOver) throw new Fault("handOver");
  state.deltas = [0, 0, 0, 0];
  if (deed.type !== "hora" && deed.type !== "end_kyoku") letPass(state);
  DEEDS[deed.type](state, deed, state.seats[deed.actor]);
  if (isSeat(deed.actor)) state.turn = deed.actor;
}

/**
 * Nobody won on the tile that was offered last, so others let it pass.
 * @param {State} state
 */
function letPass(state) {
  const {offered} = state;
  if (!offered) return;
  state.seats.forEach((seat, index) => {
    if (index === offered.seat) return;
    seat.passed.add(kindOf(offered.pai));
    if (seat.riichi || seat.isReaching) seat.passedInRiichi.add(kindOf(offered.pai));
  });
  state.offered = null;
}

/**
 * Takes a tile of the seat's hand away, or a hidden one where the hand is hidden.
 * @param {Seat} seat @param {string} tile
 */
function take(seat, tile) {
  const place = [tile, HIDDEN].map(wanted => seat.hand.indexOf(wanted)).find(found => found >= 0);
  if (place !== undefined) seat.hand.splice(place, 1);
  else if (seat.drawn === tile || seat.drawn === HIDDEN) seat.drawn = null;
  else throw new Fault("notHeld", tile);
}

/**
 * The drawn tile goes among the others.
 * @param {Seat} seat
 */
function settle(seat) {
  if (seat.drawn) seat.hand = sorted([...seat.hand, seat.drawn]);
  seat.drawn = null;
}

/** @param {State} state @param {Deed} deed @param {Seat} seat */
function call(state, deed, seat) {
  const tile = state.last;
  if (!tile || tile.seat !== deed.target || tile.pai !== deed.pai || tile.isCalled) throw new Fault("notDiscarded", deed.pai);
  for (const held of deed.consumed) take(seat, held);
  tile.isCalled = true;
  seat.melds.push({type: deed.type, tiles: deed.consumed, called: deed.pai, target: deed.target, added: null, isRobbed: false});
}

/** @param {State} state @param {Deed} deed */
function settlePoints(state, deed) {
  state.points = deed.scores;
  state.deltas = deed.deltas;
}

/** @type {Record<string, (state: State, deed: Deed, seat: Seat) => void>} */
const DEEDS = {
  start_kyoku() { throw new Fault("handBegun"); },
  tsumo(state, deed, seat) {
    if (seat.drawn) throw new Fault("drawnTwice");
    seat.drawn = deed.pai;
    state.left -= 1;
    state.last = null;
  },
  dahai(state, deed, seat) {
    if (deed.tsumogiri && seat.drawn !== deed.pai && seat.drawn !== HIDDEN) throw new Fault("notDrawn", deed.pai);
    if (deed.tsumogiri) seat.drawn = null;
    else take(seat, deed.pai);
    settle(seat);
    state.last = {pai: deed.pai, seat: deed.actor, isDrawn: deed.tsumogiri, isRiichi: seat.isReaching, isCalled: false, isWon: false};
    state.newest = state.last;
    state.offered = {pai: deed.pai, seat: deed.actor};
    seat.passed.clear();
    if (seat.isReaching) seat.riichi = true;
    seat.isReaching = false;
    seat.river.push(state.last);
  },
  chi: call,
  pon: call,
  daiminkan: call,
  ankan(state, deed, seat) {
    settle(seat);
    for (const tile of deed.consumed) take(seat, tile);
    seat.melds.push({type: "ankan", tiles: deed.consumed, called: null, target: deed.actor, added: null, isRobbed: false});
  },
  kakan(state, deed, seat) {
    settle(seat);
    const meld = seat.melds.find(it => it.type === "pon" && it.called && kindOf(it.called) === kindOf(deed.pai));
    if (!meld) throw new Fault("noPon", deed.pai);
    take(seat, deed.pai);
    Object.assign(meld, {type: "kakan", added: deed.pai});
    state.last = null;
    state.offered = {pai: deed.pai, seat: deed.actor};
  },
  dora(state, deed) {
    if (state.indicators.length === 5) throw new Fault("fiveIndicators");
    state.indicators.push(deed.dora_marker);
  },
  reach(state, deed, seat) {
    seat.isReaching = true;
  },
  reach_accepted(state, deed, seat) {
    seat.riichi = true;
    state.deposits += 1;
    settlePoints(state, deed);
  },
  hora(state, deed, seat) {
    if (seat.isWinner) throw new Fault("wonTwice");
    if (deed.hora_tehais) seat.hand = sorted(deed.hora_tehais);
    seat.drawn = deed.pai;
    seat.isWinner = seat.isShown = true;
    seat.isRon = deed.target !== deed.actor;
    const robbed = state.seats[deed.target].melds.find(it => it.added === deed.pai);
    if (seat.isRon && state.last) state.last.isWon = true;
    else if (seat.isRon && robbed) robbed.isRobbed = true;
    if (deed.uradora_markers.length) state.hidden = deed.uradora_markers;
    state.deposits = 0;
    settlePoints(state, deed);
  },
  ryukyoku(state, deed) {
    state.seats.forEach((seat, index) => {
      const hand = deed.tehais?.[index] ?? [];
      seat.isReady = deed.tenpais?.[index] ?? false;
      seat.isShown = hand.length > 0 && !hand.includes(HIDDEN);
      if (seat.isShown && seat.hand.includes(HIDDEN)) Object.assign(seat, {hand: sorted(hand), drawn: null});
    });
    settlePoints(state, deed);
  },
  end_kyoku(state) {
    state.isOver = true;
  },
};

/**
 * The state of a hand after so many of its deeds.
 * @param {import("./read.js").Hand} hand @param {number} deed @returns {State}
 */
export function stateAt(hand, deed) {
  const state = begin(hand.deeds[0].deed, hand.start, hand.deposits);
  for (const {deed: next} of hand.deeds.slice(1, deed)) apply(state, next);
  return state;
}

/**
 * The tiles of a meld.
 * @param {Meld} meld @returns {string[]}
 */
export const tilesOf = meld => [...meld.tiles, ...[meld.called, meld.added].flatMap(tile => tile === null ? [] : [tile])];

/**
 * What is left of each kind as a seat sees it: of its own tiles and of hands that were shown, of all melds, of the rivers and of the
 * indicators. A tile that was called, or won on where it lies, counts once.
 * @param {State} state @param {number} index
 */
function leftFor(state, index) {
  const seen = [...state.indicators, ...state.hidden];
  state.seats.forEach((seat, place) => {
    if (place === index || seat.isShown) seen.push(...seat.hand, ...(seat.drawn && !seat.isRon ? [seat.drawn] : []));
    seen.push(...seat.melds.flatMap(tilesOf), ...seat.river.filter(tile => !tile.isCalled).map(tile => tile.pai));
  });
  return countsOf(seen.filter(tile => tile !== HIDDEN)).map(count => Math.max(0, 4 - count));
}

/** @type {Record<string, import("../../bindings/page/riichi_page.js").PageMeld["form"]>} */
const FORM_OF = {chi: "run", pon: "triplet", daiminkan: "kan", ankan: "kan", kakan: "kan"};

/**
 * How near a seat's hand is: shanten and the waits of its thirteen tiles, of who has drawn before the draw, with the
 * tiles of each wait that it doesn't see. After a call the hand has a tile too many: its shanten is that after the best discard, and it
 * has no waits. Null where the hand is hidden, where there is no library for such numbers, and where its tiles are no hand.
 * @typedef {{shanten: number, waits: {kind: string, left: number}[], isFuriten: boolean}} Nearness
 * @param {State} state @param {number} index @param {import("../../bindings/page/riichi_page.js").Hands | null} library @returns {Nearness | null}
 */
export function nearnessOf(state, index, library) {
  const seat = state.seats[index];
  if (!library || seat.hand.includes(HIDDEN)) return null;
  const held = countsOf(seat.hand);
  const melds = seat.melds.map(meld => ({form: FORM_OF[meld.type], low: Math.min(...tilesOf(meld).map(placeOf))}));
  const spare = library.bestDiscard(held, melds);
  if (spare !== null) held[spare] -= 1;
  const nearest = library.shanten(held, melds);
  if (!nearest) return null;
  const waits = spare === null && library.waits(held, melds) || [];
  const left = leftFor(state, index);
  const own = seat.river.map(tile => placeOf(tile.pai));
  const isFuriten = library.furiten(waits, own, [...seat.passed].map(placeOf), [...seat.passedInRiichi].map(placeOf));
  return {shanten: nearest.number, waits: waits.map(place => ({kind: KINDS[place], left: left[place]})), isFuriten};
}

/**
 * The state as one seat sees it: others' hands are hidden, but those that were shown.
 * @param {State} state @param {number} viewer @returns {State}
 */
export function seenBy(state, viewer) {
  const seats = state.seats.map((seat, index) => index === viewer || seat.isShown ? seat : {
    ...seat, hand: seat.hand.map(() => HIDDEN), drawn: seat.drawn && HIDDEN,
  });
  return {...state, seats};
}

/**
 * A deed as one seat is told it.
 * @param {Deed} deed @param {number} viewer @returns {Deed}
 */
export const toldTo = (deed, viewer) => deed.type === "tsumo" && deed.actor !== viewer ? {...deed, pai: HIDDEN} : deed;
