// Reading: lines become tables, games of hands of checked deeds. What is read are records of riichi_table, one or several, what
// `observe` writes, the lines that a seat is told, and other programs' mjai logs.
import {isShown, isTile} from "./tiles.js";
import {Fault, apply, begin, isSeat} from "./state.js";

/**
 * @typedef {import("./state.js").Deed} Deed
 * @typedef {import("./state.js").State} State
 * @typedef {{deed: Deed, line: number}} Told
 * A hand: the points and deposits that it starts with, its deeds with the lines that they stand in, its results, and the points now.
 * @typedef {{start: number[], deposits: number, deeds: Told[], results: Deed[], points: number[]}} Hand
 * @typedef {{line: number, why: Fault}} Remark
 * A game: whose seat it is told to, the line that it ends at for its fault, and the lines whose points don't add up.
 * @typedef {{number: number | null, names: string[], seat: number, hands: Hand[], end: Deed | null, problem: Remark | null, notes: Remark[]}} Game
 * @typedef {{deeds: Told[], results: Deed[], state: State | null, count: number}} Shown
 */

/** @typedef {(value: any) => boolean} Test */
/** @type {Test} */
const isCount = value => Number.isInteger(value) && value >= 0;
/** @param {number | null} length @param {Test} test @returns {Test} */
const listOf = (length, test) => value => Array.isArray(value) && (length === null || value.length === length) && value.every(test);
const isPoints = listOf(4, Number.isInteger);
/** @type {Test} */
const isBool = value => typeof value === "boolean";
/** @type {Test} */
const isText = value => typeof value === "string";
/** @type {Test} */
const isYaku = row => Array.isArray(row) && isText(row[0]);
/** @type {Test} */
const isWind = value => isText(value) && value.length === 1 && "ESWN".includes(value);
const CALL = {actor: isSeat, target: isSeat, pai: isTile};

/**
 * The fields that a deed of each type has, with the test of each. Those in `may` may be missing: not every program writes them.
 * @type {Record<string, {must: Record<string, Test>, may?: Record<string, Test>}>}
 */
const FORMS = {
  start_game: {must: {}, may: {names: listOf(4, isText)}},
  start_kyoku: {
    must: {bakaze: isWind, kyoku: isCount, honba: isCount, oya: isSeat, dora_marker: isTile, tehais: listOf(4, listOf(13, isShown))},
    may: {kyotaku: isCount, scores: isPoints},
  },
  tsumo: {must: {actor: isSeat, pai: isShown}},
  dahai: {must: {actor: isSeat, pai: isTile, tsumogiri: isBool}},
  chi: {must: {...CALL, consumed: listOf(2, isTile)}},
  pon: {must: {...CALL, consumed: listOf(2, isTile)}},
  daiminkan: {must: {...CALL, consumed: listOf(3, isTile)}},
  ankan: {must: {actor: isSeat, consumed: listOf(4, isTile)}},
  kakan: {must: {actor: isSeat, pai: isTile, consumed: listOf(3, isTile)}},
  dora: {must: {dora_marker: isTile}},
  reach: {must: {actor: isSeat}},
  reach_accepted: {must: {actor: isSeat}, may: {deltas: isPoints, scores: isPoints}},
  hora: {
    must: {actor: isSeat, target: isSeat},
    may: {
      pai: isTile, uradora_markers: listOf(null, isTile), ura_markers: listOf(null, isTile), hora_tehais: listOf(null, isTile),
      yakus: listOf(null, isYaku), fu: isCount, fan: isCount, hora_points: isCount, deltas: isPoints, scores: isPoints,
    },
  },
  ryukyoku: {
    must: {},
    may: {reason: isText, tehais: listOf(4, listOf(null, isShown)), tenpais: listOf(4, isBool), deltas: isPoints, scores: isPoints},
  },
  end_kyoku: {must: {}},
  end_game: {must: {}, may: {scores: isPoints, kyotaku: isCount}},
  hand_shown: {must: {count: isCount}},
};
// Lines beside the deeds, in a seat's own stream and in other programs' logs; after each hello a seat is told the deeds from the
// first one again.
const CONTROL = ["hello", "replay", "error", "none"];

/**
 * The deed that a line tells.
 * @param {string} text @returns {Deed}
 */
function deedOf(text) {
  let deed;
  try { deed = JSON.parse(text); } catch { throw new Fault("noJson"); }
  const type = deed === null ? undefined : deed.type;
  if (CONTROL.includes(type)) return deed;
  if (!Object.hasOwn(FORMS, type)) throw new Fault("noType", type);
  const {must, may = {}} = FORMS[type];
  for (const [field, isRight] of Object.entries({...must, ...may})) {
    const isMissing = deed[field] === undefined || deed[field] === null;
    if (isMissing ? field in must : !isRight(deed[field])) throw new Fault("badField", field, type);
  }
  return deed;
}

/**
 * How other programs spell yaku and reasons of a drawn hand, and how we do.
 * @type {Record<string, string>}
 */
const SPELLINGS = {
  menzenchin_tsumoho: "menzen_tsumo", ipeko: "iipeikou", tanyaochu: "tanyao", jikaze: "seat_wind", bakaze: "round_wind", haiteiraoyue: "haitei",
  hoteiraoyui: "houtei", rinshankaiho: "rinshan", chitoitsu: "chiitoitsu", toitoiho: "toitoi", sananko: "sanankou", sanshokudoko: "sanshoku_doukou",
  honroto: "honroutou", shosangen: "shousangen", sanshokudojun: "sanshoku_doujun", ikkitsukan: "ittsu", honchantaiyao: "chanta", honiso: "honitsu",
  junchantaiyao: "junchan", ryanpeko: "ryanpeikou", chiniso: "chinitsu", kokushimuso: "kokushi", suanko: "suuankou", shosushi: "shousuushi",
  daisushi: "daisuushi", tsuiso: "tsuuiisou", chinroto: "chinroutou", ryuiso: "ryuuiisou", churenpoton: "chuuren", sukantsu: "suukantsu",
  tenho: "tenhou", chiho: "chiihou", sufonrenta: "suufonrenta", suchareach: "suuchareach", sukaikan: "suukaikan",
};
/** @param {string} name */
const spelled = name => Object.hasOwn(SPELLINGS, name) ? SPELLINGS[name] : name;

/**
 * Points that a deed moves are told as changes, as points after it, or both; what isn't told follows from the points before.
 * @param {Deed} deed @param {State} state @returns {Deed}
 */
function withPoints(deed, state) {
  const isBid = deed.type === "reach_accepted";
  const deltas = deed.deltas ?? (deed.scores && !isBid
    ? deed.scores.map((/** @type {number} */ score, /** @type {number} */ seat) => score - state.points[seat])
    : state.points.map((_, seat) => isBid && seat === deed.actor ? -1000 : 0));
  return {...deed, deltas, scores: deed.scores ?? state.points.map((points, seat) => points + deltas[seat])};
}

/**
 * A deed with what other programs leave out of its line, as the state tells it.
 * @param {Deed} deed @param {State} state @returns {Deed}
 */
function completed(deed, state) {
  if (!["reach_accepted", "hora", "ryukyoku"].includes(deed.type)) return deed;
  const whole = withPoints(deed, state);
  if (deed.type === "ryukyoku") return {...whole, reason: spelled(deed.reason ?? "")};
  if (deed.type === "reach_accepted") return whole;
  const pai = deed.pai ?? (deed.actor === deed.target ? state.seats[deed.actor].drawn : state.offered?.pai);
  if (!isTile(pai)) throw new Fault("noTileToWin");
  const yakus = deed.yakus?.map((/** @type {[string, number?]} */ [name, ...han]) => [spelled(name), ...han]);
  return {...whole, pai, yakus, uradora_markers: deed.uradora_markers ?? deed.ura_markers ?? []};
}

/** @param {number | null} number @returns {Game} */
const newGame = number => ({number, names: [], seat: 0, hands: [], end: null, problem: null, notes: []});

/** Reads a text line by line; `games` has what it tells up to the line read last. */
export class Reader {
  constructor() {
    this.line = 0;
    this.game = newGame(null);
    this.games = [this.game];
    /** @type {State | null} */
    this.state = null;
    /** @type {Shown | null} */
    this.shown = null;
    this.firstLine = 1;
    this.hasBegun = false;
    // whether a line has told the points
    this.hasScores = false;
    // how many deeds were told since the last hello, and how many at all
    this.place = this.told = 0;
  }

  /** @param {number | null} number */
  startGame(number) {
    this.game = newGame(number);
    this.games.push(this.game);
    this.state = this.shown = null;
    this.firstLine = this.line + 1;
    this.hasBegun = this.hasScores = false;
    this.place = this.told = 0;
  }

  /**
   * Reads the next line. Of a game nothing is read behind its first bad line.
   * @param {string} text
   */
  read(text) {
    const table = /^table (\d+)\s*$/.exec(text);
    if (table && (this.line === 0 || this.game.number !== null)) {
      if (this.line === 0) this.games.pop();
      this.line += 1;
      this.startGame(+table[1]);
      return;
    }
    this.line += 1;
    if (this.game.problem) return;
    try {
      this.readLine(text.trimEnd());
    } catch (error) {
      if (!(error instanceof Fault)) throw error;
      this.game.problem = {line: this.line, why: error};
    }
  }

  /**
   * Reads the lines of a text; behind it no line follows.
   * @param {string} text
   */
  readAll(text) {
    const lines = text.split("\n");
    if (lines.at(-1) === "") lines.pop();
    for (const line of lines) this.read(line);
    for (const game of this.games) {
      if (!game.problem && !game.names.length) game.problem = {line: this.line, why: new Fault("noStart")};
    }
  }

  /** @param {string} text */
  readLine(text) {
    const {game} = this;
    if (this.line === this.firstLine && text.startsWith("game ")) {
      if (!/^game limit=\d+ draws=[01] red=[01]$/.test(text)) throw new Fault("badHeader");
      return;
    }
    if (!this.hasBegun && text.startsWith("wall ")) {
      const wall = text.split(" ").slice(1);
      if (wall.length !== 136 || !wall.every(isTile)) throw new Fault("badWall");
      return;
    }
    const deed = deedOf(text);
    if (deed.type === "hello") this.place = 0;
    if (CONTROL.includes(deed.type)) return;
    if (deed.type === "hand_shown") return this.startShown(deed.count);
    if (this.shown) return this.addShown(this.shown, deed);
    this.place += 1;
    if (this.place <= this.told) return;
    // A log may hold several games, one after the other.
    if (deed.type === "start_game" && game.end) this.startGame(game.number);
    this.told = Math.max(this.told, this.place);
    this.addDeed(deed);
  }

  /** @param {Deed} deed */
  addDeed(deed) {
    const {game} = this;
    if (deed.type === "start_game") {
      if (this.hasBegun) throw new Fault("begunTwice");
      this.hasBegun = true;
      game.names = deed.names ?? [..."ABCD"];
      game.seat = isSeat(deed.id) ? deed.id : 0;
      return;
    }
    if (!this.hasBegun) throw new Fault("beforeStart");
    if (game.end) throw new Fault("afterEnd");
    const hasEnded = !this.state || this.state.isOver || game.hands[game.hands.length - 1].results.length > 0;
    if (deed.type === "end_game") {
      if (!hasEnded) throw new Fault("handNotOver");
      game.end = {...deed, scores: deed.scores ?? this.state?.points ?? this.startPoints({type: "start_kyoku", kyotaku: 0})};
      this.state = null;
    } else if (deed.type === "start_kyoku") {
      if (!hasEnded) throw new Fault("handNotOver");
      this.addHand(deed);
    } else {
      if (!this.state) throw new Fault("beforeHand");
      const whole = completed(deed, this.state);
      if (deed.scores) this.compare(whole.scores, whole.deltas, this.state);
      apply(this.state, whole);
      const hand = game.hands[game.hands.length - 1];
      hand.deeds.push({deed: whole, line: this.line});
      hand.points = this.state.points;
      if (deed.type === "hora" || deed.type === "ryukyoku") hand.results.push(whole);
    }
  }

  /** @param {Deed} deed */
  addHand(deed) {
    const before = this.state;
    const points = deed.scores ?? before?.points ?? this.startPoints(deed);
    if (before && deed.scores) this.compare(deed.scores, [0, 0, 0, 0], before);
    this.hasScores ||= Boolean(deed.scores);
    const deposits = before ? before.deposits : 0;
    this.game.hands.push({start: points, deposits, deeds: [{deed, line: this.line}], results: [], points});
    this.state = begin(deed, points, deposits);
  }

  /**
   * The points that a game starts with where no line says it: ours, whose hands tell the deposits, or what mjai began with.
   * @param {Deed} deed
   */
  startPoints(deed) {
    return new Array(4).fill(deed.kyotaku === undefined ? 25000 : 30000);
  }

  /**
   * Notes where told points don't add up. The first that a game tells show what it started with, where all four are off by as much.
   * @param {number[]} scores @param {number[]} deltas @param {State} state
   */
  compare(scores, deltas, state) {
    const {hands, notes} = this.game;
    const off = scores.map((score, seat) => score - state.points[seat] - deltas[seat]);
    if (!this.hasScores && hands.length === 1 && off.every(by => by === off[0])) {
      state.points = hands[0].start = state.points.map(points => points + off[0]);
    } else if (off.some(by => by !== 0)) {
      notes.push({line: this.line, why: new Fault("points")});
    }
    this.hasScores = true;
  }

  /**
   * After a hand `observe` tells it again with all tiles: these lines take the place of the hidden ones.
   * @param {number} count
   */
  startShown(count) {
    const hand = this.game.hands.at(-1);
    if (!hand || !this.state?.isOver || this.shown) throw new Fault("noHandToShow");
    if (count !== hand.deeds.length) throw new Fault("shownCount", hand.deeds.length, count);
    this.shown = {deeds: [], results: [], state: null, count};
  }

  /** @param {Shown} shown @param {Deed} deed */
  addShown(shown, deed) {
    const hand = this.game.hands[this.game.hands.length - 1];
    const hidden = hand.deeds[shown.deeds.length].deed;
    if (hidden.type !== deed.type || hidden.actor !== deed.actor) throw new Fault("otherShown");
    let whole = deed;
    if (deed.type === "start_kyoku") {
      shown.state = begin(deed, hand.start, hand.deposits);
    } else if (shown.state) {
      whole = completed(deed, shown.state);
      apply(shown.state, whole);
    }
    shown.deeds.push({deed: whole, line: this.line});
    if (deed.type === "hora" || deed.type === "ryukyoku") shown.results.push(whole);
    if (shown.deeds.length < shown.count) return;
    hand.deeds = shown.deeds;
    hand.results = shown.results;
    this.state = shown.state;
    this.shown = null;
  }
}

/**
 * The text of a file, which may be gzipped.
 * @param {Blob} file @returns {Promise<string>}
 */
export async function textOf(file) {
  const head = new Uint8Array(await file.slice(0, 2).arrayBuffer());
  if (head[0] !== 0x1f || head[1] !== 0x8b) return file.text();
  const Unzip = /** @type {any} */ (globalThis).DecompressionStream;
  return new Response(file.stream().pipeThrough(new Unzip("gzip"))).text();
}
