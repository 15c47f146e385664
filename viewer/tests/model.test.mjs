// The model without a page: hands, furiten, what a seat sees, the reader, and the table of texts.
import assert from "node:assert/strict";
import {readFileSync} from "node:fs";
import test from "node:test";
import path from "node:path";

const HERE = import.meta.dirname ?? path.dirname(new URL(import.meta.url).pathname);
const LIBRARY = path.join(HERE, "..", "..", "bindings", "page", "riichi_page");
// (the parts are modules; without a package.json node has to be told so)
const textAddress = text => `data:text/javascript;base64,${Buffer.from(text).toString("base64")}`;
const linked = async name => {
  const text = readFileSync(path.join(HERE, "..", "src", `${name}.js`), "utf8");
  const others = await Promise.all([...text.matchAll(/from "\.\/(\w+)\.js"/g)].map(async ([, other]) => [other, await address(other)]));
  return textAddress(others.reduce((all, [other, url]) => all.replaceAll(`"./${other}.js"`, `"${url}"`), text));
};
const addresses = new Map();
const address = name => {
  if (!addresses.has(name)) addresses.set(name, linked(name));
  return addresses.get(name);
};
const part = async name => import(await address(name));

const {doraOf, sorted} = await part("tiles");
const {apply, begin, nearnessOf, seenBy, toldTo} = await part("state");
const {Reader} = await part("read");
const {TEXTS} = await part("texts");
const {faultIn, sentenceOf, tileIn} = await part("tell");
const {load} = await import(textAddress(readFileSync(`${LIBRARY}.js`, "utf8")));
// null where this node has no 64-bit memories
const library = load(readFileSync(`${LIBRARY}.wasm`));
const counted = {skip: library ? false : "no 64-bit memories"};

/** Tiles from a short text, as 123m4p. */
const tiles = text => [...text.matchAll(/([1-9]+)([mps])|([ESWNPFC])/g)].flatMap(([, numbers, suit, honour]) =>
  honour ? [honour] : [...numbers].map(number => number + suit));

const HANDS = [
  ["123m456p789sEESS", [], 0, "E S"], ["19m19p19sESWNPFC", [], 0, "1m 9m 1p 9p 1s 9s E S W N P F C"],
  ["123456789p1111s", [], 1, ""], ["1111m2222p3333sE", [], 2, ""], ["1112345678999m", [], 0, "1m 2m 3m 4m 5m 6m 7m 8m 9m"],
  ["1122334455667m", [], 0, "1m 4m 7m"], ["1234m", ["111p", "234p", "EEE"], 0, "1m 4m"], ["1111222233334m", [], 0, "4m 5m"],
  ["1m", ["222m", "333m", "444m", "5555m"], 0, "1m"], ["2233m", ["111m", "444m", "CCC"], 0, "2m 3m"], ["5p", ["5555s", "1111m", "9999m", "EEEE"], 0, "5p"],
  ["147m258p369sESWN", [], 6, ""],
];

/** The state of a hand whose seat 0 has these tiles and melds. */
const holding = (hand, melds) => {
  const state = stateAfter([]);
  const typeOf = meld => meld.length === 4 ? "ankan" : meld[0] === meld[1] ? "pon" : "chi";
  Object.assign(state.seats[0], {hand: tiles(hand), melds: melds.map(tiles).map(it => ({type: typeOf(it), tiles: it, called: null, target: 0, added: null, isRobbed: false}))});
  return state;
};

test("shanten and waits", counted, () => {
  for (const [hand, melds, shanten, waits] of HANDS) {
    const nearness = nearnessOf(holding(hand, melds), 0, library);
    assert.deepEqual([nearness.shanten, nearness.waits.map(it => it.kind).join(" ")], [shanten, waits], hand);
  }
});

test("a hand with a tile too many has the shanten after its best discard, and no waits", counted, () => {
  for (const [hand, melds, shanten] of [["123m456p789sEESSN", [], 0], ["23m456p789sEEN", ["123m"], 0], ["147m258p369sESWNP", [], 6]]) {
    assert.deepEqual(nearnessOf(holding(hand, melds), 0, library), {shanten, waits: [], isFuriten: false}, hand);
  }
});

test("what is no hand, and any hand without the library, has no numbers", counted, () => {
  for (const [hand, melds] of [["123m", []], ["11111m22233344p", []], ["1234m", ["89m1p", "234p", "EEE"]], ["1234m", ["111p", "234p"]]]) {
    assert.equal(nearnessOf(holding(hand, melds), 0, library), null, hand);
  }
  assert.equal(nearnessOf(holding("123m456p789sEESS", []), 0, null), null);
});

test("there is no library where its bytes can't be run", () => {
  assert.equal(load(new Uint8Array(8)), null);
});

test("dora go round in their suit, winds and dragons", () => {
  const pairs = ["1m 2m", "9m 1m", "9s 1s", "5pr 6p", "E S", "N E", "P F", "F C", "C P"].map(it => it.split(" "));
  for (const [indicator, dora] of pairs) assert.equal(doraOf(indicator), dora);
});

const START = {
  type: "start_kyoku", bakaze: "E", kyoku: 1, honba: 0, kyotaku: 0, oya: 0, dora_marker: "9s",
  tehais: ["123m678p789s23pEE", "147m258p369sESWN", "147m258p369sESWN", "147m258p369sESWN"].map(tiles),
};
const drawn = (actor, pai) => ({type: "tsumo", actor, pai});
const discarded = (actor, pai, tsumogiri = true) => ({type: "dahai", actor, pai, tsumogiri});
const stateAfter = deeds => deeds.reduce((state, deed) => { apply(state, deed); return state; }, begin(START, [30000, 30000, 30000, 30000], 0));
const isFuriten = deeds => nearnessOf(stateAfter(deeds), 0, library).isFuriten;

test("a seat is furiten by its own river, by what it let pass, and in riichi for good", counted, () => {
  const own = [drawn(0, "1p"), discarded(0, "1p")];
  assert.equal(isFuriten([]), false);
  assert.equal(isFuriten(own.slice(0, 1)), false);
  assert.equal(isFuriten(own), true);
  const passed = [drawn(0, "C"), discarded(0, "C"), drawn(1, "4p"), discarded(1, "4p")];
  // not as long as it may be won on
  assert.equal(isFuriten(passed), false);
  assert.equal(isFuriten([...passed, drawn(2, "9m")]), true);
  const won = {type: "hora", actor: 0, target: 1, pai: "4p", uradora_markers: [], deltas: [0, 0, 0, 0], scores: [30000, 30000, 30000, 30000]};
  assert.equal(isFuriten([...passed, won, {type: "end_kyoku"}]), false);
  const round = [...passed, drawn(2, "9m"), discarded(2, "9m"), drawn(3, "9m"), discarded(3, "9m"), drawn(0, "F")];
  assert.equal(isFuriten(round), true);
  assert.equal(isFuriten([...round, discarded(0, "F")]), false);
  const reach = [drawn(0, "C"), {type: "reach", actor: 0}, discarded(0, "C"), {type: "reach_accepted", actor: 0, deltas: [-1000, 0, 0, 0], scores: [29000, 30000, 30000, 30000]}];
  assert.equal(isFuriten([...reach, ...round.slice(2), discarded(0, "F")]), true);
  assert.equal(isFuriten([...reach, drawn(1, "9p"), discarded(1, "9p"), drawn(2, "1m")]), false);
});

test("tiles left of a wait are those that the seat doesn't see", counted, () => {
  const left = deeds => nearnessOf(stateAfter(deeds), 0, library).waits.map(({kind, left: count}) => `${kind} ${count}`).join(", ");
  assert.equal(left([]), "1p 4, 4p 4");
  assert.equal(left([drawn(0, "1p")]), "1p 3, 4p 4");
  const passed = [drawn(0, "C"), discarded(0, "C"), drawn(1, "4p"), discarded(1, "4p")];
  assert.equal(left(passed), "1p 4, 4p 3");
  // a tile that was won on counts once, and so do the hands that are shown then
  const won = {type: "hora", target: 1, pai: "4p", uradora_markers: [], deltas: [0, 0, 0, 0], scores: [0, 0, 0, 0]};
  assert.equal(left([...passed, {...won, actor: 0}]), "1p 4, 4p 3");
  assert.equal(left([...passed, {...won, actor: 0}, {...won, actor: 2, hora_tehais: tiles("147m25p369sESWN1p")}]), "1p 3, 4p 3");
});

test("one seat's view has backs for the others' tiles", () => {
  const state = seenBy(stateAfter([drawn(0, "1p")]), 1);
  assert.deepEqual([new Set(state.seats[0].hand), state.seats[0].drawn], [new Set(["?"]), "?"]);
  assert.deepEqual(state.seats[1].hand, sorted(START.tehais[1]));
  assert.equal(nearnessOf(state, 0, library), null);
  assert.equal(toldTo(drawn(0, "1p"), 1).pai, "?");
  assert.equal(toldTo(drawn(0, "1p"), 0).pai, "1p");
});

test("the reader goes on where it stopped", () => {
  const lines = [{type: "start_game", names: ["a", "b", "c", "d"]}, START, drawn(0, "1p"), discarded(0, "1p")].map(it => JSON.stringify(it));
  const reader = new Reader();
  for (const line of lines) reader.read(line);
  assert.equal(reader.games[0].hands[0].deeds.length, 3);
  assert.equal(reader.games[0].problem, null);
  reader.read("{");
  reader.read(JSON.stringify(drawn(1, "1p")));
  const {line, why} = reader.games[0].problem;
  assert.deepEqual([line, why.kind, faultIn(why, TEXTS.en)], [5, "noJson", "this is no JSON"]);
  assert.equal(reader.games[0].hands[0].deeds.length, 3);
});

test("each language has each text", () => {
  const forms = texts => Object.entries(texts).filter(([key]) => key !== "yaku").map(([key, value]) =>
    [key, typeof value, Array.isArray(value) ? value.length : typeof value === "object" ? Object.keys(value).sort() : typeof value === "function" ? value.length : null]);
  for (const texts of Object.values(TEXTS)) {
    assert.deepEqual(forms(texts), forms(TEXTS.en));
    assert.equal(new Set(["1m", "5p", "5pr", "9s", "E", "P", "C"].map(tile => tileIn(tile, texts))).size, 7);
    assert.ok(sentenceOf(discarded(1, "5pr"), ["a", "b", "c", "d"], texts).includes("b"));
    // (a field that this type of deed doesn't have may hold anything)
    assert.ok(sentenceOf({type: "reach", actor: 2, pai: "x"}, ["a", "b", "c", "d"], texts).includes("c"));
  }
});
