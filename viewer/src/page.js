// The page: what is open and shown, and what a user does with it.
import {load} from "../../bindings/page/riichi_page.js";
import {Reader, textOf} from "./read.js";
import {isSeat, nearnessOf, seenBy, stateAt} from "./state.js";
import {symbolsOfTiles} from "./faces.js";
import {element, showIn} from "./dom.js";
import {sceneOf, tableOf} from "./table.js";
import {deedItems, graphOf, handItems, seatRows, teller, wordsAt} from "./panels.js";
import {faultIn} from "./tell.js";
import {TEXTS} from "./texts.js";

/**
 * @typedef {import("./read.js").Game} Game
 * @typedef {keyof typeof TEXTS} Language
 */

/** What is shown: the game, its hand from 0, its deed from 1, the seat at the bottom, and whether other hands are shown. */
const page = {
  /** @type {Game[]} */
  games: [],
  game: 0, hand: 0, deed: 1, bottom: 0, isOpen: true,
  /** @type {Language} */
  language: "en", isLanguageChosen: false,
  /** @type {number | undefined} */
  timer: undefined,
  /** @type {number | undefined} */
  writing: undefined,
  turned: 0, wide: 0, isLive: false, address: "",
  /** @type {import("../../bindings/page/riichi_page.js").Hands | null} where shanten, waits and furiten come from */
  library: null,
};
/** Milliseconds between two deeds while the page plays. */
const SPEEDS = {slow: 2000, medium: 1000, fast: 400};

/** @template {HTMLElement} T @param {string} id @returns {T} */
const find = id => /** @type {T} */ (document.getElementById(id));
/** @param {string} id @returns {HTMLSelectElement} */
const choice = id => find(id);
/** @param {string} id @returns {HTMLButtonElement} */
const button = id => find(id);
const slider = () => /** @type {HTMLInputElement} */ (find("place"));
const texts = () => TEXTS[page.language];
const current = () => page.games[page.game];

/* ---- showing ---- */

/**
 * Shows a deed of a hand, or the nearest that there is.
 * @param {number} hand @param {number} deed
 */
function show(hand, deed) {
  const game = current();
  page.hand = Math.max(0, Math.min(game.hands.length - 1, hand));
  const {deeds} = game.hands[page.hand];
  page.deed = Math.max(1, Math.min(deeds.length, deed));
  const whole = stateAt(game.hands[page.hand], page.deed);
  const state = page.isOpen ? whole : seenBy(whole, page.bottom);
  const told = teller(page.isOpen ? null : page.bottom);
  const nearness = game.names.map((_, seat) => nearnessOf(state, seat, page.library));
  showIn(find("table"), tableOf(sceneOf(state, nearness, game.names, page.bottom, texts())));
  const words = wordsAt(game, page.hand, page.deed, told, texts());
  find("deed").textContent = words.sentence;
  find("where").textContent = words.where;
  showIn(find("results"), words.nodes);
  showIn(find("seat-rows"), seatRows(nearness, state.turn, game.names, texts()));
  drawLists(game);
  drawControls(game, words.sentence);
  // (last, since it asks where things lie)
  markLists();
  writeAddressSoon();
}

/** @param {Game} game @param {string} sentence */
function drawControls(game, sentence) {
  const last = game.hands[page.hand].deeds.length;
  Object.assign(slider(), {max: String(last), value: String(page.deed)});
  slider().setAttribute("aria-valuetext", sentence);
  const isFirst = page.hand === 0 && page.deed === 1, isLast = isAtEnd();
  for (const id of ["back", "hand-back"]) button(id).disabled = isFirst;
  for (const id of ["forward", "hand-forward"]) button(id).disabled = isLast;
  button("play").disabled = isLast && page.timer === undefined;
}

/**
 * The lists are drawn anew only where they tell something else than before.
 * @param {Game} game
 */
function drawLists(game) {
  const hand = game.hands[page.hand];
  const seen = page.isOpen ? "" : page.bottom;
  const isChanged = (/** @type {string} */ id, /** @type {unknown[]} */ ...parts) => {
    const key = [page.game, page.language, ...parts].join(" ");
    const isNew = find(id).dataset.drawn !== key;
    find(id).dataset.drawn = key;
    return isNew;
  };
  if (isChanged("deeds", page.hand, hand.deeds.length, seen, hand.deeds[0].line)) {
    find("deeds").replaceChildren(...deedItems(hand, game.names, teller(page.isOpen ? null : page.bottom), texts()));
  }
  const results = game.hands.map(it => it.results.length).join("");
  if (isChanged("strip", game.hands.length, results)) find("strip").replaceChildren(...handItems(game, texts()));
  const points = game.end ? game.end.scores : game.hands[game.hands.length - 1].points;
  page.wide ||= find("graph").clientWidth;
  if (isChanged("graph", game.hands.length, points, page.hand, page.wide)) find("graph").replaceChildren(graphOf(game, points, page.hand, texts(), page.wide));
}

/** Marks the deed and the hand that are shown, and brings them into sight. */
function markLists() {
  mark(find("deeds"), "deed", page.deed);
  mark(find("strip"), "hand", page.hand);
}

/** @param {HTMLElement} list @param {"deed" | "hand"} name @param {number} value */
function mark(list, name, value) {
  const before = list.querySelector("[aria-current]");
  const now = /** @type {HTMLElement | null} */ (list.querySelector(`[data-${name}="${value}"]`));
  if (!now || before === now) return;
  before?.removeAttribute("aria-current");
  if (name === "deed") before?.setAttribute("tabindex", "-1");
  now.setAttribute("aria-current", "true");
  now.setAttribute("tabindex", "0");
  // (only the list is moved, never the page)
  list.scrollTop = Math.min(now.offsetTop - 4, Math.max(list.scrollTop, now.offsetTop + now.offsetHeight + 4 - list.clientHeight));
  list.scrollLeft = Math.min(now.offsetLeft - 4, Math.max(list.scrollLeft, now.offsetLeft + now.offsetWidth + 4 - list.clientWidth));
}

const isAtEnd = () => page.hand === current().hands.length - 1 && page.deed === current().hands[page.hand].deeds.length;

/** @param {number} by */
function step(by) {
  const {hands} = current();
  const next = page.deed + by;
  if (next < 1 && page.hand > 0) show(page.hand - 1, hands[page.hand - 1].deeds.length);
  else if (next > hands[page.hand].deeds.length && page.hand < hands.length - 1) show(page.hand + 1, 1);
  else show(page.hand, next);
}

const handBack = () => show(page.deed > 1 ? page.hand : page.hand - 1, 1);
const handForward = () => page.hand < current().hands.length - 1 ? show(page.hand + 1, 1) : show(page.hand, Infinity);

/* ---- playing by itself ---- */

function play() {
  const speed = /** @type {keyof SPEEDS} */ (choice("speed").value);
  clearTimeout(page.timer);
  page.timer = window.setTimeout(() => {
    step(1);
    if (isAtEnd() && !page.isLive) pause();
    else play();
  }, SPEEDS[speed]);
  namePlay();
}

function pause() {
  clearTimeout(page.timer);
  page.timer = undefined;
  namePlay();
  if (current()) button("play").disabled = isAtEnd();
}

const togglePlay = () => page.timer === undefined ? !isAtEnd() && play() : pause();

function namePlay() {
  const isPlaying = page.timer !== undefined;
  name("play", isPlaying ? texts().pause : texts().play);
  find("play").classList.toggle("playing", isPlaying);
}

/* ---- the address names what is shown ---- */

/** Browsers take few changes of the address a second. */
function writeAddressSoon() {
  clearTimeout(page.writing);
  page.writing = window.setTimeout(writeAddress, 150);
}

function writeAddress() {
  // (somebody wrote another address meanwhile, which is about to be read)
  if (location.hash !== page.address) return;
  const table = page.games.length > 1 ? `table=${page.game + 1}&` : "";
  const rest = (page.isOpen ? "" : "&view=seat") + (page.isLanguageChosen ? `&lang=${page.language}` : "");
  history.replaceState(null, "", `#${table}hand=${page.hand + 1}&deed=${page.deed}&seat=${page.bottom}${rest}`);
  page.address = location.hash;
}

function readAddress() {
  page.address = location.hash;
  const moment = new URLSearchParams(location.hash.slice(1));
  /** @param {string} key */
  const number = key => parseInt(moment.get(key) ?? "", 10);
  const language = moment.get("lang");
  if (language && Object.hasOwn(TEXTS, language)) {
    page.isLanguageChosen = true;
    setLanguage(/** @type {Language} */ (language));
  }
  const game = (number("table") || 1) - 1;
  if (game !== page.game && page.games[game]?.hands.length) chooseGame(game);
  if (isSeat(number("seat"))) page.bottom = number("seat");
  if (moment.has("hand")) page.isOpen = moment.get("view") !== "seat";
  drawChoices();
  show((number("hand") || 1) - 1, number("deed") || 1);
}

/* ---- opening ---- */

/**
 * Opens the games of a reader; the page stays where it is if they are the same ones with more lines.
 * @param {Reader} reader
 */
function open(reader) {
  page.games = reader.games;
  const first = Math.max(0, page.games.findIndex(game => game.hands.length > 0));
  chooseGame(first);
}

/** @param {number} index */
function chooseGame(index) {
  page.game = index;
  page.hand = 0;
  page.deed = 1;
  pause();
  const game = current();
  page.bottom = game.seat;
  drawGame();
}

/** Shows what belongs to the game as a whole: its choices and its faults. */
function drawGame() {
  const game = current();
  const hasHands = game.hands.length > 0;
  const [note] = game.notes;
  complain(game.problem ? texts().badLine(game.problem.line, faultIn(game.problem.why, texts())) : "");
  find("notes").hidden = !note;
  find("notes").textContent = note ? texts().note(note.line, faultIn(note.why, texts()), game.notes.length - 1) : "";
  document.body.classList.toggle("has-game", hasHands);
  for (const id of ["game", "seen"]) find(id).hidden = !hasHands;
  find("empty").hidden = hasHands;
  drawChoices();
}

function drawChoices() {
  const game = current();
  if (!game) return;
  fill("bottom", game.names.map((name, seat) => [String(seat), name]), String(page.bottom));
  choice("view").value = page.isOpen ? "all" : "seat";
  find("tables").hidden = page.games.length < 2;
  fill("tables", page.games.map((it, index) => [String(index), texts().table(it.number ?? index + 1)]), String(page.game));
  [...choice("tables").options].forEach((option, index) => { option.disabled = page.games[index].hands.length === 0; });
}

/**
 * Gives a choice its options; one that has them already stays as it is, since it may be open.
 * @param {string} id @param {string[][]} options @param {string} value
 */
function fill(id, options, value) {
  const key = JSON.stringify(options);
  if (find(id).dataset.drawn !== key) choice(id).replaceChildren(...options.map(([name, words]) => element("option", words, {value: name})));
  find(id).dataset.drawn = key;
  choice(id).value = value;
}

/** @param {string} text */
function complain(text) {
  find("problem").hidden = text === "";
  find("problem").textContent = text;
}

/** @param {string} text */
function openText(text) {
  const isFirst = !page.games.some(game => game.hands.length);
  const reader = new Reader();
  reader.readAll(text);
  open(reader);
  if (!current().hands.length) return;
  if (isFirst) readAddress();
  else show(0, 1);
}

/** @param {File} file */
const openFile = file => textOf(file).then(openText).catch(() => complain(texts().unreadable(file.name)));

/**
 * Follows a game that is being played, line after line; who looks at the newest deed sees each that comes.
 * @param {string} address
 */
function follow(address) {
  const source = new EventSource(address);
  let reader = new Reader();
  page.isLive = true;
  find("live").hidden = false;
  source.addEventListener("begin", () => { reader = new Reader(); });
  source.addEventListener("message", event => {
    const wasAtEnd = current()?.hands.length > 0 && isAtEnd() && page.timer === undefined;
    for (const line of event.data.split("\n")) reader.read(line);
    grow(reader, wasAtEnd);
  });
  source.addEventListener("refused", event => complain(event.data));
  source.addEventListener("open", () => setLost(false));
  source.addEventListener("error", () => setLost(true));
}

/** @param {boolean} isLost */
function setLost(isLost) {
  find("live").classList.toggle("lost", isLost);
  find("live").textContent = isLost ? texts().lost : texts().live;
}

/**
 * Shows what a reader has read; who looked at the newest deed looks at the newest again.
 * @param {Reader} reader @param {boolean} wasAtEnd
 */
function grow(reader, wasAtEnd) {
  if (!page.games.some(game => game.hands.length)) {
    open(reader);
    if (!current().hands.length) return;
    if (location.hash.includes("hand=")) readAddress();
    else show(Infinity, Infinity);
    return;
  }
  const {game, hand, deed} = page;
  page.games = reader.games;
  if (!page.games[game]?.hands.length) return;
  drawGame();
  if (wasAtEnd) show(Infinity, Infinity);
  else show(hand, deed);
}

/* ---- words of the page ---- */

/** @param {string} id @param {string} words */
function name(id, words) {
  find(id).setAttribute("aria-label", words);
  find(id).title = words;
}

/** @param {Language} language */
function setLanguage(language) {
  page.language = language;
  const words = texts();
  document.documentElement.lang = language;
  document.title = words.title;
  for (const node of document.querySelectorAll("[data-text]")) {
    node.textContent = /** @type {Record<string, any>} */ (words)[node.getAttribute("data-text") ?? ""];
  }
  for (const node of document.querySelectorAll("[data-name]")) {
    node.setAttribute("aria-label", /** @type {Record<string, any>} */ (words)[node.getAttribute("data-name") ?? ""]);
  }
  const names = {
    "hand-back": words.handBefore, back: words.back, forward: words.forward, "hand-forward": words.handNext, bottom: words.seenFrom,
    view: words.show, lang: words.language, tables: words.tables, speed: words.speed,
  };
  for (const [id, said] of Object.entries(names)) name(id, said);
  namePlay();
  setLost(find("live").classList.contains("lost"));
  fill("view", [["all", words.allHands], ["seat", words.ownHand]], page.isOpen ? "all" : "seat");
  fill("speed", [["slow", words.slow], ["medium", words.medium], ["fast", words.fast]], choice("speed").value || "medium");
  fill("lang", Object.entries(TEXTS).map(([key, it]) => [key, it.name]), language);
  if (current()) drawGame();
}

/**
 * The first language of the user that the page has.
 * @returns {Language}
 */
function usersLanguage() {
  const wanted = navigator.languages.map(it => it.slice(0, 2)).find(it => Object.hasOwn(TEXTS, it));
  return /** @type {Language} */ (wanted ?? "en");
}

/* ---- what a user does ---- */

const again = () => current()?.hands.length && show(page.hand, page.deed);

function listenToChoices() {
  find("file").addEventListener("change", event => {
    const [file] = /** @type {HTMLInputElement} */ (event.target).files ?? [];
    if (file) openFile(file);
  });
  choice("bottom").addEventListener("change", () => { page.bottom = +choice("bottom").value; again(); });
  choice("view").addEventListener("change", () => { page.isOpen = choice("view").value === "all"; again(); });
  choice("speed").addEventListener("change", () => page.timer !== undefined && play());
  choice("tables").addEventListener("change", () => { chooseGame(+choice("tables").value); show(0, 1); });
  choice("lang").addEventListener("change", () => {
    page.isLanguageChosen = true;
    setLanguage(/** @type {Language} */ (choice("lang").value));
    again();
  });
}

function listenToButtons() {
  const clicks = {back: () => step(-1), forward: () => step(1), "hand-back": handBack, "hand-forward": handForward, play: togglePlay};
  for (const [id, act] of Object.entries(clicks)) find(id).addEventListener("click", act);
  slider().addEventListener("input", () => show(page.hand, +slider().value));
  /** @param {Event} event @param {string} kind */
  const placeOf = (event, kind) => /** @type {Element} */ (event.target).closest(`[data-${kind}]`)?.getAttribute(`data-${kind}`);
  find("deeds").addEventListener("click", event => {
    const deed = placeOf(event, "deed");
    if (deed) show(page.hand, +deed);
  });
  for (const id of ["strip", "graph"]) {
    find(id).addEventListener("click", event => {
      const hand = placeOf(event, "hand");
      if (hand) show(+hand, 1);
    });
  }
}

/** A swipe to the left steps forward, one to the right back; a tap on either half of the table does the same. */
function listenToFingers() {
  const table = find("table");
  /** @type {{x: number, y: number} | null} */
  let start = null;
  table.addEventListener("pointerdown", event => { start = event.isPrimary && event.button === 0 ? {x: event.clientX, y: event.clientY} : null; });
  table.addEventListener("pointercancel", () => { start = null; });
  table.addEventListener("pointerup", event => {
    if (!start || !event.isPrimary) return;
    const across = event.clientX - start.x, down = event.clientY - start.y;
    start = null;
    const box = table.getBoundingClientRect();
    if (Math.abs(across) > 30 && Math.abs(across) > Math.abs(down)) step(across < 0 ? 1 : -1);
    else if (Math.abs(across) < 10 && Math.abs(down) < 10) step(event.clientX < box.left + box.width / 2 ? -1 : 1);
  });
  table.addEventListener("wheel", event => {
    event.preventDefault();
    page.turned += event.deltaY;
    if (Math.abs(page.turned) < 40) return;
    step(Math.sign(page.turned));
    page.turned = 0;
  }, {passive: false});
}

function listenToKeys() {
  /** @type {Record<string, () => unknown>} */
  const keys = {
    ArrowLeft: () => step(-1), ArrowRight: () => step(1), PageUp: handBack, PageDown: handForward,
    Home: () => show(0, 1), End: () => show(Infinity, Infinity), " ": togglePlay,
  };
  addEventListener("keydown", event => {
    const target = /** @type {Element} */ (event.target);
    const isPressed = event.key === " " || event.key === "Enter";
    const hand = target.closest("#graph [data-hand]")?.getAttribute("data-hand");
    if (isPressed && hand) {
      event.preventDefault();
      show(+hand, 1);
      /** @type {SVGElement | null} */ (find("graph").querySelector(`[data-hand="${hand}"]`))?.focus();
      return;
    }
    const key = target.closest("#deeds") ? {ArrowUp: "ArrowLeft", ArrowDown: "ArrowRight"}[event.key] ?? event.key : event.key;
    if (!current()?.hands.length || !keys[key] || event.altKey || event.ctrlKey || event.metaKey) return;
    // a button and a choice have their own use of the space bar
    if (event.key === " " && target.closest("button, select, label, input[type=file]")) return;
    event.preventDefault();
    keys[key]();
    if (target.closest("#deeds")) /** @type {HTMLElement | null} */ (find("deeds").querySelector("[aria-current]"))?.focus({preventScroll: true});
  });
}

function listenToFiles() {
  for (const kind of ["dragenter", "dragover", "dragleave", "drop"]) {
    addEventListener(kind, given => {
      const event = /** @type {DragEvent} */ (given);
      event.preventDefault();
      document.body.classList.toggle("over", kind === "dragenter" || kind === "dragover");
      const file = kind === "drop" && event.dataTransfer?.files[0];
      if (file) openFile(file);
    });
  }
}

/** Loads the library of numbers, which stands in the page; where the browser can't run it there are none. */
function loadLibrary() {
  const text = atob(find("library").textContent ?? "");
  const bytes = new Uint8Array(text.length);
  for (let place = 0; place < text.length; place += 1) bytes[place] = text.charCodeAt(place);
  page.library = load(bytes);
  find("seats").hidden = !page.library;
}

/** Makes the page live; a page that `page.py` made holds its record in itself, one that `live.py` serves names where lines come from. */
export function start() {
  page.address = location.hash;
  find("faces").innerHTML = symbolsOfTiles();
  loadLibrary();
  const wanted = new URLSearchParams(location.hash.slice(1)).get("lang");
  page.isLanguageChosen = wanted !== null && Object.hasOwn(TEXTS, wanted);
  setLanguage(page.isLanguageChosen ? /** @type {Language} */ (wanted) : usersLanguage());
  listenToChoices();
  listenToButtons();
  listenToFingers();
  listenToKeys();
  listenToFiles();
  addEventListener("resize", () => { page.wide = 0; again(); });
  addEventListener("hashchange", () => current()?.hands.length && readAddress());
  const held = document.getElementById("record");
  const live = document.querySelector('meta[name="live"]')?.getAttribute("content");
  if (held) openText(held.textContent ?? "");
  else if (live) follow(live);
}
