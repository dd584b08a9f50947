// The solver for browsers and Node: the proved library, as WebAssembly, behind calls that take and answer plain values.
//
//   import { load } from "./luffaknife.mjs";
//   const luffaknife = await load();
//   console.log(luffaknife.best(617));
//
// A call takes as long as its search; `Solver` asks in a worker, and can be stopped. luffaknife.d.ts has the types, and
// luffaknife.h what each number means.

const GAMES = ["freecell", "bakers"];
const KINGS = 2;
const BOUNDS = ["plain", "clearing"];
const EXPANSIONS = ["full", "partial"];
const KINDS = ["none", "shortest", "won", "can't be won", "gave up"];
const SUITS = "CDHS";
const RANKS = "A23456789TJQK";

// What refuses a call, by its number.
const REFUSALS = {
  16: "BadGame", 17: "BadDeal", 18: "BadBudget", 19: "NoMemory", 20: "NoRoom", 21: "TooLong", 22: "NotAMove", 23: "NotAllowed",
  24: "TooManyWays", 25: "BadRule", 26: "BadBound", 27: "BadWeight", 28: "BadExpansion", 32: "BoardTooLong", 33: "NotACard",
  34: "NotAFoundation", 35: "TooManyCells", 36: "TooManyColumns", 37: "RepeatedLine", 38: "RepeatedCard", 39: "MissingCard",
  48: "Short", 49: "BadMagic", 50: "BadCells", 51: "BadRule", 52: "BadBound", 53: "BadKind", 54: "BadFloor", 55: "BadMove",
  56: "BadRecord", 57: "Order", 58: "Label", 59: "Trailing", 60: "OtherGame", 61: "NotAllowed", 62: "NotHome", 63: "StartOpen",
  64: "WonListed", 65: "Open",
};
const BAD_GAME = 16, BAD_DEAL = 17, BAD_BUDGET = 18, NO_MEMORY = 19, BAD_RULE = 25, BAD_BOUND = 26, BAD_WEIGHT = 27, BAD_EXPANSION = 28;
const REFUSED_FROM = 16;
const BYTE = 0xff, WORD = 0xffffffff;
// Numbers whose place is a card.
const CARDS = [38, 39];

/** A call that is refused: its `reason`, by name, and its `place`: a line, a step, a card such as `QS`, or 0. */
export class Refused extends Error {
  constructor(status, place) {
    const reason = REFUSALS[status] ?? `Status${status}`;
    const where = CARDS.includes(status) ? RANKS[place >> 2] + SUITS[place & 3] : place;
    super(where ? `${reason} (${where})` : reason);
    this.name = "Refused";
    this.reason = reason;
    this.place = where;
    // As the library tells it.
    this.status = status;
    this.number = place;
  }
}

// The sizes of the structs of luffaknife.h.
const CALL = 40;
const BYTES = 16;

// The number of a name in a list of names.
function numbered(names, name, status) {
  const found = names.indexOf(name);
  if (found < 0) throw new Refused(status, 0);
  return found;
}

// A whole number as C is handed it: one that is greater would be cut.
function within(number, most, status) {
  if (!Number.isInteger(number) || number < 0 || number > most) throw new Refused(status, 0);
  return number;
}

/** The calls of one instance of the library. */
export class Luffaknife {
  #calls;
  #taken = [];

  constructor(instance) {
    this.#calls = instance.exports;
  }

  // Memory, which a call may make greater.
  get #bytes() {
    return new Uint8Array(this.#calls.memory.buffer);
  }

  get #view() {
    return new DataView(this.#calls.memory.buffer);
  }

  // Room for so many bytes until the call ends.
  #room(size) {
    const at = Number(this.#calls.luffaknife_room(BigInt(size)));
    if (at === 0) throw new Refused(NO_MEMORY, 0);
    this.#taken.push(at);
    return at;
  }

  // Bytes as they are handed in: a pointer and a length.
  #handed(bytes) {
    const at = this.#room(bytes.length || 1);
    this.#bytes.set(bytes, at);
    return [BigInt(at), BigInt(bytes.length)];
  }

  // What a call left behind, which is freed.
  #left(at) {
    const from = Number(this.#view.getBigUint64(at, true));
    const length = Number(this.#view.getBigUint64(at + 8, true));
    const bytes = this.#bytes.slice(from, from + length);
    if (length) this.#calls.luffaknife_give_back(BigInt(from));
    return bytes;
  }

  // One call, and what it leaves behind in so many structs.
  #call(name, words, kept) {
    const ended = this.#room(CALL);
    const structs = Array.from({ length: kept }, () => {
      const at = this.#room(BYTES);
      this.#view.setBigUint64(at, BigInt(at), true);
      this.#view.setBigUint64(at + 8, 0n, true);
      return at;
    });
    this.#calls[`luffaknife_${name}`](BigInt(ended), ...words, ...structs.map(BigInt));
    const told = this.#told(ended);
    return { ...told, left: structs.map((at) => this.#left(at)) };
  }

  // One call with a room for its text, as large as it says.
  #written(name, words, size) {
    const ended = this.#room(CALL);
    for (;;) {
      const room = this.#room(size);
      this.#calls[`luffaknife_${name}`](BigInt(ended), ...words, BigInt(room), BigInt(size));
      const length = Number(this.#view.getBigUint64(ended + 24, true));
      if (length > size) {
        size = length;
        continue;
      }
      const told = this.#told(ended);
      return { ...told, text: text_of(this.#bytes.slice(room, room + length)) };
    }
  }

  // How a call ended; a refusal is thrown.
  #told(at) {
    const word = (k) => this.#view.getUint32(at + 4 * k, true);
    if (word(0) >= REFUSED_FROM) throw new Refused(word(0), word(1));
    return { status: word(0), place: word(1), kind: KINDS[word(2)], moves: word(3), floor: word(4), budget: word(5) };
  }

  // Does what asks, and gives back what it took.
  #asking(does) {
    try {
      return does();
    } finally {
      for (const at of this.#taken.splice(0)) this.#calls.luffaknife_give_back(BigInt(at));
    }
  }

  // The bytes of a board: its text, or that of a deal.
  #board(board) {
    return bytes_of(typeof board === "number" ? this.deal(board) : board);
  }

  /** The text of a numbered deal. */
  deal(number) {
    const word = within(number, WORD, BAD_DEAL);
    return this.#asking(() => this.#written("deal", [word], 256).text);
  }

  /** How many bytes of memory the library has taken. */
  get size() {
    return this.#calls.memory.buffer.byteLength;
  }

  /** The version of the library, such as `0.2.0`. */
  version() {
    const number = this.#calls.luffaknife_version();
    return [Math.floor(number / 1e6), Math.floor(number / 1e3) % 1e3, number % 1e3].join(".");
  }

  /** The best answer within a budget. */
  best(board, { budget = 500000, certificate = false, ...game } = {}) {
    const bytes = this.#board(board);
    return this.#asking(() => {
      const words = [game_of(game), within(budget, WORD, BAD_BUDGET), ...this.#handed(bytes)];
      return answer(this.#call(certificate ? "keep_best_certified" : "keep_best", words, certificate ? 2 : 1));
    });
  }

  /** The answer of one search by a method. */
  solve(board, { rule = 2, bound = "plain", weight = 1, expansion = "full", budget = 100000, certificate = false, ...game } = {}) {
    const bytes = this.#board(board);
    return this.#asking(() => {
      const words = [game_of(game), method_of(rule, bound, weight, expansion, budget), ...this.#handed(bytes)];
      return answer(this.#call(certificate ? "keep_solve_certified" : "keep_solve", words, certificate ? 2 : 1));
    });
  }

  /** What a certificate proves of a board. */
  check(board, certificate, game = {}) {
    const bytes = this.#board(board);
    return this.#asking(() => {
      const words = [game_of(game), ...this.#handed(bytes), ...this.#handed(certificate)];
      const { kind, moves, floor, text } = this.#written("check", words, 4096);
      return { kind, moves, floor, text: text.trimEnd() };
    });
  }

  /** The boards after each move of a list, and whether the last one is won. */
  replay(board, list, { sequences = false, ...game } = {}) {
    const bytes = this.#board(board);
    return this.#asking(() => {
      const words = [game_of(game), ...this.#handed(bytes), ...this.#handed(bytes_of(list_text(list)))];
      const { status, text } = this.#written(sequences ? "replay_sequences" : "replay", words, 1 << 16);
      return { isWon: status === 0, boards: text.split(/(?=^Foundations: )/m).filter((it) => it) };
    });
  }

  /** Which move of a list loses, or how good a list is that wins. */
  review(board, list, { budget = 500000, ...game } = {}) {
    const bytes = this.#board(board);
    return this.#asking(() => {
      const words = [game_of(game), within(budget, WORD, BAD_BUDGET), ...this.#handed(bytes), ...this.#handed(bytes_of(list_text(list)))];
      const { place, kind, moves, floor, left } = this.#call("keep_review", words, 1);
      return { losing: place || undefined, kind, moves, floor, text: text_of(left[0]).trimEnd() };
    });
  }
}

const text_of = (bytes) => new TextDecoder().decode(bytes);
const bytes_of = (text) => new TextEncoder().encode(text);
const list_text = (list) => (Array.isArray(list) ? list.join(" ") : list);

// A game's name and its cells, as they are handed in.
function game_of({ game = "freecell", kings = false, cells = 4 }) {
  const code = numbered(GAMES, game, BAD_GAME) + (kings ? KINGS : 0);
  return code | (within(cells, BYTE, BAD_GAME) << 8);
}

// A method, as it is handed in.
function method_of(rule, bound, weight, expansion, budget) {
  const tenths = Math.round(weight * 10);
  if (!(Math.abs(tenths - weight * 10) < 1e-9)) throw new Refused(BAD_WEIGHT, 0);
  const bytes = [
    within(rule, BYTE, BAD_RULE), numbered(BOUNDS, bound, BAD_BOUND), within(tenths, BYTE, BAD_WEIGHT),
    numbered(EXPANSIONS, expansion, BAD_EXPANSION),
  ];
  const names = bytes.reduceRight((word, byte) => word * 256 + byte, 0);
  return BigInt(names) | (BigInt(within(budget, WORD, BAD_BUDGET)) << 32n);
}

// An answer as plain values.
function answer({ kind, moves, floor, budget, left }) {
  const text = text_of(left[0]);
  const list = text.split("\n")[1]?.split(" ").filter((it) => it);
  const told = { kind, text };
  if (kind === "shortest" || kind === "won") Object.assign(told, { moves, floor, list });
  if (kind === "gave up") told.budget = budget;
  if (left[1]?.length) told.certificate = left[1];
  return told;
}

// A module of one memory of 64 bits, by which an engine shows whether it has such memory.
const MEMORY64 = new Uint8Array([0, 97, 115, 109, 1, 0, 0, 0, 5, 3, 1, 4, 1]);
const RELEASED = "../release/luffaknife.wasm";

/** The library of these bytes, or of the file at a URL: by default of the released one. */
export async function load(from = new URL(RELEASED, import.meta.url)) {
  if (!WebAssembly.validate(MEMORY64)) {
    throw new Error("this engine has no memory of 64 bits; Node 20 to 23 have it by --experimental-wasm-memory64");
  }
  const is_place = typeof from === "string" || from instanceof URL;
  const { instance } = await WebAssembly.instantiate(is_place ? await read(new URL(from, import.meta.url)) : from, {});
  return new Luffaknife(instance);
}

// The bytes of a file, in Node and in browsers.
async function read(url) {
  if (url.protocol === "file:" && globalThis.process) {
    const { readFile } = await import("node:fs/promises");
    return readFile(url);
  }
  const answer = await fetch(url);
  if (!answer.ok) throw new Error(`${url}: ${answer.status}`);
  return answer.arrayBuffer();
}

/** Asks in a worker, one question after the other: each call of `Luffaknife` by the same name answers a promise. `stop` ends the one
    that runs, and the next one begins anew. */
export class Solver {
  #make;
  #worker;
  #asked = [];

  /** `from` is where the library lies, as for `load`; `make` makes a worker that runs `serve`, by default that beside this module. */
  constructor({ from, make } = {}) {
    const url = new URL("luffaknife.worker.mjs", import.meta.url);
    if (from) url.searchParams.set("from", new URL(from, import.meta.url));
    this.#make = make ?? (() => new Worker(url, { type: "module" }));
    for (const name of ["version", "deal", "best", "solve", "check", "replay", "review"]) this[name] = (...words) => this.#ask(name, words);
  }

  #ask(name, words) {
    return new Promise((does, fails) => {
      this.#asked.push({ name, words, does, fails });
      if (this.#asked.length === 1) this.#send();
    });
  }

  // Hands the first question to the worker, which is made where there is none.
  #send() {
    if (!this.#asked.length) return;
    if (!this.#worker) {
      this.#worker = this.#make();
      this.#worker.onmessage = ({ data }) => this.#hear(data);
      this.#worker.onerror = (error) => this.#hear({ error: { message: error.message } });
    }
    const { name, words } = this.#asked[0];
    this.#worker.postMessage({ name, words });
  }

  #hear({ told, error }) {
    const { does, fails } = this.#asked.shift();
    if (error) fails(error.status === undefined ? new Error(error.message) : new Refused(error.status, error.place));
    else does(told);
    this.#send();
  }

  /** Ends what runs, which is refused as stopped; what waits goes on. */
  stop() {
    this.#worker?.terminate();
    this.#worker = undefined;
    this.#asked.shift()?.fails(new Error("stopped"));
    this.#send();
  }
}

/** Answers what a `Solver` asks, over this scope of a worker. */
export async function serve(scope, from) {
  const library = load(from);
  scope.onmessage = async ({ data: { name, words } }) => {
    try {
      scope.postMessage({ told: (await library)[name](...words) });
    } catch (error) {
      scope.postMessage({ error: { message: error.message, status: error.status, place: error.number } });
    }
  };
}
