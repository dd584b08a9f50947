// @ts-check
"use strict";
/**
 * @typedef {{text: string, from: number, to: number}} Token a word, and where it stands in the text
 * @typedef {{kind: string, tokens: Token[], from: number, line: number}} Piece a line of a board's text
 * @typedef {{said: string, from: number, line: number}} Line0 a line as it stands, and its number
 * @typedef {{says: string, note: string, spots: Token[]}} Fault
 */
/** Boards read from texts, or refused as the program refuses them; and printed. */
const board = (() => {
  const HOMES = /^[ \t\u00a0,]*(?:foundations?|founds?|decks?|homes?):/i;
  const CELLS = /^[ \t\u00a0,]*(?:freecells?|fc|cells?|free(?: cells?)?):/i;
  const SOLVERS = /^(==|-=|--|(Move|This|Total|I|Iteration:|Depth:|Stored-States:|Scan:|Standard)$)/;
  const DRAWN = /^\s*(1 +2 +3 +4 +5 +6 +7 +8|(a +(b +(c +(d +)?)?)?)?C +D +H +S)\s*$/;
  const MOST_BYTES = 4096, SAID = texts.board;
  const plain = (/** @type {string} */ text) => text.replace(/([♠-♧])[\ufe0e\ufe0f]?/g, (_, sign) =>
    "SHDCSHDC"[sign.charCodeAt(0) - 0x2660]);
  /** @param {string} says @param {Token[]} spots @returns {Fault} */
  const fault = (says, spots = [], note = "") => ({ says, note, spots });
  const isFault = /** @type {(it: any) => it is Fault} */ (it => "says" in it);
  const bytes = (/** @type {string} */ text) => [...new TextEncoder().encode(text)];
  /** @param {string} line @param {number} skip @param {number} from @returns {Token[]} The words of a line behind so
   * many letters. */
  const words = (line, skip, from) => [...line.slice(skip).matchAll(/[^ \t\u00a0,]+/g)].map(it =>
    ({ text: plain(it[0]), from: from + skip + Number(it.index), to: from + skip + Number(it.index) + it[0].length }));
  /** @param {string} said Whether the first line that says something is a title. */
  const isTitle = said => {
    const all = words(said, 0, 0).map(it => it.text);
    return !HOMES.test(said) && !CELLS.test(said) && all.some(it => /[A-Za-z]{4}/.test(it))
      && !all.some(it => cards.read(it) !== null || /^(-|--|\*|\.)$/.test(it));
  };
  /** @param {string} text @returns {Line0[]} The lines that say something, without comments and title. */
  const lines = text => {
    let from = 0;
    const bare = (/** @type {string} */ said) => said.split("#")[0].replace(/\r$/, "");
    const all = text.replace(/^\ufeff/, " ").split("\n").map((said, i) => {
      from += said.length + 1;
      return { said, from: from - said.length - 1, line: i + 1 };
    });
    const first = all.findIndex(it => words(bare(it.said), 0, 0).length > 0);
    return all.filter(({ said }, i) => !(/^[ \t\u00a0]*#/.test(said) || i === all.length - 1 && said === ""
      || i === first && i < all.length - 1 && isTitle(bare(said)))).map(it => ({ ...it, said: bare(it.said) }));
  };
  /** @param {Line0[]} given @returns {Piece[]} */
  const inColumns = given => {
    let column = 0;
    return given.map(({ said, from, line }) => {
      const named = said.match(HOMES) ?? said.match(CELLS), label = said.match(/^[ \t\u00a0,]*(?:([1-8])[:.)]|:)/);
      if (named) return { kind: HOMES.test(said) ? "homes" : "cells", tokens: words(said, named[0].length, from), from,
        line };
      const isLabel = ++column && label && (!label[1] || Number(label[1]) === column);
      const tokens = words(said, isLabel ? label[0].length : 0, from);
      return { kind: "column", tokens: tokens.length === 1 && tokens[0].text === "-" ? [] : tokens, from, line };
    });
  };
  /** @param {string} it @returns {[number, number] | null} A suit and how many of its cards are home, or null. */
  const home = it => {
    const card = cards.read(it), [suit, count] = [cards.suitOf(it[0]), it.slice(2)];
    if (card !== null) return [cards.suit(card), cards.rank(card)];
    const isTold = suit >= 0 && (it[1] === "-" || it[1] === ":") && (count === "0" || cards.rankOf(count) > 0);
    return isTold ? [suit, cards.rankOf(count)] : null;
  };
  const escaped = (/** @type {string} */ text) => bytes(text).slice(0, 24).map(it => [34, 39, 92].includes(it)
    ? "\\" + String.fromCharCode(it)
    : it >= 32 && it < 127 ? String.fromCharCode(it) : "\\x" + it.toString(16).padStart(2, "0"))
      .join("") + (bytes(text).length > 24 ? ".." : "");
  const isGap = (/** @type {string} */ it) => it === "-" || it === "*";
  /** @param {Piece} piece @param {Game} game @param {number} columns how many stand above it @param {boolean} isSecond
   * of its kind @returns {Fault | null} What is wrong with a line. */
  const lineFault = ({ kind, tokens, from, line }, game, columns, isSecond) => {
    const suits = new Set(), bad = (/** @type {number} */ word, /** @type {string} */ says,
      /** @type {string} */ why) =>
      fault(SAID.line(line, says), [tokens[word]], SAID.word(line, word + 1, escaped(tokens[word].text), why));
    const badHome = kind === "homes" ? tokens.findIndex(it => {
      const told = home(it.text);
      return told === null || suits.size === suits.add(told[0]).size;
    }) : -1;
    const badCard = kind === "homes" ? -1 : tokens.findIndex(({ text }) => cards.read(text) === null
      && !(kind === "cells" && isGap(text)));
    const text = tokens[badCard]?.text ?? "", isNumber = /^([0-9]:|[1-8][.)])/.test(text);
    if (badHome >= 0) return bad(badHome, SAID.notHome, SAID.noHome);
    if (badCard >= 0) return bad(badCard, SAID.notCard, badCard === 0 && SOLVERS.test(text) ? SAID.solvers : isNumber
      ? SAID.order : SAID.noCard);
    if (kind === "cells" && tokens.length > game.cells) return bad(game.cells, SAID.manyCells, SAID.pastCells);
    if (kind === "column" && columns === 8 && tokens.length) return bad(0, SAID.manyColumns, SAID.pastColumns);
    return isSecond ? fault(SAID.line(line, SAID.repeated), [{ text: "", from, to: from + 1 }], SAID.again(line))
      : null;
  };
  /** @param {Piece[]} pieces @param {Game} game @returns {Board | Fault} The board that pieces tell, or its first
   * fault. */
  const told = (pieces, game) => {
    const read = { columns: /** @type {number[][]} */ ([]), cells: /** @type {(number | null)[]} */ ([]),
      homes: [0, 0, 0, 0] };
    const seen = new Set(), spots = Array.from({ length: cards.COUNT }, () =>
      /** @type {(Token & {place: string})[]} */ ([]));
    for (const piece of pieces) {
      const { kind, tokens, line } = piece, values = tokens.map(it => cards.read(it.text));
      const wrong = lineFault(piece, game, read.columns.length, seen.has(kind));
      if (kind !== "homes") for (const [word, it] of values.entries()) if (it !== null) spots[it].push({
        ...tokens[word], place: SAID.place(line, word + 1) });
      if (wrong) return wrong;
      if (kind !== "column") seen.add(kind);
      if (kind === "column" && read.columns.length < 8) read.columns.push(/** @type {number[]} */ (values));
      else if (kind === "cells") read.cells = values;
      else for (const [suit, count] of tokens.map(it =>
        /** @type {[number, number]} */ (home(it.text)))) read.homes[suit] = count;
    }
    while (read.columns.length < 8) read.columns.push([]);
    while (read.cells.length < 4) read.cells.push(null);
    return wholeFault(read, spots, seen.has("homes"), pieces) ?? read;
  };
  /** @param {Board} read @param {(Token & {place: string})[][]} spots @param {boolean} hasHomes @param {Piece[]} pieces
   * @returns {Fault | null} Which card stands twice, or is missing. */
  const wholeFault = (read, spots, hasHomes, pieces) => {
    const isHome = (/** @type {number} */ card) => cards.rank(card) <= read.homes[cards.suit(card)];
    const twice = spots.findIndex((at, card) => at.length + Number(isHome(card)) > 1);
    const [first, last, name] = [spots[twice]?.[0], spots[twice]?.at(-1), twice >= 0 ? cards.name(twice) : ""];
    if (first && last) return fault(SAID.twice(name), spots[twice], first === last ? SAID.isHome(first.place, name)
      : SAID.isOne(first.place, last.place, name));
    const lacked = spots.flatMap((at, card) => at.length === 0 && !isHome(card) ? [card] : []);
    if (lacked.length === 0) return null;
    const heads = [0, 1, 2, 3].map(suit => lacked.filter(card => cards.suit(card) === suit)
      .map(card => cards.rank(card)));
    const isRuns = !hasHomes && heads.every(ranks => ranks.length === 0 || ranks.length === Math.max(...ranks));
    const isEmpty = pieces.every(it => it.kind === "column" && it.tokens.length === 0);
    return fault(SAID.missing(cards.name(lacked[0])), [], isEmpty ? SAID.empty : isRuns
      ? SAID.guessed(homesLine(heads.map(it => it.length)))
      : `${lacked.length > 1 ? SAID.lacked(lacked.map(cards.name)) : ""}${SAID.whole}`);
  };
  /** @param {string} text @param {Game} game @param {boolean} isInRows The board of a text in columns, or in rows where
   * that is told or the text is a drawing; or its fault. @returns {Board | Fault} */
  const read = (text, game, isInRows = false) => {
    const given = lines(text), size = bytes(given.map(it => plain(it.said)).join("\n")).length
      + Number(text.endsWith("\n"));
    if (size > MOST_BYTES) return fault(SAID.tooLong, [], SAID.most(MOST_BYTES));
    if (!isInRows && !given.some(it => DRAWN.test(it.said))) return told(inColumns(given), game);
    const pieces = inRows.pieces(given);
    return Array.isArray(pieces) ? told(pieces, game) : pieces;
  };
  /** @param {Game} game @param {Board} it Whether a board may come from a deal: what lies past the cards dealt stands
   * on the card before. */
  const isOfDeal = (game, it) => it.columns.every((lying, i) => {
    const dealt = i < 4 ? 7 : 6;
    return lying.slice(dealt).every((card, at) => moves.fits(game, card, lying[dealt + at - 1]));
  });
  /** @param {string} text @param {Game} game @param {boolean} isInRows The other reading of a text, where that is a
   * board and another one, and no less likely. @returns {Board | null} */
  const readOther = (text, game, isInRows) => {
    const [it, other] = [read(text, game, isInRows), read(text, game, !isInRows)];
    if (isFault(other)) return null;
    if (isFault(it)) return other;
    const [mayBe, mayBeOther] = [isOfDeal(game, it), isOfDeal(game, other)], isLikely = mayBe === mayBeOther
      ? other.columns[7].length > 0 : mayBeOther;
    return isLikely && print(it, game) !== print(other, game) ? other : null;
  };
  const homesLine = (/** @type {number[]} */ homes) =>
    `Foundations:${[2, 0, 1, 3].map(suit => ` ${cards.SUITS[suit]}-${("0" + cards.RANKS)[homes[suit]]}`).join("")}`;
  const named = (/** @type {(number | null)[]} */ all) =>
    all.map(card => " " + (card === null ? "-" : cards.name(card))).join("");
  /** @param {Board} it @param {Game} game A board as the program prints it. */
  const print = (it, game) => {
    const columns = it.columns.map(column => `:${named(column)}\n`).join("");
    return `${homesLine(it.homes)}\nFreecells:${named(it.cells.slice(0, game.cells))}\n${columns}`;
  };
  const isWon = (/** @type {Board} */ it) => it.homes.every(count => count === cards.HIGHEST);
  return { HOMES, CELLS, plain, fault, inColumns, read, readOther, print, escaped, isFault, isWon };
})();
