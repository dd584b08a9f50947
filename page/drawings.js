// @ts-check
"use strict";
/** @typedef {{word: Token, number: number, room: number, from: number, to: number}} Span a word of a row, the room
 * before it, and
 * its places, which a tab takes to the next multiple of eight
 * @typedef {(Span | undefined)[]} Places of each column, where its entry stands */
/** Boards whose lines are rows across the table, read into columns as the program reads them. */
const inRows = (() => {
  const NAMES = /^(a(b(cd?)?)?)?CDHS$/, NUMBERS = "12345678", GAP = 3, isNone = (/** @type {string} */ it) =>
    /^(-|--|\.)$/.test(it);
  /** @param {string} line @param {number} first @returns {Span[]} */
  const spans = (line, first) => {
    const all = /** @type {Span[]} */ ([]), letters = [...line];
    for (let i = 0, place = 0, room = 0; i < letters.length;) {
      if (letters[i] <= " " || letters[i] === ",") {
        room += letters[i] === "\t" ? 2 : 1;
        place = letters[i++] === "\t" ? 8 * (Math.floor(place / 8) + 1) : place + 1;
        continue;
      }
      let text = "", from = i;
      while (i < letters.length && letters[i] > " " && letters[i] !== ",") text += letters[i++];
      const word = { text: board.plain(text), from: first + from, to: first + i }, size = word.text.length;
      all.push({ word, number: all.length + 1, room, from: place, to: place + size });
      [place, room] = [place + size, 0];
    }
    return all;
  };
  const isBelow = (/** @type {Span} */ a, /** @type {Span} */ b) => b.from < a.to && a.from < b.to;
  const under = (/** @type {Places} */ places, /** @type {Span[]} */ all) =>
    places.map(at => at && all.find(it => isBelow(at, it)));
  const fromFirst = (/** @type {Span[]} */ all) => Array.from({ length: 8 }, (_, i) =>
    /** @type {Span | undefined} */ (all[i]));
  /** @param {Places} entries @param {Span[]} all Whether the words of the columns are all of these, in their order. */
  const areAll = (entries, all) => entries.filter(it => it).map(it => it?.number).join() === all.map(it => it.number)
    .join();
  const areApart = (/** @type {Span[]} */ all) => all.every((it, i) => i === 0 || it.from - all[i - 1].from >= GAP);
  /** @param {Places} head @param {Places} above @param {Span[]} all @returns {{entries: Places, gap?: number}} How a
   * row is read. */
  const reading = (head, above, all) => {
    const below = under(head, all), first = above[0] ?? head[0], nearest = under(above, all);
    if (areAll(below, all)) return { entries: below };
    const isOff = first ? !isBelow(first, all[0]) : all[0].room > GAP, gap = isOff ? 1 : all.slice(1)
      .find(it => it.room > GAP)?.number;
    if (all.length === 8 || gap === undefined) return { entries: fromFirst(all) };
    return areAll(nearest, all) ? { entries: nearest } : { entries: fromFirst(all), gap };
  };
  /** @param {Line0} row @param {Span[]} all What a drawing's foundations hold. */
  const homes = ({ line, from }, all) => ({ kind: "homes", line, from, tokens: all.map(({ word }, i) =>
    isNone(word.text) ? { ...word, text: `${cards.SUITS[i]}-0` } : word) });
  /** @param {Line0[]} given @returns {Piece[] | Fault} The columns that rows tell; or the first row that is at
   * fault. */
  const pieces = given => {
    const columns = Array.from({ length: 8 }, (_, i) => ({ kind: "column", tokens: /** @type {Token[]} */ ([]), from: 0,
      line: i + 1 }));
    const front = /** @type {Piece[]} */ ([]), left = Array.from({ length: 8 }, () => 0);
    let cells = -1, head = /** @type {Places} */ (fromFirst([])), above = /** @type {Places} */ (fromFirst([]));
    const refuse = (/** @type {number} */ line, /** @type {string} */ why, /** @type {Token[]} */ spots) =>
      board.fault(texts.board.line(line, why), spots);
    for (const row of given) {
      const said = row.said.replace(/>/g, " "), all = spans(board.plain(said), row.from),
        names = all.map(it => it.word.text).join("");
      if (all.length === 0) continue;
      if (cells >= 0) {
        if (all.length !== cells + 4) return refuse(row.line, texts.board.head, []);
        const cellsOf = { kind: "cells", line: row.line, from: row.from, tokens: all.slice(0, cells)
          .map(it => it.word) };
        front.push(homes(row, all.slice(cells)), cellsOf);
        cells = -1;
      } else if (board.HOMES.test(said) || board.CELLS.test(said)) front.push(...board.inColumns([{ ...row, said }]));
      else if (NAMES.test(names) && all.every(it => it.word.text.length === 1)) cells = names.length - 4;
      else if (names === NUMBERS) head = areApart(all) ? fromFirst(all) : head;
      else {
        const { entries, gap } = reading(head, above, all), isCard = (/** @type {Span | undefined} */ it) =>
          it !== undefined && !isNone(it.word.text);
        const short = entries.findIndex((it, i) => isCard(it) && left[i] > 0);
        if (gap) return refuse(row.line, texts.board.open(gap), [all[gap - 1].word]);
        if (short >= 0) return refuse(left[short], texts.board.short, []);
        if (all.length > 8) return refuse(row.line, texts.board.long, [all[8].word]);
        for (const [i, it] of entries.entries()) {
          if (it && isCard(it)) columns[i].tokens.push(it.word);
          if (!it && left[i] === 0) left[i] = row.line;
        }
        above = above.map((it, i) => entries[i] ?? it);
      }
    }
    return [...front, ...columns];
  };
  return { pieces };
})();
