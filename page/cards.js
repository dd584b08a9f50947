// @ts-check
"use strict";
/** All are values: a card is 0 to 51, four times its rank less one, plus its suit; a place is "1" to "8", "a" to "d" or
 * "h".
 * @typedef {{cells: number, isBakers: boolean, isKings: boolean}} Game
 * @typedef {{columns: number[][], cells: (number | null)[], homes: number[]}} Board
 */
/** Names and colours of cards. */
const cards = (() => {
  const RANKS = "A23456789TJQK", SUITS = "CDHS", SIGNS = "♣♦♥♠", COUNT = 52, HIGHEST = 13;
  const rank = (/** @type {number} */ card) => (card >> 2) + 1;
  const suit = (/** @type {number} */ card) => card & 3;
  const isRed = (/** @type {number} */ card) => suit(card) % 3 > 0;
  const of = (/** @type {number} */ rank, /** @type {number} */ suit) => 4 * (rank - 1) + suit;
  const name = (/** @type {number} */ card) => RANKS[card >> 2] + SUITS[card & 3];
  /** (the selector asks for a letter in place of a picture) */
  const sign = (/** @type {number} */ at) => SIGNS[at] + "\ufe0e";
  const rankSign = (/** @type {number} */ card) => rank(card) === 10 ? "10" : RANKS[card >> 2];
  const shown = (/** @type {number} */ card) => rankSign(card) + sign(suit(card));
  const words = (/** @type {number} */ card) => texts.card(texts.RANK_WORDS[card >> 2], texts.SUIT_WORDS[card & 3]);
  const rankOf = (/** @type {string} */ it) => it === "10" ? 10 : it.length === 1 ? RANKS.indexOf(it.toUpperCase()) + 1
    : 0;
  const suitOf = (/** @type {string} */ it) => it.length === 1 ? SUITS.indexOf(it.toUpperCase()) : -1;
  /** @param {string} it @returns {number | null} The card that a word spells, in either order; or null. */
  const read = it => {
    for (const [rank, suit] of [[it.slice(0, -1), it.slice(-1)], [it.slice(1), it.slice(0, 1)]])
      if (rankOf(rank) > 0 && suitOf(suit) >= 0) return of(rankOf(rank), suitOf(suit));
    return null;
  };
  return { RANKS, SUITS, COUNT, HIGHEST, rank, suit, isRed, of, name, sign, rankSign, shown, words, rankOf, suitOf,
    read };
})();
/** Numbered deals, by Jim Horne's algorithm. */
const deal = (() => {
  const MOST = 1000000;
  /** @param {number} number @returns {Board} */
  const dealt = number => {
    const deck = Array.from({ length: cards.COUNT }, (_, card) => card);
    const columns = Array.from({ length: 8 }, () => /** @type {number[]} */ ([]));
    for (let i = 0, seed = number; i < cards.COUNT; i++, deck.pop()) {
      seed = (Math.imul(seed, 214013) + 2531011) & 0x7fffffff;
      columns[i % 8].push(...deck.splice((seed >>> 16) % deck.length, 1, deck[deck.length - 1]));
    }
    return { columns, cells: [null, null, null, null], homes: [0, 0, 0, 0] };
  };
  const isNumber = (/** @type {number} */ it) => Number.isInteger(it) && it >= 1 && it <= MOST;
  /** @param {string} told @returns {number | null} The deal that a text names in digits alone, or null. */
  const read = told => /^\d{1,7}$/.test(told) && isNumber(Number(told)) ? Number(told) : null;
  /** @param {Date} day @returns {number} The deal of a day, the same for all: of the 32,000 that have rows. */
  const ofDay = day => {
    const days = Math.floor(Date.UTC(day.getFullYear(), day.getMonth(), day.getDate()) / 86400000);
    return 1 + (Math.imul(days, 2654435761) >>> 0) % 32000;
  };
  return { MOST, dealt, read, ofDay };
})();
