// @ts-check
"use strict";
/** What may move where, one card or several, and which cards go home by themselves. */
const moves = (() => {
  const COLUMNS = "12345678", CELLS = "abcd", PLACES = COLUMNS + CELLS;
  const column = (/** @type {Board} */ it, /** @type {string} */ place) => it.columns[COLUMNS.indexOf(place)];
  const isColumn = (/** @type {string} */ place) => COLUMNS.includes(place);
  const isCell = (/** @type {string} */ place) => CELLS.includes(place);
  /** @param {Board} it @param {string} place @returns {number | null} The card that may be taken from a place, or
   * null. */
  const top = (it, place) => isColumn(place) ? column(it, place).at(-1) ?? null : it.cells[CELLS.indexOf(place)]
    ?? null;
  /** @param {Game} game @param {number} card @param {number} under Whether a card may stand on another one. */
  const fits = (game, card, under) => cards.rank(under) === cards.rank(card) + 1
    && (game.isBakers ? cards.suit(card) === cards.suit(under) : cards.isRed(card) !== cards.isRed(under));
  /** @param {Game} game @param {number} card @param {number | null} under Why a card doesn't go to a column, as the
   * program tells it; nothing where it does. */
  const landing = (game, card, under) => {
    if (under === null) return game.isKings && cards.rank(card) < cards.HIGHEST ? texts.why.kings : "";
    return fits(game, card, under) ? "" : texts.why.misfit(cards.name(under));
  };
  const isNext = (/** @type {number[]} */ homes, /** @type {number} */ card) =>
    homes[cards.suit(card)] === cards.rank(card) - 1;
  /** @param {Game} game @param {Board} it @param {string} move Why a move isn't allowed; nothing where it is. */
  const why = (game, it, move) => {
    const [from, to] = move, card = top(it, from);
    if (card === null) return texts.why.none;
    if (from === to || isCell(from) && isCell(to)) return texts.why.own;
    if (to === "h") return isNext(it.homes, card) ? "" : texts.why.notNext;
    if (isColumn(to)) return landing(game, card, top(it, to));
    return CELLS.indexOf(to) >= game.cells ? texts.why.noCell : top(it, to) === null ? "" : texts.why.held;
  };
  /** @param {Board} it @param {string} move @returns {Board} The board after a move that is allowed. */
  const after = (it, move) => {
    const [from, to] = move, card = /** @type {number} */ (top(it, from));
    const { columns, cells, homes } = { columns: [...it.columns], cells: [...it.cells], homes: [...it.homes] };
    if (isColumn(from)) columns[COLUMNS.indexOf(from)] = column(it, from).slice(0, -1);
    else cells[CELLS.indexOf(from)] = null;
    if (to === "h") homes[cards.suit(card)]++;
    else if (isColumn(to)) columns[COLUMNS.indexOf(to)] = [...column(it, to), card];
    else cells[CELLS.indexOf(to)] = card;
    return { columns, cells, homes };
  };
  /** @param {Game} game @param {Board} it All moves that are allowed. */
  const all = (game, it) => [...PLACES].flatMap(from => [...PLACES, "h"].map(to => from + to))
    .filter(move => why(game, it, move) === "");
  /** @param {Game} game @param {Board} it @param {string} place How many last cards of a place lie on each other as
   * they may be moved. */
  const run = (game, it, place) => {
    if (!isColumn(place)) return top(it, place) === null ? 0 : 1;
    const lying = column(it, place);
    let first = lying.length - 1;
    while (first > 0 && fits(game, lying[first], lying[first - 1])) first--;
    return lying.length - Math.max(first, 0);
  };
  /** @param {string} from @param {string} to @param {number} count @param {string[]} cells @param {string[]} empty
   * @returns {string[] | null} The one-card moves that carry so many cards over free cells, and over empty columns
   * where those are too few; null where both are. */
  const carried = (from, to, count, cells, empty) => {
    const over = cells.slice(0, count - 1), [spare, ...others] = empty,
      rest = (cells.length + 1) * 2 ** (empty.length - 1);
    if (count <= cells.length + 1) return [...over.map(cell => from + cell), from + to, ...over.reverse()
      .map(cell => cell + to)];
    if (empty.length === 0 || count > 2 * rest) return null;
    const first = carried(from, spare, count - rest, cells, others), then = carried(from, to, rest, cells, others);
    const last = carried(spare, to, count - rest, cells, others);
    return first && then && last && [...first, ...then, ...last];
  };
  /** @param {Game} game @param {Board} it @param {string} move @param {number} count The one-card moves of an entry for
   * so many cards; null where the rules don't allow it. */
  const entry = (game, it, move, count) => {
    const [from, to] = move, isFree = (/** @type {string} */ place) => place !== to && top(it, place) === null;
    if (count === 1) return why(game, it, move) === "" ? [move] : null;
    if (!isColumn(from) || !isColumn(to) || from === to || count < 1 || count > run(game, it, from)) return null;
    if (landing(game, column(it, from)[column(it, from).length - count], top(it, to)) !== "") return null;
    return carried(from, to, count, [...CELLS.slice(0, game.cells)].filter(isFree), game.isKings ? []
      : [...COLUMNS].filter(isFree));
  };
  /** @param {Board} it @param {string} move How many cards two letters move: those that fit on the last card there,
   * else one. */
  const meant = (it, move) => {
    const [card, under] = [top(it, move[0]), top(it, move[1])];
    return isColumn(move[0]) && isColumn(move[1]) && card !== null && under !== null
      ? Math.max(1, cards.rank(under) - cards.rank(card)) : 1;
  };
  /** @param {Game} game @param {Board} it @param {string} from @param {number} count Where so many cards of a place may
   * go, the best place first: home, on a card, an empty column for a king or several cards, a cell, another empty
   * column. */
  const goals = (game, it, from, count) => {
    const card = isColumn(from) ? column(it, from).at(-count) : top(it, from), isWhole = isColumn(from)
      && column(it, from).length === count;
    if (card === undefined || card === null) return [];
    const isWanted = count > 1 || cards.rank(card) === cards.HIGHEST;
    const order = (/** @type {string} */ to) => to === "h" ? 0 : isCell(to) ? 3 : top(it, to) !== null ? 1 : isWhole ? 5
      : isWanted ? 2 : 4;
    return ["h", ...PLACES].filter(to => entry(game, it, from + to, count) !== null)
      .sort((a, b) => order(a) - order(b));
  };
  /** @param {Game} game @param {number} card The cards that may stand on a card. */
  const standers = (game, card) => cards.rank(card) === 1 ? [] : [0, 1, 2, 3].map(suit => cards.of(cards.rank(card) - 1,
    suit))
    .filter(it => fits(game, it, card));
  /** @param {Game} game @param {number[]} homes @param {number} card @returns {boolean} Whether nothing can want a card
   * any more: it is next, and each card that may stand on it is home, or may go so itself. */
  const isFree = (game, homes, card) => isNext(homes, card)
    && standers(game, card).every(it => cards.rank(it) <= homes[cards.suit(it)] || isFree(game, homes, it));
  /** @param {Game} game @param {Board} it @param {string} from Whether the card of a place goes home by itself. */
  const goesHome = (game, it, from) => {
    const card = top(it, from);
    return card !== null && isFree(game, it.homes, card);
  };
  /** @param {Game} game @param {Board} start @param {(now: Board, from: string) => boolean} isSent The moves that send
   * cards home one by one, the least first, until none goes. */
  const sent = (game, start, isSent) => {
    const told = /** @type {string[]} */ ([]);
    for (let now = start; ;) {
      const next = [...PLACES].filter(from => why(game, now, from + "h") === "" && isSent(now, from))
        .sort((a, b) => Number(top(now, a)) - Number(top(now, b)))[0];
      if (next === undefined) return told;
      now = after(now, next + "h");
      told.push(next + "h");
    }
  };
  const settled = (/** @type {Game} */ game, /** @type {Board} */ it) => sent(game, it, (now, from) =>
    goesHome(game, now, from));
  /** @param {Game} game @param {Board} it The moves home that win, where no other is needed; else null. */
  const allHome = (game, it) => {
    const told = sent(game, it, () => true), left = it.homes.reduce((left, count) => left - count, cards.COUNT);
    return told.length === left ? told : null;
  };
  return { PLACES, COLUMNS, CELLS, column, isColumn, isCell, top, fits, why, after, all, run, entry, meant, goals,
    goesHome, settled,
    allHome };
})();
