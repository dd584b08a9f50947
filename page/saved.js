// @ts-check
"use strict";
/** What is kept in this browser from one visit to the next: games, wins, switches. Without storage all else works. */
const saved = (() => {
  const NAME = "luffaknife", MOST_GAMES = 100, DEFAULTS = { home: true, tap: true, keys: true, colours: false,
    timer: false };
  /** @typedef {{own: string, at: number, seconds: number}} Kept
   * @typedef {{games: Record<string, Kept>, won: Record<string, number>, switches: Record<string, boolean>}} Store */
  const empty = () => /** @type {Store} */ ({ games: {}, won: {}, switches: {} });
  /** @returns {Store} */
  const read = () => {
    try {
      return { ...empty(), ...JSON.parse(localStorage.getItem(NAME) ?? "{}") };
    } catch {
      return empty();
    }
  };
  let seconds = 0;
  /** @param {(it: Store) => Store} change Changes what is kept, as it stands now: another window may have changed
   * it too. */
  const keepChanged = change => {
    const it = change(read());
    try {
      localStorage.setItem(NAME, JSON.stringify(it));
    } catch { /* (nothing is kept) */ }
  };
  const nameOf = (/** @type {State} */ state) => link.base(state.game, state.deal, state.start);
  /** @param {State} state Keeps the player's game of a deal. */
  const keep = state => keepChanged(it => {
    const { [nameOf(state)]: _, ...others } = it.games, { line, at } = state.own;
    const kept = Object.entries(others).slice(-MOST_GAMES + 1), own = { own: link.entries(line), at, seconds };
    return { ...it, games: Object.fromEntries(line.moves.length === 0 ? kept : [...kept, [nameOf(state), own]]) };
  });
  const of = (/** @type {string} */ name) => /** @type {Kept | undefined} */ (read().games[name]);
  /** @param {State} state @param {number} moves A game that is won in so many moves. */
  const won = (state, moves) => keepChanged(it => {
    const name = nameOf(state);
    return { ...it, won: { ...it.won, [name]: Math.min(moves, it.won[name] ?? Infinity) } };
  });
  const best = (/** @type {State} */ state) => /** @type {number | undefined} */ (read().won[nameOf(state)]);
  const wins = () => Object.keys(read().won).length;
  const switches = () => ({ ...DEFAULTS, ...read().switches });
  const setSwitches = (/** @type {Record<string, boolean>} */ switches) => keepChanged(it => ({ ...it, switches }));
  const time = (/** @type {number} */ told) => { seconds = told; };
  return { keep, of, won, best, wins, switches, setSwitches, time, seconds: () =>
    seconds };
})();
