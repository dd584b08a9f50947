// @ts-check
"use strict";
/**
 * @typedef {{moves: string[], ends: number[], boards: Board[]}} Line one-card moves, where each entry of a player ends,
 * and the boards
 * @typedef {{answer: string, floor: number | null, budget?: string}} Claim what is said of a board, and within how many
 * positions a row shows it
 */
/** Lists of moves: read, told in words, and counted by a hand. */
const list = (() => {
  const CLAIM = /^\s*(?:(shortest) (\d+)|(won) \d+, at least (\d+)|(can't be won|gave up))/m;
  const BESIDE = /^\s*(shortest \d|won \d|can't be won|gave up \d|fc_solve:|\$ |\d+ (moves|entries)).*$/gm;
  const IN_WORDS = /^.*from (?:column|cell) ([1-8a-d])(?: (home)|.* (?:column|cell) ([1-8a-d])) *\r?$/;
  const MOST_CARRIED = 40, PACKED = /^([1-8a-d][1-8a-dh]){2,}$/i;
  /** @param {Board} start @param {string[]} steps @returns {Board[]} The boards on the way of moves that are
   * allowed. */
  const boards = (start, steps) => {
    const all = [start];
    for (const move of steps) all.push(moves.after(all[all.length - 1], move));
    return all;
  };
  /** @param {Game} game @param {Board} start @param {string[]} steps @param {number[]} [ends] @returns {Line} */
  const line = (game, start, steps, ends) => {
    const all = boards(start, steps);
    return { moves: steps, ends: ends ?? entries(game, steps, all, 0, steps.length), boards: all };
  };
  /** @param {Game} game @param {Line} it @param {number} at @param {string[]} steps @returns {Line} A line up to a
   * step, and an entry of so many moves. */
  const extended = (game, it, at, steps) => {
    const ends = it.ends.filter(end => end < at);
    return { moves: [...it.moves.slice(0, at), ...steps], boards: [...it.boards.slice(0, at),
      ...boards(it.boards[at], steps)],
      ends: [...ends, ...at > 0 ? [at] : [], at + steps.length] };
  };
  /** @param {Game} game @param {string[]} steps @param {Board[]} all @param {number} from @param {number} to Where the
   * entries by a hand end: moves that carry several cards as they lie are one. */
  const entries = (game, steps, all, from, to) => {
    const ends = [];
    for (let at = from, next = from; at < to; ends.push(at = next))
      for (next = Math.min(to, at + MOST_CARRIED); next > at + 1 && !isCarried(game, steps, all, at, next);) next--;
    return ends;
  };
  /** @param {Game} game @param {string[]} steps @param {Board[]} all @param {number} at @param {number} next Whether so
   * many moves only carried cards from one column to another. */
  const isCarried = (game, steps, all, at, next) => {
    const [from, to] = [all[at], all[next]], [source, target] = [steps[at][0], steps[next - 1][1]];
    if (!moves.isColumn(source) || !moves.isColumn(target) || source === target) return false;
    const [left, grown] = [moves.column(to, source), moves.column(to, target)],
      [was, before] = [moves.column(from, source), moves.column(from, target)];
    const count = was.length - left.length;
    if (count < 2 || grown.length - before.length !== count || from.homes.join() !== to.homes.join()
      || from.cells.join() !== to.cells.join()) return false;
    const isSame = from.columns.every((lying, i) => [source, target].includes(moves.COLUMNS[i])
      || lying.join() === to.columns[i].join());
    return isSame && left.join() === was.slice(0, -count).join() && grown.join() === [...before,
      ...was.slice(-count)].join()
      && moves.entry(game, from, source + target, count)?.length === next - at;
  };
  const counted = /** @type {WeakMap<Line, {ends: number[], byHand: number[]}>} */ (new WeakMap());
  /** @param {Game} game @param {Line} it @param {number} at How many entries by a hand lead to a step, as the program
   * counts them: moves that together carry a sequence are one, and a card that goes home by itself is none. */
  const byHand = (game, it, at) => {
    const { moves: steps, boards: all } = it;
    const count = (/** @type {number[]} */ ends, /** @type {number} */ from) => {
      let told = 0;
      return ends.map((end, i) => {
        const first = i > 0 ? ends[i - 1] : from, isAlone = steps[first][1] === "h" && moves.goesHome(game, all[first],
          steps[first][0]);
        return told += isAlone ? 0 : 1;
      });
    };
    const known = counted.get(it) ?? { ends: entries(game, steps, all, 0, steps.length),
      byHand: /** @type {number[]} */ ([]) };
    if (!counted.has(it)) counted.set(it, { ...known, byHand: count(known.ends, 0) });
    const { ends, byHand: told } = /** @type {{ends: number[], byHand: number[]}} */ (counted.get(it)),
      last = ends.filter(end => end <= at).length;
    const from = last > 0 ? ends[last - 1] : 0, rest = count(entries(game, steps, all, from, at), from);
    return (told[last - 1] ?? 0) + (rest.at(-1) ?? 0);
  };
  /** @param {string} text What stands in a list or an answer: its entries, each with its line. */
  const written = text => {
    const given = text.split("\n"), isWords = given.some(it => IN_WORDS.test(it));
    const said = isWords ? given.map(it => (it.match(IN_WORDS) ?? []).slice(1).join("").replace("home", "h"))
      : text.replace(BESIDE, "").split("\n");
    return said.flatMap((it, line) => (it.match(/[^\s,]+/g) ?? []).flatMap(word => PACKED.test(word) ? word.match(/../g)
      ?? [] : word)
      .map(entry => ({ entry: entry.toLowerCase(), line: line + 1 })));
  };
  /** @param {string} text @returns {Claim | null} What an answer claims. */
  const claimed = text => {
    const told = text.match(CLAIM), floor = told?.[2] ?? told?.[4];
    return told && { answer: told[1] ?? told[3] ?? told[5], floor: floor ? Number(floor) : null };
  };
  /** @param {Game} game @param {Board} start @param {string} text A list, or an answer of the program: letters, packed
   * or not, entries of several cards, or words. What it claims, the moves up to the first that isn't allowed, and why
   * that isn't. */
  const read = (game, start, text) => {
    const steps = /** @type {string[]} */ ([]), ends = /** @type {number[]} */ ([]), all = [start];
    let fault = "";
    for (const [number, { entry, line }] of written(text).entries()) {
      const now = all[all.length - 1], parts = entry.match(/^([1-8a-d][1-8a-dh])(?:v([1-9a-f]))?$/), move = parts?.[1]
        ?? "";
      const several = parts && moves.entry(game, now, move, parts[2] ? parseInt(parts[2], 16) : moves.meant(now, move));
      if (!several) {
        const why = parts ? texts.list.refused(moves.why(game, now, move) || texts.why.many,
          cardNamed(moves.top(now, move[0]))) : texts.list.noMove;
        fault = texts.list.fault(number + 1, line, board.escaped(entry), parts !== null, why);
        break;
      }
      all.push(...boards(now, several).slice(1));
      ends.push(steps.push(...several));
    }
    const isOneByOne = ends.length === steps.length;
    return { claim: claimed(text), line: isOneByOne ? line(game, start, steps) : { moves: steps, ends, boards: all },
      fault };
  };
  /** @param {Game} game @param {Board} start @param {string[]} steps Whether the rules allow these moves, and they
   * win. */
  const wins = (game, start, steps) => {
    let now = start;
    for (const move of steps) {
      if (moves.why(game, now, move) !== "") return false;
      now = moves.after(now, move);
    }
    return board.isWon(now);
  };
  const cardNamed = (/** @type {number | null} */ card) => card === null ? null : cards.name(card);
  const place = (/** @type {string} */ at) => at === "h" ? texts.place.home : (moves.isColumn(at) ? texts.place.column
    : texts.place.cell)(at);
  /** @param {Board} it @param {string} move @param {(card: number) => string} name What a move does, on the board
   * before it. */
  const words = (it, move, name) => {
    const [from, to] = move, card = /** @type {number} */ (moves.top(it, from)), under = moves.top(it, to);
    const where = to === "h" ? texts.place.goesHome : !moves.isColumn(to) ? texts.place.goes(place(to))
      : under === null ? texts.place.goesEmpty(place(to)) : texts.place.goesOn(name(under), place(to));
    return texts.place.move(name(card), place(from), where);
  };
  return { line, extended, byHand, read, wins, words, place };
})();
