// @ts-check
"use strict";
/**
 * @typedef {{kind: "shortest" | "won" | "lost" | "open", moves: number | null, floor: number, list: string[] | null,
 *   budget: string}} Word what is known of a board: a list of so many moves wins, or none; no list has fewer than the
 *   floor; within how many positions that was found, where it was asked
 */
/** What is known of the board at the table: by its deal's row, by the engine, and by what was known before a move. */
const known = (() => {
  const BUDGETS = [20000, 100000, 500000], REVIEWED = 500000, WAIT = 120;
  /** @typedef {{word: Word | null, asked: number}} Heard */
  const heard = /** @type {Map<string, Heard>} */ (new Map()),
    near = /** @type {WeakMap<Board, Heard>} */ (new WeakMap()),
    reviews = /** @type {Map<string, string>} */ (new Map());
  const names = /** @type {WeakMap<Board, string>} */ (new WeakMap());
  let wanted = "", clock = 0, told = () => {};
  /** @param {Game} game @param {Board} it The game and the board as a text. */
  const keyOf = (game, it) => {
    const name = names.get(it) ?? board.print(it, game);
    names.set(it, name);
    return `${game.isBakers ? "b" : ""}${game.isKings ? "k" : ""}${name}`;
  };
  /** @param {Game} game @param {Board} it What was heard of a board that was at the table, or is so now. */
  const heardOf = (game, it) => {
    const told = near.get(it) ?? (heard.size > 0 ? heard.get(keyOf(game, it)) : undefined);
    if (told) near.set(it, told);
    return told;
  };
  const kindOf = (/** @type {Word["list"]} */ list, /** @type {number} */ floor) => list === null ? "open"
    : list.length <= floor ? "shortest" : "won";
  /** @param {Word | null} a @param {Word | null} b @returns {Word | null} What both together tell. */
  const merged = (a, b) => {
    if (a?.kind === "lost" || b === null) return a;
    if (b.kind === "lost" || a === null) return b;
    const list = a.list && (!b.list || a.list.length <= b.list.length) ? a.list : b.list;
    const budget = Number(a.budget) > Number(b.budget) ? a.budget : b.budget || a.budget;
    const floor = Math.max(a.floor, b.floor);
    return { kind: kindOf(list, floor), moves: list && list.length, list, floor, budget };
  };
  /** @param {Word | null} it @param {string} move What a word tells behind a move. @returns {Word | null} */
  const behind = (it, move) => {
    if (it === null || it.kind === "lost") return it;
    const list = it.list?.[0] === move ? it.list.slice(1) : null, floor = Math.max(0, it.floor - 1);
    return { kind: kindOf(list, floor), list, moves: list && list.length, floor, budget: list ? it.budget : "" };
  };
  /** @param {Row | undefined} row @returns {Word | null} What a row tells of its deal. */
  const ofRow = row => {
    if (!row) return null;
    if (row.answer === "can't be won") return { kind: "lost", moves: null, floor: 0, list: null, budget: row.budget };
    const list = row.list === "" ? null : row.list.match(/../g), floor = row.floor ?? 0;
    return { kind: kindOf(list, floor), moves: list && list.length, list, floor, budget: row.budget };
  };
  /** @param {Answer} it @param {number} budget @returns {Word} */
  const ofAnswer = (it, budget) => {
    if (it.kind === "can't be won") return { kind: "lost", moves: null, floor: 0, list: null, budget: String(budget) };
    const list = it.list ?? null;
    return { kind: it.kind === "shortest" ? "shortest" : list ? "won" : "open", moves: list && list.length,
      floor: it.floor ?? 0, list, budget: String(budget) };
  };
  const WON = /** @type {Word} */ ({ kind: "shortest", moves: 0, floor: 0, list: [], budget: "" });
  /** @param {Game} game @param {Line} line @param {number} at @param {Row | undefined} row What is known of the board
   * at a step. */
  const of = (game, line, at, row) => {
    let word = ofRow(row);
    for (let i = 0; i <= at; i++) {
      if (i > 0) word = behind(word, line.moves[i - 1]);
      word = merged(word, (i === at ? heardOf(game, line.boards[i]) : near.get(line.boards[i]))?.word ?? null);
    }
    return board.isWon(line.boards[at]) ? WON : word;
  };
  /** @param {Line} line @param {number} at The number of the move that lost, where the words before it say so. */
  const losingMove = (line, at) => {
    const kind = (/** @type {number} */ i) => near.get(line.boards[i])?.word?.kind;
    const first = line.boards.findIndex((_, i) => i > 0 && i <= at && kind(i) === "lost");
    return first > 0 && ["won", "shortest"].includes(kind(first - 1) ?? "") ? first : 0;
  };
  /** @param {Game} game @param {Line} line @param {number} at Which move of a line lost, as the engine's review says:
   * of a front of it too. */
  const reviewOf = (game, line, at) => {
    const name = keyOf(game, line.boards[0]);
    for (let i = at; i > 0 && reviews.size > 0; i--) {
      const told = reviews.get(name + line.moves.slice(0, i).join(""));
      if (told !== undefined) return told;
    }
    return "";
  };
  /** @param {Game} game @param {Line} line @param {number} at @param {Row | undefined} row Asks for a better word of
   * the board at a step, as far as none is known that can't be bettered; what was asked of another board is stopped. */
  const ask = (game, line, at, row) => {
    const key = keyOf(game, line.boards[at]), word = of(game, line, at, row), way = line.moves.slice(0, at).join("");
    const isDone = word?.kind === "shortest", isLost = word?.kind === "lost",
      asked = heardOf(game, line.boards[at])?.asked ?? 0, budget = BUDGETS.find(it => it > asked);
    const isReviewed = isLost && (at === 0 || reviewOf(game, line, at) !== "");
    const next = isLost ? `${key}${way} lost` : `${key} ${budget}`;
    const isTold = at === 0 && row !== undefined || isDone || isReviewed || !isLost && budget === undefined;
    if (!engine.isThere() || isTold) return quiet();
    if (wanted === next) return;
    quiet();
    wanted = next;
    clock = window.setTimeout(() => isLost ? review(game, line, at) : think(game, key, line.boards[at], Number(budget)),
      asked > 0 || isLost ? 0 : WAIT);
  };
  const quiet = () => {
    clearTimeout(clock);
    wanted = "";
    engine.stop();
  };
  /** @param {Game} game @param {string} key @param {Board} it @param {number} budget */
  const think = async (game, key, it, budget) => {
    const answer = await engine.best(game, board.print(it, game), budget).catch(hush);
    if (typeof answer === "string") return;
    const isSound = answer !== null && (!answer.list || list.wins(game, it, answer.list));
    hear(key, it, isSound ? ofAnswer(answer, budget) : null, isSound ? budget : Infinity);
  };
  /** @param {string} key @param {Board} it @param {Word | null} word @param {number} asked A list is replayed by the
   * page's rules before it is shown. */
  const hear = (key, it, word, asked) => {
    const its = { word: merged(word, heard.get(key)?.word ?? null), asked };
    heard.set(key, its);
    near.set(it, its);
    wanted = "";
    told();
  };
  /** @param {Game} game @param {Line} line @param {number} at */
  const review = async (game, line, at) => {
    const answer = await engine.review(game, board.print(line.boards[0], game), line.moves.slice(0, at), REVIEWED)
      .catch(hush);
    if (typeof answer === "string") return;
    reviews.set(keyOf(game, line.boards[0]) + line.moves.slice(0, at).join(""), answer ? answer.text
      : texts.word.failed);
    wanted = "";
    told();
  };
  const STOPPED = "stopped";
  /** @param {Error} fault A call that was stopped has nothing to say; one that failed isn't asked again. */
  const hush = fault => fault.message === STOPPED ? STOPPED : null;
  const isThinking = () => wanted !== "";
  const hasFailed = (/** @type {Game} */ game, /** @type {Board} */ it) => heardOf(game, it)?.asked === Infinity;
  return { of, ask, quiet, losingMove, reviewOf, isThinking, hasFailed,
    tell: (/** @type {() => void} */ it) => { told = it; } };
})();
