// @ts-check
"use strict";
/**
 * @typedef {{line: Line, at: number}} Played a line of moves, and the step that is shown of it
 * @typedef {{from: string, count: number}} Taken
 * @typedef {{game: Game, deal: number | null, start: Board, claim: Claim | null, hasRow: boolean, listFault: string,
 *   own: Played, solution: Played | null, earlier: Played | null, isWatching: boolean, asked: number | null,
 *   taken: Taken | null, typed: string, said: string, hint: string, isPlaying: boolean, speed: number, isWinShown:
 * boolean,
 *   view: View, switches: Record<string, boolean>, news: number}} State
 */
/** The one state there is, and what may be done to it. */
const store = (() => {
  const game = { cells: 4, isBakers: false, isKings: false }, start = deal.dealt(617),
    none = { line: list.line(game, start, []), at: 0 };
  let state = /** @type {State} */ ({ game, deal: 617, start, claim: null, hasRow: false, listFault: "", own: none,
    solution: null,
    earlier: null, isWatching: false, asked: null, taken: null, typed: "", said: "", hint: "", isPlaying: false,
      speed: 2, isWinShown: false,
    view: link.NO_VIEW, switches: saved.switches(), news: 0 });
  let opened = "", writer = 0, clock = 0, begunOwn = none, draw = (/** @type {State} */ _now,
    /** @type {State} */ _before) => {};
  /** @param {State} it @returns {Played} The line that is at the table. */
  const shown = it => it.isWatching && it.solution ? it.solution : it.own;
  const present = (/** @type {State} */ it) => shown(it).line.boards[shown(it).at];
  const isWatching = (/** @type {State} */ it) => it.isWatching && it.solution !== null;
  /** @param {State} it Whether the solution is that of the deal's row. */
  const isOfRow = it => link.isUsual(it.game) && it.solution !== null
    && it.solution.line.moves.join("") === rows.of(it.deal)?.list;
  const rowOf = (/** @type {State} */ it) => link.isUsual(it.game) ? rows.of(it.deal) : undefined;
  /** @param {State} it @returns {State} With what the deal's row says, where that came in the meantime. */
  const withRow = it => {
    const row = rowOf(it);
    if (!row || it.hasRow) return it;
    const steps = row.list.match(/../g) ?? [], isOwn = it.solution === null && list.wins(it.game, it.start, steps);
    const solution = isOwn ? { line: list.line(it.game, it.start, steps), at: Math.min(it.asked ?? 0, steps.length) }
      : it.solution;
    const answer = row.answer === "gave up" && solution ? "won" : row.answer;
    return { ...it, hasRow: true, claim: { answer, floor: row.floor, budget: row.budget }, solution,
      isWatching: it.isWatching || it.asked !== null && solution !== null, asked: null };
  };
  /** Writes the link of what is shown, unless another one was followed just now. */
  const write = () => {
    clearTimeout(writer);
    if (location.hash !== opened || state.asked !== null && rows.isAwaited(state.deal)) return;
    history.replaceState(null, "", link.fragment(state));
    opened = location.hash;
    if (state.own !== begunOwn) saved.keep(state);
  };
  /** @param {(state: State) => State} change */
  const set = change => {
    const before = state, at = shown(before);
    state = withRow(change(before));
    draw(state, before);
    clearTimeout(clock);
    if (state.isPlaying) clock = window.setTimeout(() => set(it => to(it, shown(it).at + 1, true)), 1000 / state.speed);
    const isMoved = shown(state) !== at || state.own !== before.own || state.isWatching !== before.isWatching
      || state.view !== before.view;
    if (isMoved) clearTimeout(writer), writer = window.setTimeout(write, 200);
  };
  /** @param {State} it @param {Played} played @returns {State} With another line, or step, at the table. */
  const withShown = (it, played) => isWatching(it) ? { ...it, solution: played } : { ...it, own: played };
  /** @param {State} it @param {number} at @param {boolean} [isPlaying] @returns {State} At a step, with the move that
   * led there told. */
  const to = (it, at, isPlaying = false) => {
    const { line, at: before } = shown(it), step = Math.max(0, Math.min(line.moves.length, at)),
      isWon = board.isWon(line.boards[step]);
    const move = step > 0 ? list.words(line.boards[step - 1], line.moves[step - 1], cards.words) : "";
    const said = step === before ? it.said : step === 0 ? texts.hands.begin : `${move}.${isWon ? texts.hands.won : ""}`;
    return { ...withShown(it, { line, at: step }), isPlaying: isPlaying && step < line.moves.length, taken: null,
      typed: "", hint: "", said, isWinShown: false };
  };
  /** @param {State} it @param {string} move @param {number} count @returns {State} An entry by a hand, with the cards
   * that go home then by themselves. Where it isn't what comes next in the list that is watched, it begins a game of
   * one's own there. */
  const play = (it, move, count) => {
    const now = present(it), entry = moves.entry(it.game, now, move, count), card = moves.top(now, move[0]);
    const would = texts.hands.wouldMove(move, card === null ? "" : cards.words(card));
    const why = `${would}${moves.why(it.game, now, move) || texts.why.many}.`;
    if (entry === null) return { ...it, taken: null, typed: "", hint: "", isPlaying: false, said: why };
    const { line, at } = shown(it), isNext = isWatching(it) && line.moves.slice(at, at + entry.length)
      .join() === entry.join();
    const told = isNext ? to(it, at + entry.length) : append(it, entry);
    return { ...told, said: `${count > 1 ? texts.hands.several(count) : ""}${told.said}` };
  };
  /** @param {State} it @param {string[]} entry @returns {State} The player's line up to here, and an entry. */
  const append = (it, entry) => {
    const { line, at } = shown(it), isHome = it.switches.home && board.isWon(line.boards[at]) === false;
    const after = list.line(it.game, line.boards[at], entry).boards.at(-1) ?? line.boards[at];
    const steps = [...entry, ...isHome ? moves.settled(it.game, after) : []], end = at + steps.length,
      last = at + entry.length;
    const isSame = !isWatching(it) && line.moves.slice(at, end).join() === steps.join() && line.ends.includes(end);
    const own = { line: isSame ? line : list.extended(it.game, line, at, steps), at: end };
    const isKept = isWatching(it) && !isFrontOf(it.own.line, own.line);
    const said = list.words(own.line.boards[last - 1], own.line.moves[last - 1], cards.words),
      sent = steps.slice(entry.length);
    const also = sent.map((move, i) => cards.words(Number(moves.top(own.line.boards[last + i], move[0])))).join(", ");
    const isWon = board.isWon(own.line.boards[end]),
      told = `${said}.${also && ` ${also} ${texts.hands.went}.`}${isWon ? texts.hands.won : ""}`;
    if (isWon) saved.won(it, end);
    return { ...it, own, earlier: isKept ? it.own : it.earlier, isWatching: false, isPlaying: false, taken: null,
      typed: "", hint: "", said: told, isWinShown: isWon };
  };
  /** @param {State} it @param {boolean} isBack To the end of the entry before, or behind. */
  const undo = (it, isBack) => {
    const { line, at } = shown(it);
    return to(it, isBack ? line.ends.filter(end => end < at).at(-1) ?? 0 : line.ends.find(end => end > at) ?? at);
  };
  const watch = (/** @type {State} */ it) => it.solution ? { ...it, isWatching: true, taken: null, typed: "", hint: "",
    isPlaying: false, isWinShown: false } : it;
  const resume = (/** @type {State} */ it) => ({ ...it, isWatching: false, taken: null, typed: "", hint: "",
    isPlaying: false });
  const swap = (/** @type {State} */ it) => it.earlier ? { ...resume(it), own: it.earlier, earlier: it.own } : it;
  /** @param {State} it @param {string[]} steps @returns {State} Plays on from here by these moves, one after the
   * other. */
  const playOut = (it, steps) => {
    if (steps.length === 0) return it;
    // (one's own game stays as it is)
    if (isWatching(it)) return { ...it, taken: null, typed: "", hint: "", isPlaying: true };
    const { line, at } = shown(it), rest = list.line(it.game, line.boards[at], steps),
      ends = [...line.ends.filter(end => end < at), ...at > 0 ? [at] : []];
    const own = { line: { moves: [...line.moves.slice(0, at), ...steps], boards: [...line.boards.slice(0, at),
      ...rest.boards], ends: [...ends, ...rest.ends.map(end => end + at)] }, at };
    return { ...it, own, isWatching: false, taken: null, typed: "", hint: "", isPlaying: true };
  };
  const allHome = (/** @type {State} */ it) => {
    const steps = moves.allHome(it.game, present(it));
    return steps?.length ? append(it, steps) : it;
  };
  /** @param {string} hash Shows what a link tells; a faulty board is told where it can be mended. What the page's own
   * row says of a deal stands above what a link claims of it. */
  const open = hash => {
    const asked = link.read(hash), begun = asked.deal !== null ? deal.dealt(asked.deal) : board.read(asked.text,
      asked.game);
    opened = hash;
    const isBoth = asked.deal === null && board.readOther(asked.text, asked.game, false) !== null;
    if (asked.isRefused || board.isFault(begun) || isBoth) {
      rows.askOf(state.deal);
      fault(asked.faults);
      set(it => ({ ...it, news: it.news + 1 }));
      if (!asked.isRefused) hands.paste(asked.text, asked.list ?? "", asked.game);
      return;
    }
    const base = link.base(asked.game, asked.deal, begun), read = list.read(asked.game, begun, asked.list ?? ""),
      last = read.line.boards.at(-1) ?? begun;
    const isSolution = read.line.moves.length > 0 && board.isWon(last), solution = isSolution
      ? { line: read.line, at: Math.min(asked.step ?? 0, read.line.moves.length) } : null;
    const claim = link.claimed(asked, solution?.line ?? null) ?? read.claim, kept = keptOf(asked.game, begun, base),
      told = linked(asked, begun, isSolution ? null : read.line);
    const own = told ?? kept ?? { line: list.line(asked.game, begun, []), at: 0 }, isOther = told !== null
      && kept !== null && !isFrontOf(kept.line, told.line);
    fault(asked.faults);
    rows.askOf(asked.deal);
    saved.time(saved.of(base)?.seconds ?? 0);
    begunOwn = own;
    set(it => ({ ...it, game: asked.game, deal: asked.deal, start: begun, claim, hasRow: false, listFault: read.fault,
      own, solution,
      earlier: isOther ? kept : null, isWatching: isSolution && (asked.own === null || asked.step !== null),
        asked: asked.list === null ? asked.step : null,
      taken: null, typed: "", said: "", hint: "", isPlaying: false, isWinShown: false, view: asked.view ?? it.view }));
  };
  /** @param {Game} game @param {Board} start @param {string} base @returns {Played | null} The game of a board that was
   * kept. */
  const keptOf = (game, start, base) => {
    const kept = saved.of(base), line = kept && link.played(game, start, kept.own);
    return kept && line ? { line, at: Math.min(kept.at, line.moves.length) } : null;
  };
  /** @param {Asked} asked @param {Board} start @param {Line | null} line what its list is, where that wins nothing
   * @returns {Played | null} */
  const linked = ({ game, own, list, at, step }, start, line) => {
    if (own === null) return list !== null && line ? { line, at: Math.min(step ?? 0, line.moves.length) } : null;
    const played = link.played(game, start, own);
    return { line: played, at: Math.min(at ?? played.moves.length, played.moves.length) };
  };
  const isFrontOf = (/** @type {Line} */ front, /** @type {Line} */ line) => front.moves.every((move, i) =>
    move === line.moves[i]);
  const fault = (/** @type {string[]} */ faults) => {
    document.getElementById("deal-fault")?.replaceChildren(faults.join("; ")); };
  /** @param {string} hash Goes to another link, when what is shown now is written in its own. */
  const go = hash => {
    write();
    location.hash = hash;
  };
  return { set, to, play, undo, watch, resume, swap, playOut, allHome, open, go, shown, present, isWatching,
    isOfRow, rowOf, now: () => state, write,
    drawn: (/** @type {typeof draw} */ it) => { draw = it; } };
})();
