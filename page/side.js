// @ts-check
"use strict";
/** What is known of the board, both lists, and what stands under the table. */
const side = (() => {
  const { byId, make, fill, say } = dom, A_PART = 400;
  /** @param {State} state What the deal is called. */
  const nameOf = ({ deal, game }) => (deal === null ? texts.known.board : texts.known.deal(deal)) + (game.isBakers
    ? texts.known.bakers : "")
    + (game.isKings ? texts.known.kings : "") + (game.cells < 4 ? texts.known.cells(game.cells) : "");
  /** @param {State} state */
  const sentence = state => {
    const { claim, solution, own, deal } = state, name = nameOf(state), line = (solution ?? own).line,
      count = line.moves.length;
    const isWon = board.isWon(line.boards[count]), floor = claim?.floor ?? null, by = claim?.budget
      ? texts.known.within(claim.budget) : texts.known.says;
    if (link.isUsual(state.game) && rows.isAwaited(deal) && !solution) return texts.known.looking(name);
    if (claim?.answer === "can't be won") return texts.known.lost(name, by);
    if (claim?.answer === "gave up") return texts.known.gaveUp(name, floor, by);
    if (solution === null && state.listFault === "") return board.isWon(state.start) ? texts.known.isWon(name)
      : texts.known.none(name);
    if (solution === null) return texts.known.list(name, isWon, count) + ".";
    return texts.known.list(name, isWon, count) + (floor === null ? "." : texts.known.floor(floor, floor === count,
      by));
  };
  /** @param {State} state @param {Row | undefined} row */
  const commands = ({ deal, game, start }, row) => {
    const words = `${game.isBakers ? "--game bakers " : ""}${game.isKings ? "--kings " : ""}`
      + (game.cells < 4 ? `--cells ${game.cells} ` : ""), name = deal ?? "board.txt";
    const certified = row?.answer === "gave up" ? "" : `--cert ${name}.cert `;
    const best = `./fc_solve best --budget ${row ? `${row.budget} ${certified}` : `max ${words}`}${name}`;
    const check = row && row.answer !== "gave up" ? `\n./fc_solve check ${name} ${name}.cert` : "";
    return `${deal === null ? `cat >board.txt <<END\n${board.print(start, game)}END\n` : ""}${best}${check}`;
  };
  /** @param {State} state */
  const told = state => {
    const row = state.hasRow ? store.rowOf(state) : undefined, share = row?.answer === "shortest" && row.moves
      ? Math.floor(100 * rows.easier(row.moves)) : 0;
    const fault = state.listFault ? [make("pre", { class: "fault", role: "alert" }, state.listFault)] : [],
      how = make("pre", { tabindex: "0" }, commands(state, row));
    const first = row?.answer === "gave up" ? texts.known.again : texts.known.first(row?.bytes ? Number(row.bytes)
      .toLocaleString("en") : "");
    return [make("p", { class: "sentence" }, sentence(state)), ...share > 0
      ? [make("p", { class: "soft harder" }, texts.known.harder(share))] : [], ...fault,
      make("details", {}, make("summary", {}, texts.known.how), make("p", {}, row ? first : texts.known.command), how,
        ...row?.digest ? [make("p", { class: "soft digest" }, texts.known.digest, make("code", {}, row.digest))] : [])];
  };
  /** @param {State} state @param {Word | null} word What is known from here on, in words. */
  const wordOf = (state, word) => {
    const { line, at } = store.shown(state), dot = known.isThinking() ? ` ${texts.word.thinking}` : "", is = texts.word;
    if (board.isWon(store.present(state))) return is.is;
    if (word?.kind === "lost") return is.here + is.lost + lostBy(state, line, at);
    if (word === null || word.list === null && word.budget === "")
      return is.here + (known.hasFailed(state.game, line.boards[at]) ? is.none : is.thinking);
    const budget = Number(word.budget) > 0 ? texts.number(Number(word.budget)) : word.budget;
    if (word.list === null) return is.here + is.open(budget) + (dot && `;${dot}`);
    return is.here + (word.kind === "shortest" ? is.shortest(word.list.length) : is.won(word.list.length, word.floor))
      + (dot && `;${dot}`);
  };
  /** @param {State} state @param {Line} line @param {number} at Which move of the line lost, as far as that is
   * known. */
  const lostBy = (state, line, at) => {
    const move = lostAt(state);
    if (move > 0) return `: ${texts.word.since(move, line.moves[move - 1])}.`;
    return at > 0 && known.isThinking() ? `; ${texts.word.thinking}` : ".";
  };
  /** @param {State} state The number of the move that lost, or 0. */
  const lostAt = state => {
    const { line, at } = store.shown(state), found = known.losingMove(line, at);
    return found || Number(known.reviewOf(state.game, line, at).match(/^move (\d+),/)?.[1] ?? 0);
  };
  /** @param {State} state */
  const drawKnown = state => {
    const row = store.rowOf(state), { line, at } = store.shown(state), word = known.of(state.game, line, at, row);
    fill("known", [state.deal, state.start, state.game, state.claim, state.solution?.line, state.listFault, row,
      rows.isAwaited(state.deal), state.solution ? null : state.own.line], () => told(state));
    const isUnknown = word === null || word.list === null && word.kind !== "lost";
    const isLost = word?.kind === "lost", review = isLost ? known.reviewOf(state.game, line, at) : "";
    say("word", engine.why() && isUnknown ? engine.why() : wordOf(state, word));
    byId("word").dataset.kind = word?.kind ?? "open";
    say("review", review.split("\n")[0]);
    byId("to-before").hidden = !isLost || lostAt(state) === 0;
    const isOver = board.isWon(store.present(state)), hasList = (word?.list?.length ?? 0) > 0 && !isOver;
    for (const id of ["hint", "finish"]) byId(id).disabled = !hasList;
    byId("all-home").hidden = isOver || (moves.allHome(state.game, store.present(state))?.length ?? 0) === 0;
  };
  const entry = (/** @type {Line} */ line, /** @type {number} */ i) =>
    make("li", {}, make("button", { type: "button", "data-at": i + 1, tabindex: "-1" },
    make("span", {}, String(i + 1)), make("code", {}, line.moves[i]),
      make("span", {}, list.words(line.boards[i], line.moves[i], cards.shown))));
  let drawn = { line: /** @type {Line | null} */ (null), from: 0, base: "" };
  /** @param {State} state The moves of the line at the table: of a long one a part around the present step. What stays
   * is kept. */
  const drawList = state => {
    const box = byId("list"), { line, at } = store.shown(state),
      from = A_PART * Math.floor(Math.max(0, at - 1) / A_PART), to = Math.min(line.moves.length, from + A_PART);
    const base = `${link.base(state.game, state.deal, state.start)}${store.isWatching(state)}`;
    if (drawn.line !== line || drawn.from !== from || drawn.base !== base) {
      const old = drawn.from === from && drawn.base === base ? drawn.line : null, items = [...box.children];
      let same = 0;
      while (old && same < Math.min(items.length, to - from) && old.boards[from + same + 1] === line.boards[from + same
        + 1]) same++;
      box.replaceChildren(...items.slice(0, same), ...Array.from({ length: to - from - same }, (_, i) =>
        entry(line, from + same + i)));
      drawn = { line, from, base };
    }
    say("part", from > 0 || to < line.moves.length ? texts.lines.more(from + 1, to) : "");
    follow(box, at);
  };
  /** @param {any} box @param {number} at Marks the present move, and has it in sight. */
  const follow = (box, at) => {
    const old = box.querySelector("[aria-current]"), now = box.querySelector(`[data-at="${at}"]`),
      top = now?.parentElement.offsetTop ?? 0;
    if (old !== now) [old?.removeAttribute("aria-current"), old?.setAttribute("tabindex", "-1"),
      now?.setAttribute("aria-current", "step"), now?.setAttribute("tabindex", "0")];
    if (old !== now && (top < box.scrollTop || top + 30 > box.scrollTop + box.clientHeight)) box.scrollTop =
      top - box.clientHeight / 2;
  };
  /** @param {State} state The step, both counts, and which line is at the table. */
  const drawControls = state => {
    const { line, at } = store.shown(state), count = line.moves.length, isWatching = store.isWatching(state),
      isWon = board.isWon(store.present(state));
    Object.assign(byId("slider"), { max: count, value: at });
    byId("slider").setAttribute("aria-valuetext", texts.hands.step(at, count));
    for (const id of ["first", "back", "undo", "step", "last", "run", "redo"]) byId(id).disabled =
      at === (["first", "back", "undo"].includes(id) ? 0 : count);
    say("count", texts.hands.step(at, count));
    say("run", state.isPlaying ? texts.hands.pause : texts.hands.play);
    say("live", `${state.said} ${state.typed && state.typed + "…"}`.trim());
    say("hands", texts.hands.counts(!isWatching && at > 0, at, list.byHand(state.game, line, at)) + (isWon
      ? `: ${texts.word.over}` : ""));
    say("own-line", texts.lines.own(state.own.line.moves.length));
    say("its-line", isWatching || state.isWatching ? texts.lines.its(state.solution?.line.moves.length ?? 0)
      : texts.lines.show);
    byId("own-line").setAttribute("aria-pressed", String(!isWatching));
    byId("its-line").setAttribute("aria-pressed", String(isWatching));
    byId("its-line").disabled = state.solution === null;
    byId("earlier").hidden = state.earlier === null;
    say("earlier", texts.lines.earlier(state.earlier?.line.moves.length ?? 0));
    if (dom.isOther("deal", [state.deal, state.news])) byId("deal").value = String(state.deal ?? "");
    document.title = texts.link.title(nameOf(state));
  };
  /** @param {State} state What is said over the table when a game is won. */
  const drawWin = state => {
    byId("win").hidden = !state.isWinShown;
    if (!state.isWinShown || !dom.isOther("win", [state.own])) return;
    const { line, at } = state.own, { claim } = state, best = saved.best(state) ?? at, floor = claim?.floor ?? null;
    const fewest = state.solution && claim?.floor === state.solution.line.moves.length
      ? state.solution.line.moves.length : null;
    const rank = fewest === null ? floor === null ? "" : texts.win.floor(floor) : at <= fewest ? texts.win.fewest
      : texts.win.above(at - fewest);
    byId("win-text").replaceChildren(...[texts.win.said(at, list.byHand(state.game, line, at)), rank, best < at
      ? texts.win.best(best) : "", texts.win.count(saved.wins())]
      .filter(it => it !== "").map(it => make("p", {}, it)));
    byId("win-next").focus({ preventScroll: true });
    table.cascade();
  };
  /** @param {State} state */
  const draw = state => {
    drawKnown(state);
    drawList(state);
    drawControls(state);
    drawWin(state);
  };
  return { draw, lostAt, nameOf };
})();
