// @ts-check
"use strict";
/**
 * @typedef {{filter: Filter, by: string, isFalling: boolean, page: number}} View what of the gallery is shown
 * @typedef {{deal: number | null, text: string, game: Game, list: string | null, own: string | null, step: number |
 * null, at: number | null,
 *   answer: string | null, floor: number | null, view: View | null, faults: string[], isRefused: boolean}} Asked what a
 * link asks for
 */
/** The page's links: what is shown, as the part of an address behind its `#`. */
const link = (() => {
  const RANGES = [["deals", "deal"], ["moves", "moves"], ["gap", "gap"]], ANSWERS = ["shortest", "won", "can't be won",
    "gave up"];
  const NO_FILTER = /** @type {Filter} */ ({ answer: "", "from deal": "", "to deal": "", "from moves": "",
    "to moves": "", "from gap": "", "to gap": "" });
  const NO_VIEW = /** @type {View} */ ({ filter: NO_FILTER, by: "deal", isFalling: false, page: 0 });
  const isUsual = (/** @type {Game} */ it) => it.cells === 4 && !it.isBakers && !it.isKings;
  /** @param {Game} game @param {number | null} deal @param {Board} start The part of a link that tells a board. */
  const base = (game, deal, start) => [deal === null ? `board=${encodeURIComponent(board.print(start, game))}`
    : `deal=${deal}`,
    game.isBakers && "game=bakers", game.isKings && "kings=1", game.cells < 4 && `cells=${game.cells}`].filter(it => it)
      .join("&");
  /** @param {Line} line Moves as a link has them, a dot behind each entry of a player. */
  const entries = ({ moves, ends }) => {
    const parts = [0, ...ends].map((from, i) => moves.slice(from, ends[i] ?? moves.length).join(""));
    return parts.filter(it => it !== "").join(".");
  };
  /** @param {Game} game @param {Board} start @param {string} text A player's line, up to the first move that isn't
   * allowed. @returns {Line} */
  const played = (game, start, text) => {
    const told = list.read(game, start, text.replace(/\./g, "").match(/../g)?.join(" ") ?? "").line,
      ends = /** @type {number[]} */ ([]);
    for (const entry of text.split(".")) ends.push((ends.at(-1) ?? 0) + entry.length / 2);
    return { ...told, ends: ends.filter((end, i) => Number.isInteger(end) && end <= told.moves.length
      && end > (ends[i - 1] ?? 0)) };
  };
  /** @param {View} it @returns {(string | false)[]} */
  const viewed = ({ filter, by, isFalling, page }) => [
    ...RANGES.map(([name, field]) => (filter[`from ${field}`] || filter[`to ${field}`]) !== ""
      && `${name}=${filter[`from ${field}`]}-${filter[`to ${field}`]}`),
    filter.answer !== "" && `only=${encodeURIComponent(filter.answer)}`, (by !== "deal" || isFalling)
      && `sort=${isFalling ? "-" : ""}${by}`, page > 0 && `page=${page + 1}`];
  /** @param {State} it A link to all that is shown. */
  const fragment = it => {
    const { game, claim, solution, own } = it, isRow = store.isOfRow(it), isTold = !isRow && !it.hasRow && claim;
    return "#" + [base(game, it.deal, it.start), !isRow && solution && `list=${solution.line.moves.join("")}`,
      isTold && /^[cg]/.test(claim.answer) && `answer=${encodeURIComponent(claim.answer)}`,
        isTold && claim.floor !== null && `floor=${claim.floor}`,
      own.line.moves.length > 0 && `own=${entries(own.line)}`, own.at < own.line.moves.length && `at=${own.at}`,
      it.isWatching && solution && `step=${solution.at}`, ...viewed(it.view)].filter(it => it).join("&");
  };
  /** @param {string} hash @returns {Asked} */
  const read = hash => {
    const asked = new URLSearchParams(hash.replace(/^#/, "")), faults = /** @type {string[]} */ ([]),
      text = asked.get("board");
    const numbered = (/** @type {string} */ name) => {
      const told = asked.get(name), isNumber = /^\d{1,9}$/.test(told ?? "");
      if (told !== null && !isNumber) faults.push(texts.link.noNumber(name, cut(told)));
      return isNumber ? Number(told) : null;
    };
    const told = asked.get("deal") ?? "617", number = text === null ? deal.read(told) : null, isRefused = text === null
      && number === null;
    if (isRefused) faults.push(/^-?\d+$/.test(told) ? texts.link.deal(cut(told)) : texts.link.noDeal(cut(told)));
    const game = { cells: /^[0-3]$/.test(asked.get("cells") ?? "") ? Number(asked.get("cells")) : 4,
      isBakers: asked.get("game") === "bakers", isKings: asked.has("kings") };
    return { deal: number, text: text ?? "", game, list: asked.get("list"), own: asked.get("own"),
      step: numbered("step"), at: numbered("at"),
      answer: asked.get("answer"), floor: numbered("floor"), view: viewOf(asked), faults, isRefused };
  };
  /** @param {URLSearchParams} asked @returns {View | null} What of the gallery a link asks for, if anything. */
  const viewOf = asked => {
    if (!["deals", "moves", "gap", "only", "sort", "page"].some(it => asked.has(it))) return null;
    const filter = { ...NO_FILTER }, sort = asked.get("sort") ?? "deal", page = Number(asked.get("page") ?? 1),
      only = asked.get("only") ?? "";
    for (const [name, field] of RANGES) {
      const told = (asked.get(name) ?? "").match(/^(\d{0,7})-(\d{0,7})$/);
      if (told) [filter[`from ${field}`], filter[`to ${field}`]] = [told[1], told[2]];
    }
    if (ANSWERS.includes(only)) filter.answer = only;
    return { filter, by: /^-?(deal|answer|moves|floor|gap|budget)$/.test(sort) ? sort.replace("-", "") : "deal",
      isFalling: sort.startsWith("-"),
      page: Number.isInteger(page) && page > 1 ? page - 1 : 0 };
  };
  /** @param {Asked} asked @param {Line | null} solution @returns {Claim | null} What a link claims of a board, as far
   * as its list leaves it open. */
  const claimed = ({ answer, floor, faults }, solution) => {
    const isWon = solution !== null && board.isWon(solution.boards[solution.moves.length]), isNone = answer !== null
      && !ANSWERS.includes(answer);
    const isFalse = isWon && answer !== null && /^[cg]/.test(answer), isHigh = isWon && floor !== null
      && floor > solution.moves.length;
    if (isNone || isFalse) faults.push(isNone ? texts.link.none(cut(answer)) : texts.link.refuted(answer));
    if (isHigh) faults.push(texts.link.high(floor));
    const claim = { answer: answer === null || isNone || isFalse ? "won" : answer, floor: isHigh ? null : floor };
    return claim.floor === null && claim.answer === "won" ? null : claim;
  };
  /** What is told of a text of any length. */
  const cut = (/** @type {string} */ text) => text.length > 40 ? `${text.slice(0, 40)}…` : text;
  return { NO_FILTER, NO_VIEW, isUsual, base, entries, played, fragment, read, claimed, cut };
})();
