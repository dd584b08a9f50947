// @ts-check
"use strict";
/**
 * @typedef {{deal: number, answer: string, moves: number | null, floor: number | null, gap: number | null, budget:
 * string,
 *   bytes: string, digest: string, list: string}} Row
 * @typedef {Record<string, string>} Filter
 */
/** The gallery's rows: called by each file of deals/ with the number of its first deal, and the text of its rows. */
const rows = (() => {
  const read = /** @type {Map<number, Map<number, Row>>} */ (new Map()), asked = /** @type {Set<number>} */ (new Set());
  const number = (/** @type {string} */ text) => text === "" ? null : Number(text);
  let all = /** @type {Row[]} */ ([]), files = /** @type {number[]} */ ([]), size = 0, isWhole = false;
  let fewest = /** @type {[number, number][]} */ ([]), told = () => {};
  const fileOf = (/** @type {number} */ deal) => size > 0 ? 1 + size * Math.floor((deal - 1) / size) : 0;
  /** @param {number} first The file whose first deal this is, asked for once. */
  const ask = first => {
    if (!files.includes(first) || asked.has(first)) return;
    asked.add(first);
    document.head.append(Object.assign(document.createElement("script"), { src: `deals/${first}.js`, onerror: () =>
      take(first, "") }));
  };
  /** @param {number} first @param {string} text */
  const take = (first, text) => {
    const its = new Map();
    for (const line of text.split("\n")) {
      if (line === "") continue;
      const [deal, answer, count, least, budget, , bytes, digest, list] = line.split("\t"), moves = number(count),
        floor = number(least);
      const gap = moves === null || floor === null ? null : moves - floor;
      its.set(Number(deal), { deal: Number(deal), answer, moves, floor, gap, budget, bytes, digest, list });
    }
    read.set(first, its);
    isWhole = read.size === files.length;
    if (isWhole) all = [...files].sort((a, b) => a - b).flatMap(it => [...read.get(it)?.values() ?? []]);
    told();
  };
  /** @param {{count: number, size: number, fewest: Record<string, number>}} given How many deals have rows, and how
   * many of them stand in a file, and how many have so many moves: called by deals/all.js. */
  const begin = given => {
    size = given.size;
    files = Array.from({ length: Math.ceil(given.count / size) }, (_, i) => 1 + i * size);
    fewest = Object.entries(given.fewest).map(([moves, count]) => [Number(moves), count]);
  };
  const of = (/** @type {number | null} */ deal) => deal === null ? undefined : read.get(fileOf(deal))?.get(deal);
  const askOf = (/** @type {number | null} */ deal) => { if (deal !== null) ask(fileOf(deal)); };
  const askAll = () => { for (const it of files) ask(it); };
  /** @param {number | null} deal Whether the deal's row may come yet. */
  const isAwaited = deal => deal !== null && files.includes(fileOf(deal)) && !read.has(fileOf(deal));
  /** @param {number} moves The share of deals, of those whose fewest moves are shown, that are won in fewer: 0 to 1. */
  const easier = moves => {
    const sum = (/** @type {[number, number][]} */ of) => of.reduce((sum, it) => sum + it[1], 0);
    return sum(fewest.filter(it => it[0] < moves)) / Math.max(1, sum(fewest));
  };
  const FIELDS = /** @type {["deal", "moves", "gap"]} */ (["deal", "moves", "gap"]);
  const passes = (/** @type {Filter} */ filter, /** @type {Row} */ it) => (filter.answer === ""
    || it.answer === filter.answer)
    && FIELDS.every(name => {
      const [from, to, value] = [filter["from " + name], filter["to " + name], it[name]];
      return (from === "" || value !== null && value >= Number(from)) && (to === "" || value !== null
        && value <= Number(to));
    });
  /** @param {Filter} filter @param {string} by @param {boolean} isFalling The rows that pass, in order; those without a
   * number come last. */
  const chosen = (filter, by, isFalling) => {
    const value = (/** @type {any} */ it) => it[by] ?? (isFalling ? -1 : Infinity), sign = isFalling ? -1 : 1;
    return all.filter(it => passes(filter, it)).sort((a, b) => (value(a) < value(b) ? -sign : value(a) > value(b) ? sign
      : 0) || a.deal - b.deal);
  };
  /** @param {Row[]} chosen Rows as a table of tabs and lines, with their heads. */
  const tsv = chosen => ["deal\tanswer\tmoves\tfloor\tbudget\tlist", ...chosen.map(it =>
    [it.deal, it.answer, it.moves ?? "", it.floor ?? "", it.budget, it.list].join("\t"))].join("\n") + "\n";
  return Object.assign(take, { begin, of, askOf, askAll, isAwaited, easier, passes, chosen, tsv, all: () => all,
    isWhole: () => isWhole, tell: (/** @type {() => void} */ it) => { told = it; } });
})();
