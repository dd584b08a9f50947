// @ts-check
"use strict";
/** How many deals have how many moves, and gaps: bars that are filters. */
const plots = (() => {
  const HEIGHT = 190, LEFT = 62, BOTTOM = 38, TOP = 14, STEPS = [1, 2, 5, 10, 20, 50, 100, 200, 500, 1000, 2000, 5000,
    10000, 20000], ROOM = 26;
  const { make } = dom, FLOOR = HEIGHT - BOTTOM;
  const text = (/** @type {number} */ x, /** @type {number} */ y, /** @type {string} */ said, given = {}) =>
    make("svg:text", { x, y, "text-anchor": "middle", ...given }, said);
  const counted = (/** @type {(number | null)[]} */ values) => {
    const counts = /** @type {Map<number, number>} */ (new Map());
    for (const it of values) if (it !== null) counts.set(it, (counts.get(it) ?? 0) + 1);
    return counts;
  };
  /** The height of a bar: by the square root of its count, so that few are seen beside many. */
  const down = (/** @type {number} */ count, /** @type {number} */ most) =>
    FLOOR - (FLOOR - TOP) * Math.sqrt(count / most);
  /** @param {string} field @param {Filter} filter @param {number} width Of the fewest moves of shortest lists, or of
   * gaps. */
  const plot = (field, filter, width) => {
    const isGaps = field === "gap", given = rows.all().filter(it => isGaps || it.answer === "shortest"),
      value = (/** @type {Row} */ it) => isGaps ? it.gap : it.moves;
    const all = counted(given.map(value)), chosen = counted(given.filter(it => rows.passes(filter, it)).map(value));
    const [least, last] = [Math.min(...all.keys()), Math.max(...all.keys())], most = Math.max(1, ...all.values()),
      step = (width - LEFT - 4) / (last - least + 1);
    const by = isGaps ? texts.gallery.gap : texts.gallery.fewest,
      it = make("svg:svg", { viewBox: `0 0 ${width} ${HEIGHT}`, height: HEIGHT, role: "group",
      "aria-label": texts.gallery.bars(by) });
    it.append(...axes(most, width), text((LEFT + width) / 2, HEIGHT - 3, by), text(-(FLOOR + TOP) / 2, 12,
      texts.gallery.deals, { transform: "rotate(-90)" }));
    const every = STEPS.find(it => it * step >= ROOM) ?? 100, from = filter["from " + field], one = from !== ""
      && from === filter["to " + field] && all.has(Number(from)) ? Number(from) : null;
    for (let at = Math.ceil(least / every) * every; at <= last;
      at += every) it.append(text(LEFT + (at - least + .5) * step, FLOOR + 14, String(at)));
    for (const [at, count] of [...all].sort((a, b) => a[0] - b[0])) {
      const told = { at, count, part: chosen.get(at) ?? 0, x: LEFT + (at - least) * step, step, most, field,
        isPressed: at === one, isFirst: one === null && at === least };
      it.append(bar(told));
    }
    return it;
  };
  /** @param {number} most @param {number} width The lines across, as far apart as their numbers need. */
  const axes = (most, width) => {
    const ticks = [0];
    for (const it of STEPS) if (it <= most && down(ticks.at(-1) ?? 0, most) - down(it, most) >= 16) ticks.push(it);
    return ticks.flatMap(it => [make("svg:line", { class: "axis", x1: LEFT, x2: width, y1: down(it, most),
      y2: down(it, most) }),
      text(LEFT - 6, down(it, most) + 4, texts.number(it), { "text-anchor": "end" })]);
  };
  /** @param {{at: number, count: number, part: number, x: number, step: number, most: number, field: string, isPressed:
   * boolean, isFirst: boolean}} told */
  const bar = ({ at, count, part, x, step, most, field, isPressed, isFirst }) => {
    const rect = (/** @type {string} */ kind, /** @type {number} */ y) =>
      make("svg:rect", { class: kind, x: x + step * .06, width: Math.max(1, step * .88), y, height: FLOOR - y });
    return make("svg:g", { class: "bar", role: "button", tabindex: isPressed || isFirst ? 0 : -1,
      "aria-pressed": String(isPressed), "data-field": field, "data-value": at, "data-at": `${field}${at}`,
      "aria-label": texts.gallery.bar(at, count, part === count ? null : part) },
        make("svg:title", {}, texts.gallery.bar(at, count, null)),
      rect("all", down(count, most)), ...part ? [rect("ink", down(part, most))] : [], rect("hit", 0), ...step >= 34
        ? [text(x + step / 2, down(count, most) - 4, texts.number(count))] : []);
  };
  return { plot };
})();
