// @ts-check
"use strict";
/** Elements by their names, and new ones. */
const dom = (() => {
  const byId = /** @type {(id: string) => any} */ (id => document.getElementById(id));
  /** @param {string} tag @param {Record<string, any>} given @param {(Node | string)[]} inside An element, of SVG where
   * the tag says so. */
  const make = (tag, given, ...inside) => {
    const space = `http://www.w3.org/${tag.startsWith("svg:") ? "2000/svg" : "1999/xhtml"}`;
    const it = /** @type {HTMLElement} */ (document.createElementNS(space, tag.replace("svg:", "")));
    for (const [name, value] of Object.entries(given)) if (value !== undefined && value !== false) it.setAttribute(name,
      value === true ? "" : value);
    it.append(...inside);
    return it;
  };
  const shown = /** @type {Map<string, any[]>} */ (new Map());
  /** @param {string} id @param {any[]} values Whether one of these values isn't what it was for this name. */
  const isOther = (id, values) => {
    if (shown.has(id) && values.every((it, at) => it === shown.get(id)?.[at])) return false;
    shown.set(id, values);
    return true;
  };
  /** @param {string} id @param {any[]} values @param {() => (Node | string)[]} parts Makes a part anew where one of
   * these values isn't what it was; what has the focus keeps it. */
  const fill = (id, values, parts) => {
    if (!isOther(id, values)) return;
    const focused = byId(id).contains(document.activeElement) ? document.activeElement?.getAttribute("data-at") : null;
    byId(id).replaceChildren(...parts());
    if (focused) byId(id).querySelector(`[data-at="${focused}"]`)?.focus({ preventScroll: true });
  };
  const say = (/** @type {string} */ id, /** @type {string} */ text) => {
    if (byId(id).textContent !== text) byId(id).textContent = text; };
  return { byId, make, isOther, fill, say };
})();
/** The table: 52 cards that are made once and moved, and their places. */
const table = (() => {
  const { byId, make } = dom, PLACES = [...moves.CELLS, "h0", "h1", "h2", "h3", ...moves.COLUMNS];
  const cardOf = (/** @type {number} */ card) => {
    const sign = cards.sign(cards.suit(card)), index = make("span", { "aria-hidden": "true" }, cards.rankSign(card),
      make("i", {}, sign));
    const it = make("div", { class: `card${cards.isRed(card) ? " red" : ""} suit-${cards.SUITS[cards.suit(card)]}`,
      "data-card": card, "aria-label": cards.words(card) },
      index, make("b", { "aria-hidden": "true" }, sign));
    return make("li", {}, it);
  };
  const lis = Array.from({ length: cards.COUNT }, (_, card) => cardOf(card)),
    elements = lis.map(it => /** @type {HTMLElement} */ (it.firstChild));
  const emptyName = (/** @type {string} */ place) => place[0] === "h"
    ? texts.hands.emptyHome(texts.SUIT_WORDS[Number(place[1])])
    : (moves.isColumn(place) ? texts.hands.emptyColumn : texts.hands.emptyCell)(place);
  const placeOf = (/** @type {string} */ place) => {
    const isHome = place[0] === "h", label = isHome ? place === "h0" ? texts.place.home : "\u00a0" : place,
      sign = isHome ? cards.sign(Number(place[1])) : "";
    const given = { class: `place${isHome ? ` suit-${cards.SUITS[Number(place[1])]}` : ""}`, "data-place": isHome ? "h"
      : place, ...isHome ? { "data-suit": place[1] } : {} };
    return make("div", given, make("span", { class: "label", "aria-hidden": "true" }, label),
      make("button", { class: "slot", type: "button", tabindex: "-1", "aria-label": emptyName(place) },
        make("span", { "aria-hidden": "true" }, sign)),
      make("ol", { class: "lying", "aria-label": isHome ? texts.place.home : list.place(place) }));
  };
  const places = new Map(PLACES.map(place => [place, placeOf(place)]));
  byId("top").append(...PLACES.slice(0, 8).map(it => places.get(it) ?? ""));
  byId("columns").append(...PLACES.slice(8).map(it => places.get(it) ?? ""));
  /** @param {Board} now @param {string} place What lies on a place: of a foundation the last card. */
  const lyingOn = (now, place) => {
    if (place[0] === "h") return now.homes[Number(place[1])] > 0
      ? [cards.of(now.homes[Number(place[1])], Number(place[1]))] : [];
    const card = moves.top(now, place);
    return moves.isColumn(place) ? moves.column(now, place) : card === null ? [] : [card];
  };
  /** @param {Element} it The place of an element as moves have it, and how many cards are taken with it; 0 where it may
   * not be taken. */
  const countOf = it => Number(it.getAttribute("data-count") ?? 0);
  /** @param {number} card @param {number} count @param {boolean} isLast A card, and how many are taken with it. */
  const dress = (card, count, isLast) => {
    const it = elements[card], given = count > 0 ? { role: "button", tabindex: "0", "data-count": String(count) }
      : { role: "img", tabindex: isLast ? "-1" : null, "data-count": "0" };
    it.classList.toggle("may", count > 0);
    for (const [name, value] of Object.entries(given)) if (value === null) it.removeAttribute(name);
      else if (it.getAttribute(name) !== value) it.setAttribute(name, value);
    if (count === 0) it.removeAttribute("aria-pressed");
  };
  /** @param {State} state @param {Board} now @param {string} place */
  const lay = ({ game }, now, place) => {
    const lying = lyingOn(now, place), part = /** @type {HTMLElement} */ (places.get(place)),
      ol = /** @type {HTMLElement} */ (part.lastChild);
    for (const [i, card] of lying.entries()) if (ol.children[i] !== lis[card]) ol.insertBefore(lis[card], ol.children[i]
      ?? null);
    while (ol.children.length > lying.length) ol.lastChild?.remove();
    /** @type {HTMLElement} */ (part.children[1]).hidden = lying.length > 0;
    part.hidden = moves.isCell(place) && moves.CELLS.indexOf(place) >= game.cells;
    ol.style.setProperty("--n", String(lying.length));
    const run = place[0] === "h" ? 0 : moves.run(game, now, place);
    for (const [i, card] of lying.entries()) dress(card, lying.length - i <= run ? lying.length - i : 0,
      i === lying.length - 1);
  };
  /** @param {State} state The places that what is taken may go to. */
  const goals = state => state.taken ? moves.goals(state.game, store.present(state), state.taken.from,
    state.taken.count) : [];
  const takenCards = (/** @type {State} */ state) => {
    const { taken } = state, now = store.present(state);
    if (taken === null) return [];
    return moves.isColumn(taken.from) ? moves.column(now, taken.from).slice(-taken.count)
      : [/** @type {number} */ (moves.top(now, taken.from))];
  };
  /** @param {State} state Shows what is taken, where it may go, and what the hint is. */
  const mark = state => {
    const open = goals(state), taken = takenCards(state), [from, to] = state.hint, hinted = state.hint
      ? moves.top(store.present(state), from) : null;
    for (const [name, it] of places) {
      const place = name[0], suit = Number(name[1]), isHome = place === "h";
      const isGoal = open.includes(place) && (!isHome || suit === cards.suit(taken[0])), isHinted = hinted !== null
        && place === to && (!isHome || suit === cards.suit(hinted));
      it.classList.toggle("goal", isGoal);
      it.classList.toggle("hinted", isHinted);
      it.children[1].setAttribute("tabindex", isGoal ? "0" : "-1");
      if (isHome) it.querySelector(".card")?.setAttribute("tabindex", isGoal ? "0" : "-1");
    }
    for (const [card, it] of elements.entries()) {
      if (it.classList.contains("may")) it.setAttribute("aria-pressed", String(taken.includes(card)));
      it.classList.toggle("hinted", card === hinted);
    }
  };
  const isStill = () => matchMedia("(prefers-reduced-motion: reduce)").matches;
  /** @param {State} state @param {boolean} isNear Whether the board is the one before or after a move or two: then
   * cards are seen going. */
  const draw = (state, isNear) => {
    const now = store.present(state);
    if (dom.isOther("table", [now, state.game])) {
      const was = focusedPlace(), moved = isNear && !isStill() ? changed(now) : [],
        before = moved.map(it => elements[it].getBoundingClientRect());
      for (const place of PLACES) lay(state, now, place);
      for (const [i, card] of moved.entries()) glide(elements[card], before[i]);
      last = now;
      if (was) focusNear(was.card, was.place);
    }
    mark(state);
  };
  let last = /** @type {Board | null} */ (null);
  /** @param {Board} now The cards that lie elsewhere than before. */
  const changed = now => {
    if (last === null) return [];
    const [a, b] = [last, now].map(it =>
      new Map(PLACES.flatMap(place => lyingOn(it, place)
      .map((card, i) => /** @type {[number, string]} */ ([card, place + i])))));
    return [...b.keys()].filter(card => a.has(card) && a.get(card) !== b.get(card));
  };
  /** @param {HTMLElement} it @param {DOMRect} from */
  const glide = (it, from) => {
    const to = it.getBoundingClientRect(), [x, y] = [from.x - to.x, from.y - to.y];
    if (Math.hypot(x, y) > 3) it.animate({ transform: [`translate(${x}px, ${y}px)`, "none"], zIndex: [5, 5] },
      { duration: 160, easing: "ease-out" });
  };
  /** What has the focus, where that is at the table. */
  const focusedPlace = () => {
    const it = document.activeElement, place = it?.closest("[data-place]");
    return it && place && byId("table").contains(it) ? { card: it.getAttribute("data-card"), place } : null;
  };
  /** @param {string | null} card @param {Element} place Keeps the focus with the card that had it, or on its place. */
  const focusNear = (card, place) => {
    const its = card === null ? null : elements[Number(card)], other = place.querySelector("ol > li:last-child > .card")
      ?? place.querySelector(".slot");
    for (const it of [its, other]) if (it instanceof HTMLElement && it.isConnected && document.activeElement !== it
      && !isKept(its)) it.focus({ preventScroll: true });
  };
  const isKept = (/** @type {Element | null} */ it) => it !== null && document.activeElement === it;
  /** The last cards of the foundations hop, one after the other. */
  const cascade = () => {
    if (isStill()) return;
    for (const [i, it] of [...byId("top").querySelectorAll("[data-place=h] .card")].entries())
      it.animate({ transform: ["none", "translateY(-24%) rotate(6deg)", "none"] }, { duration: 500, delay: 140 * i,
        easing: "ease-in-out" });
  };
  return { draw, goals, takenCards, countOf, elements, cascade };
})();
