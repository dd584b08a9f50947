// @ts-check
"use strict";
/** Puts the page together: its texts, what each button does, and what is drawn when. */
const main = (() => {
  const { byId } = dom, { set } = store;
  for (const it of document.querySelectorAll("[data-text]")) it.textContent = texts.page[it.getAttribute("data-text")
    ?? ""];
  for (const it of document.querySelectorAll("[data-label]")) it.setAttribute("aria-label",
    texts.page[it.getAttribute("data-label") ?? ""]);
  /** @param {State} now @param {State} before */
  const draw = (now, before) => {
    const [{ line, at }, was] = [store.shown(now), store.shown(before)], isNear = line.boards[0] === was.line.boards[0]
      && Math.abs(at - was.at) < 20;
    table.draw(now, isNear);
    side.draw(now);
    if (now.view !== before.view || now.deal !== before.deal || now.news !== before.news) gallery.draw(now);
    for (const [name, isOn] of Object.entries(now.switches)) document.documentElement.toggleAttribute(`data-${name}`,
      isOn);
    think(now);
  };
  /** @param {State} it Asks the engine of the board at the table, unless moves are being shown or the page isn't
   * seen. */
  const think = it => {
    const { line, at } = store.shown(it);
    const isEarly = link.isUsual(it.game) && rows.isAwaited(it.deal);
    if (it.isPlaying || document.hidden || isEarly) known.quiet();
    else known.ask(it.game, line, at, store.rowOf(it));
  };
  const news = () => set(it => ({ ...it, news: it.news + 1 }));
  const show = (/** @type {number} */ number) => store.go(`#${link.base(store.now().game, number, store.now().start)}`);
  const chooseBar = (/** @type {Element} */ bar) => set(it => {
    const field = bar.getAttribute("data-field"), value = bar.getAttribute("aria-pressed") === "true" ? ""
      : bar.getAttribute("data-value") ?? "";
    return { ...it, view: { ...it.view, page: 0, filter: { ...it.view.filter, [`from ${field}`]: value,
      [`to ${field}`]: value } } };
  });
  const viewed = (/** @type {Partial<View>} */ change) =>
    set(it => ({ ...it, view: { ...it.view, page: 0, ...change } }));
  const sort = (/** @type {string} */ by) =>
    viewed({ by, isFalling: store.now().view.by === by && !store.now().view.isFalling });
  const key = (/** @type {string} */ name) => () => set(hands.KEYS[name]);
  const closed = (/** @type {string} */ box, /** @type {() => void} */ act) => () => [byId(box).close(), act()];
  const paste = () => [byId("paste-box").game = store.now().game, byId("paste-box").showModal()];
  const toBefore = () => set(it => store.to(it, side.lostAt(it) - 1));
  const CLICKS = /** @type {Record<string, (event: any) => void>} */ ({
    before: () => show(Math.max(1, (store.now().deal ?? 2) - 1)), after: () =>
      show(Math.min(deal.MOST, (store.now().deal ?? 0) + 1)),
    random: () => show(1 + Math.floor(Math.random() * deal.MOST)), menu: () => byId("menu-box").showModal(),
      today: closed("menu-box", () => show(deal.ofDay(new Date()))),
    paste: closed("menu-box", paste), "paste-close": () => byId("paste-box").close(),
      help: closed("menu-box", () => byId("help-box").showModal()),
    "as-rows": () => hands.submit("rows"), "as-columns": () => hands.submit("columns"),
    "own-line": () => set(store.resume), "its-line": () => set(store.watch), earlier: () => set(store.swap), hint: () =>
      set(hands.hint), finish: () => set(hands.finish),
    "all-home": () => set(store.allHome), "to-before": toBefore, "win-next": () =>
      show(Math.min(deal.MOST, (store.now().deal ?? 0) + 1)),
    "win-close": () => set(it => ({ ...it, isWinShown: false })), clear: () => viewed({ filter: link.NO_FILTER }),
      save: () => gallery.save(),
    fewer: () => viewed({ page: store.now().view.page - 1 }), more: () => viewed({ page: store.now().view.page + 1 }),
    ...Object.fromEntries(Object.keys(gallery.PRESETS).map(name => [name, () => viewed(gallery.PRESETS[name])])),
    table: event => { if (!hands.wasDragged()) (event.detail > 0 ? hands.tap : hands.touch)(event.target); },
    plots: event => event.target.closest(".bar") && chooseBar(event.target.closest(".bar")), heads: event =>
      event.target.closest("th") && sort(event.target.closest("th").dataset.by),
    list: event => event.target.closest("[data-at]")
      && set(it => store.to(it, Number(event.target.closest("[data-at]").dataset.at))),
    first: key("Home"), back: key("ArrowLeft"), run: key(" "), step: key("ArrowRight"), last: key("End"),
      undo: key("u"), redo: key("r") });
  /** Shows the deal that is typed; digits alone are a number. */
  const typed = () => {
    const told = byId("deal").value.trim();
    byId("deal").blur();
    const number = deal.read(told);
    if (number === null) byId("deal-fault").textContent = /^-?\d+$/.test(told) ? texts.link.deal(link.cut(told))
      : texts.link.noDeal(link.cut(told));
    else show(number);
  };
  /** Deals anew by the rules that are chosen. */
  const chosenGame = () => {
    const game = { cells: Number(byId("cells").value), isBakers: byId("game").value === "bakers",
      isKings: byId("kings").checked };
    store.go(`#${link.base(game, store.now().deal, store.now().start)}`);
  };
  const SUBMITS = /** @type {Record<string, () => void>} */ ({ "deal-form": typed, "paste-form": () => hands.submit(),
    filters: () => {} });
  for (const [id, act] of Object.entries(CLICKS)) byId(id).addEventListener("click", act);
  for (const [id, act] of Object.entries(SUBMITS)) byId(id).addEventListener("submit", (/** @type {Event} */ event) => {
    event.preventDefault(); act(); });
  byId("table").addEventListener("pointerdown", hands.drag);
  byId("slider").addEventListener("input", () => set(it => store.to(it, Number(byId("slider").value))));
  byId("speed").addEventListener("change", () => set(it => ({ ...it, speed: Number(byId("speed").value) })));
  byId("filters").addEventListener("input", (/** @type {any} */ { target }) =>
    viewed({ filter: { ...store.now().view.filter, [target.name]: target.value } }));
  for (const id of ["game", "kings", "cells"]) byId(id).addEventListener("change", chosenGame);
  for (const name of Object.keys(saved.switches())) byId(`switch-${name}`).addEventListener("change",
    (/** @type {any} */ { target }) => set(it => {
    const switches = { ...it.switches, [name]: target.checked };
    saved.setSwitches(switches);
    return { ...it, switches };
  }));
  byId("menu-box").addEventListener("toggle", () => {
    const { game, switches } = store.now();
    for (const [name, isOn] of Object.entries(switches)) byId(`switch-${name}`).checked = isOn;
    [byId("game").value, byId("kings").checked, byId("cells").value] = [game.isBakers ? "bakers" : "freecell",
      game.isKings, String(game.cells)];
  });
  document.addEventListener("keydown", hands.press);
  document.addEventListener("visibilitychange", news);
  addEventListener("hashchange", () => store.open(location.hash));
  addEventListener("resize", news);
  addEventListener("pagehide", store.write);
  const lookAtGallery = () => new IntersectionObserver((seen, it) => {
    if (!seen.some(it => it.isIntersecting)) return;
    it.disconnect();
    rows.askAll();
  }).observe(byId("plots"));
  /** From a web server the page can be installed, and opened without a network. */
  const install = () => {
    if (!location.protocol.startsWith("http")) return;
    document.head.append(dom.make("link", { rel: "manifest", href: "manifest.webmanifest" }));
    navigator.serviceWorker?.register("offline.js").catch(() => {});
  };
  /** Counts the seconds of a game that is begun and not won, while the page is seen. */
  const count = () => {
    const it = store.now(), isGoing = it.switches.timer && !document.hidden && it.own.at > 0
      && !board.isWon(store.present(it));
    if (isGoing) saved.time(saved.seconds() + 1);
    dom.say("time", it.switches.timer ? texts.hands.time(saved.seconds()) : "");
  };
  const begin = () => {
    store.drawn(draw);
    for (const it of [rows, known, engine]) it.tell(news);
    store.open(location.hash);
    requestAnimationFrame(() => setTimeout(() => [engine.begin(), lookAtGallery(), install()], 0));
    setInterval(count, 1000);
  };
  return { begin, chooseBar };
})();
main.begin();
