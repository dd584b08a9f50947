// @ts-check
"use strict";
/** What hands do at the table: taps, drags, keys; and the box for boards. */
const hands = (() => {
  const { byId } = dom, { set } = store, MOMENT = 700;
  let wasDragged = false, tapped = { card: "", at: 0, goals: /** @type {string[]} */ ([]), count: 0, from: "",
    own: /** @type {Played | null} */ (null) };
  /** @param {State} it @param {string} from @param {number} count @returns {State} */
  const take = (it, from, count) => {
    const taken = { ...it, taken: { from, count }, typed: "", hint: "", isPlaying: false }, open = table.goals(taken);
    const goals = [...moves.PLACES, "h"].filter(to => open.includes(to)).map(list.place).join(", ");
    return { ...taken, said: texts.hands.taken(cards.words(table.takenCards(taken)[0]), count - 1, goals) };
  };
  /** @param {State} it @returns {State} */
  const putBack = it => ({ ...it, taken: null, said: it.taken ? texts.hands.back : it.said });
  /** What an element of the table is: its place, and the card to be taken with so many others. */
  const spotOf = (/** @type {Element} */ target) => {
    const card = target.closest("[data-card]"), place = target.closest("[data-place]")?.getAttribute("data-place")
      ?? "";
    return { place, name: card?.getAttribute("data-card") ?? "", count: card ? table.countOf(card) : 0 };
  };
  /** @param {Element} target Takes cards, lays them where they may go, or puts them back; twice on a card sends it
   * home. */
  const touch = target => {
    const { place, name, count } = spotOf(target), isTwice = name !== "" && tapped.card === name
      && performance.now() - tapped.at < MOMENT;
    tapped = { ...tapped, card: name, at: performance.now() };
    set(it => {
      if (place === "") return { ...it, taken: null };
      if (isTwice && count === 1 && moves.why(it.game, store.present(it), place + "h") === "")
        return store.play(it, place + "h", 1);
      if (it.taken && it.taken.from !== place && table.goals(it).includes(place))
        return store.play(it, it.taken.from + place, it.taken.count);
      return count === 0 || it.taken?.from === place && it.taken.count === count ? putBack(it) : take(it, place, count);
    });
  };
  /** @param {Element} target A tap sends a card to its best place; a second one within a moment to the next best. */
  const tap = target => {
    const { place, name, count } = spotOf(target), now = performance.now(), it = store.now();
    if (!it.switches.tap || it.taken) return touch(target);
    const isAgain = name !== "" && tapped.card === name && now - tapped.at < MOMENT && tapped.own === it.own
      && tapped.goals.length > 1;
    if (isAgain) {
      const [first, ...others] = tapped.goals, goals = [...others, first];
      set(it => store.play(store.undo(it, true), tapped.from + goals[0], tapped.count));
      tapped = { ...tapped, at: now, goals, own: store.now().own };
    } else if (count > 0) {
      const goals = moves.goals(it.game, store.present(it), place, count), card = Number(name);
      set(it => goals.length > 0 ? store.play(it, place + goals[0], count)
        : { ...it, said: `${cards.words(card)} ${texts.hands.stuck}` });
      tapped = { card: name, at: now, goals, count, from: place, own: store.now().own };
    }
  };
  /** @param {PointerEvent} event Cards are carried by a pointer once it has gone some way. */
  const drag = event => {
    const card = /** @type {HTMLElement | null} */ (/** @type {Element} */ (event.target).closest(".card.may")),
      place = card?.closest("[data-place]")?.getAttribute("data-place");
    if (!card || !place || event.button !== 0) return;
    const box = card.getBoundingClientRect(), count = table.countOf(card),
      next = card.parentElement?.nextElementSibling?.getBoundingClientRect(), ending = new AbortController();
    let ghost = /** @type {HTMLElement | null} */ (null);
    const go = (/** @type {PointerEvent} */ at) => {
      const [x, y] = [at.clientX - event.clientX, at.clientY - event.clientY];
      if (!ghost && Math.hypot(x, y) > 6) {
        set(it => take(it, place, count));
        ghost = dom.make("div", { class: "ghost" }, ...table.takenCards(store.now())
          .map(it => table.elements[it].cloneNode(true)));
        const style = { left: `${box.x}px`, top: `${box.y}px`, width: `${box.width}px`, "--w": `${box.width}px`,
          "--h": `${box.height}px`, "--step": `${next ? next.y - box.y : 0}px` };
        for (const [name, value] of Object.entries(style)) ghost.style.setProperty(name, value);
        document.body.append(ghost);
        byId("table").classList.add("dragging");
      }
      if (ghost) ghost.style.transform = `translate(${x}px, ${y}px)`;
    };
    const end = (/** @type {PointerEvent} */ at) => {
      ending.abort();
      wasDragged = ghost !== null;
      setTimeout(() => { wasDragged = false; }, 0);
      ghost?.remove();
      byId("table").classList.remove("dragging");
      const goal = document.elementFromPoint(at.clientX,
        at.clientY)?.closest("[data-place]")?.getAttribute("data-place");
      if (ghost) set(it => at.type === "pointerup" && goal && table.goals(it).includes(goal)
        ? store.play(it, place + goal, count) : putBack(it));
    };
    const signal = ending.signal;
    document.addEventListener("pointermove", go, { signal });
    document.addEventListener("pointerup", end, { signal });
    document.addEventListener("pointercancel", end, { signal });
  };
  const letter = (/** @type {string} */ key) => set(it => {
    if (it.typed !== "") return store.play(it, it.typed + key, moves.meant(store.present(it), it.typed + key));
    return key === "h" ? it : { ...it, typed: key, taken: null, hint: "", said: "" };
  });
  /** @param {State} it @returns {State} Shows the next move of the best list that is known; once it is shown, plays
   * it. */
  const hint = it => {
    const { line, at } = store.shown(it), move = known.of(it.game, line, at, store.rowOf(it))?.list?.[0];
    if (move === undefined) return { ...it, said: texts.word.noHint };
    if (it.hint === move) return store.play(it, move, 1);
    return { ...it, hint: move, taken: null, typed: "", isPlaying: false,
      said: texts.word.hint(list.words(store.present(it), move, cards.words)) };
  };
  /** @param {State} it @returns {State} Plays the best list that is known to its end. */
  const finish = it => {
    const { line, at } = store.shown(it);
    return store.playOut(it, known.of(it.game, line, at, store.rowOf(it))?.list ?? []);
  };
  const isPlayed = (/** @type {State} */ it) => ({ ...it, isPlaying: !it.isPlaying
    && store.shown(it).at < store.shown(it).line.moves.length });
  const KEYS = /** @type {Record<string, (it: State) => State>} */ ({
    ArrowLeft: it => store.to(it, store.shown(it).at - 1), ArrowRight: it => store.to(it, store.shown(it).at + 1),
      Home: it => store.to(it, 0),
    End: it => store.to(it, store.shown(it).line.moves.length), " ": isPlayed, u: it => store.undo(it, true), r: it =>
      store.undo(it, false),
    i: hint, f: finish, Escape: it => ({ ...putBack(it), typed: "", hint: "" }) });
  /** @param {KeyboardEvent} event @returns {(() => void) | null} What a key does. */
  const actOf = event => {
    const target = /** @type {Element} */ (event.target), key = event.key.length === 1 ? event.key.toLowerCase()
      : event.key, isArrow = key.startsWith("Arrow");
    const bar = target.closest(".bar"), card = target.closest("[data-card]"), isPress = key === "Enter" || key === " ";
    if (event.ctrlKey || event.metaKey) return /^[zy]$/.test(key) ? () =>
      set(it => store.undo(it, key === "z" && !event.shiftKey)) : null;
    if (bar && isPress) return () => main.chooseBar(bar);
    if (bar && isArrow) return () => neighbour(key === "ArrowLeft" ? bar.previousElementSibling
      : bar.nextElementSibling);
    if (card && isPress || target.matches(".slot") && isPress) return () => touch(target);
    if (key === " " && target.closest("button, a, summary") || isArrow && target.matches("input")) return null;
    if (!store.now().switches.keys && key.length === 1 && key !== " ") return null;
    return key === "?" ? () => byId("help-box").showModal() : KEYS[key] ? () => set(KEYS[key]) : /^[1-8a-dh]$/.test(key)
      ? () => letter(key) : null;
  };
  const press = (/** @type {KeyboardEvent} */ event) => {
    const target = /** @type {Element} */ (event.target);
    if (event.altKey || target.closest("dialog, input:not([type=range]), select, textarea")) return;
    const act = actOf(event);
    if (!act) return;
    event.preventDefault();
    act();
  };
  const neighbour = (/** @type {any} */ next) => next?.matches(".bar") && [next.setAttribute("tabindex", "0"),
    next.focus()];
  /** @param {string} text @param {string} told @param {Game} game Shows the box for boards, with a text and its
   * faults. */
  const paste = (text, told, game) => {
    [byId("board-text").value, byId("list-text").value, byId("paste-box").game] = [text, told, game];
    if (!byId("paste-box").open) byId("paste-box").showModal();
    submit();
  };
  /** @param {Fault} fault @param {string} text A fault of a board's text, with what it lies at marked. */
  const faulty = ({ says, note, spots }, text) => {
    const spot = spots.at(-1), from = spot ? Math.max(text.lastIndexOf("\n", spot.from - 1) + 1, spot.from - 100) : 0;
    const to = spot ? Math.min((text + "\n").indexOf("\n", spot.to), spot.to + 100) : 0, { make } = dom;
    return [make("p", {}, texts.paste.board(says)), ...note ? [make("p", {}, note)] : [],
      ...spot ? [make("pre", {}, text.slice(from, spot.from),
        make("mark", {}, link.cut(text.slice(spot.from, spot.to))), text.slice(spot.to, to))] : []];
  };
  /** @param {string} [how] Opens what stands in the box, or tells its fault at the card; where it is a board in rows
   * too, it asks. */
  const submit = (how = "") => {
    const text = byId("board-text").value, { game } = byId("paste-box"), isInRows = how === "rows",
      start = board.read(text, game, isInRows), isFault = board.isFault(start);
    const other = how === "" ? board.readOther(text, game, false) : null, spot = isFault ? start.spots.at(-1)
      : undefined;
    byId("board-fault").replaceChildren(...isFault ? faulty(start, text) : []);
    byId("board-ask").hidden = other === null;
    dom.say("board-asked", isFault ? texts.paste.isRows : texts.paste.asRows);
    byId("as-columns").hidden = isFault;
    byId("list-fault").replaceChildren();
    if (isFault) return byId("board-text").focus(), spot && byId("board-text").setSelectionRange(spot.from, spot.to);
    if (other) return byId("as-rows").focus();
    const { claim, line, fault } = list.read(game, start, byId("list-text").value);
    byId("list-fault").replaceChildren(...fault ? [dom.make("pre", {}, fault)] : []);
    if (fault) return byId("list-text").focus();
    byId("paste-box").close();
    const isWon = line.moves.length > 0 && board.isWon(line.boards[line.moves.length]), played = { line, at: 0 };
    store.go(link.fragment({ ...store.now(), game, deal: null, start, claim, hasRow: false, solution: isWon ? played
      : null, own: isWon ? { line: list.line(game, start, []), at: 0 } : played,
      isWatching: isWon }));
  };
  return { touch, tap, drag, press, paste, submit, KEYS, hint, finish, wasDragged: () => wasDragged };
})();
