// @ts-check
"use strict";
/** @typedef {{kind: string, moves?: number, floor?: number, list?: string[], text: string}} Answer of the library */
/** The proved library in a worker: one call at a time, which ends where another one is wanted. solver.js hands over the
 * library. */
const engine = (() => {
  const MEMORY64 = new Uint8Array([0, 97, 115, 109, 1, 0, 0, 0, 5, 3, 1, 4, 1]);
  const isAble = typeof WebAssembly === "object" && WebAssembly.validate(MEMORY64) && "DecompressionStream" in window
    && "Worker" in window;
  /** What a worker does: it makes the library of the module that it is sent first, and then answers calls. */
  const SERVES = `
    let library;
    onmessage = async ({ data: { module, name, words } }) => {
      if (module) return library = WebAssembly.instantiate(module, {}).then(it => new Luffaknife(it));
      try { postMessage({ told: (await library)[name](...words) }); } catch (error) {
        postMessage({ error: error.message }); }
    };`;
  let module = /** @type {WebAssembly.Module | null} */ (null), url = "", spare = /** @type {Worker | null} */ (null),
    why = isAble ? "" : texts.engine.unable;
  let running = /** @type {{worker: Worker, fails: (why: Error) => void} | null} */ (null), told = () => {};
  const make = () => {
    const worker = new Worker(url);
    worker.postMessage({ module });
    return worker;
  };
  const isThere = () => module !== null && why === "";
  /** @param {string} packed The library for WebAssembly, as gzip in base 64. @param {string} source The script of its
   * calls. */
  const take = async (packed, source) => {
    try {
      const bytes = Uint8Array.from(atob(packed), it => it.charCodeAt(0));
      const plain = new Response(new Blob([bytes]).stream().pipeThrough(new DecompressionStream("gzip")));
      module = await WebAssembly.compile(await plain.arrayBuffer());
      url = URL.createObjectURL(new Blob([source, SERVES], { type: "text/javascript" }));
      spare = make();
    } catch (error) {
      why = texts.engine.failed(String(error));
    }
    told();
  };
  /** Asks for the library, once the page is painted. */
  const begin = () => {
    if (!isAble) return;
    const onerror = () => { why = texts.engine.missing; told(); };
    document.head.append(Object.assign(document.createElement("script"), { src: "solver.js", onerror }));
  };
  const stop = () => {
    if (!running) return;
    const { worker, fails } = running;
    running = null;
    worker.terminate();
    spare = make();
    fails(new Error("stopped"));
  };
  /** @param {string} name @param {any[]} words @returns {Promise<Answer>} A call's answer; what runs is stopped. */
  const call = (name, ...words) => {
    stop();
    return new Promise((does, fails) => {
      const worker = spare ?? make();
      [spare, running] = [null, { worker, fails }];
      const end = (/** @type {() => void} */ act) => {
        if (running?.worker !== worker) return;
        [spare, running] = [worker, null];
        act();
      };
      worker.onmessage = ({ data }) => end(() => data.error === undefined ? does(data.told)
        : fails(new Error(data.error)));
      worker.onerror = event => end(() => fails(new Error(event.message)));
      worker.postMessage({ name, words });
    });
  };
  /** @param {Game} game The game as the library's calls have it. */
  const gameOf = game => ({ game: game.isBakers ? "bakers" : "freecell", kings: game.isKings, cells: game.cells });
  const best = (/** @type {Game} */ game, /** @type {string} */ text, /** @type {number} */ budget) =>
    call("best", text, { budget, ...gameOf(game) });
  const review = (/** @type {Game} */ game, /** @type {string} */ text, /** @type {string[]} */ moves,
    /** @type {number} */ budget) =>
    call("review", text, moves, { budget, ...gameOf(game) });
  return { begin, take, stop, best, review, isThere, why: () => why, isBusy: () => running !== null,
    tell: (/** @type {() => void} */ it) => { told = it; } };
})();
/** Called by solver.js. */
const solver = engine.take;
