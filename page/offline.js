// @ts-check
"use strict";
/** The page without a network: what was fetched once is kept, and answers where the server doesn't. */
const KEPT = "luffaknife";
const PAGE = ["index.html", "style.css", "icon.svg", "manifest.webmanifest", "texts.js", "cards.js", "rules.js",
  "boards.js", "drawings.js", "lines.js", "rows.js", "deals/all.js", "engine.js",
  "words.js", "link.js", "saved.js", "store.js", "table.js", "side.js", "plots.js", "gallery.js", "hands.js", "main.js",
    "solver.js"];
const scope = /** @type {any} */ (self);
scope.addEventListener("install", (/** @type {any} */ event) =>
  event.waitUntil(caches.open(KEPT).then(it => it.addAll(PAGE)).then(() => scope.skipWaiting())));
scope.addEventListener("activate", (/** @type {any} */ event) => event.waitUntil(scope.clients.claim()));
/** @param {Request} request */
const answer = async request => {
  const kept = await caches.open(KEPT);
  try {
    const told = await fetch(request);
    if (told.ok) await kept.put(request, told.clone());
    return told;
  } catch (fault) {
    const found = await kept.match(request, { ignoreSearch: true });
    if (found) return found;
    throw fault;
  }
};
scope.addEventListener("fetch", (/** @type {any} */ event) => {
  if (event.request.method === "GET") event.respondWith(answer(event.request)); });
