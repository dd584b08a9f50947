// @ts-check
"use strict";
/** All rows: sorted and filtered, counted in two plots, and exported. */
const gallery = (() => {
  const { byId, make, fill, say } = dom, A_PAGE = 25;
  let chosen = /** @type {Row[]} */ ([]);
  const COLUMNS = /** @type {("answer" | "moves" | "floor" | "gap" | "budget")[]} */ (["answer", "moves", "floor",
    "gap", "budget"]);
  /** @param {State} state */
  const draw = ({ view, deal }) => {
    if (!rows.isWhole()) return say("found", texts.gallery.loading);
    const { filter, by, isFalling, page } = view;
    for (const it of byId("filters").querySelectorAll("[name]")) if (it !== document.activeElement) it.value =
      filter[it.name];
    for (const it of byId("heads").querySelectorAll("th")) it.setAttribute("aria-sort", it.dataset.by !== by ? "none"
      : isFalling ? "descending" : "ascending");
    if (dom.isOther("chosen", [filter, by, isFalling, rows.all()])) chosen = rows.chosen(filter, by, isFalling);
    const pages = Math.max(1, Math.ceil(chosen.length / A_PAGE)), at = Math.min(page, pages - 1);
    fill("rows", [chosen, at, deal], () => chosen.slice(at * A_PAGE, (at + 1) * A_PAGE)
      .map(it => make("tr", { class: it.deal === deal && "now" },
      make("td", {}, make("a", { href: `#deal=${it.deal}`, "data-at": it.deal }, String(it.deal))),
        ...COLUMNS.map(name => make("td", {}, String(it[name] ?? ""))))));
    say("found", texts.gallery.found(chosen.length, rows.all().length));
    say("pages", texts.gallery.page(at + 1, pages));
    [byId("fewer").disabled, byId("more").disabled] = [at === 0, at + 1 >= pages];
    for (const id of ["moves", "gap"]) fill(`plot-${id}`, [filter, rows.all(), byId(`plot-${id}`).clientWidth], () =>
      [plots.plot(id, filter, Math.max(200, byId(`plot-${id}`).clientWidth))]);
  };
  /** Hands over what is chosen, as a file. */
  const save = () => {
    const url = URL.createObjectURL(new Blob([rows.tsv(chosen)], { type: "text/tab-separated-values" }));
    make("a", { href: url, download: "luffaknife-deals.tsv" }).click();
    setTimeout(() => URL.revokeObjectURL(url), 1000);
  };
  const PRESETS = /** @type {Record<string, View>} */ ({
    hardest: { ...link.NO_VIEW, filter: { ...link.NO_FILTER, answer: "shortest" }, by: "moves", isFalling: true },
    easiest: { ...link.NO_VIEW, filter: { ...link.NO_FILTER, answer: "shortest" }, by: "moves" },
    lost: { ...link.NO_VIEW, filter: { ...link.NO_FILTER, answer: "can't be won" } },
      open: { ...link.NO_VIEW, by: "gap", isFalling: true },
  });
  return { draw, save, PRESETS };
})();
