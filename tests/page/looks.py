#!/usr/bin/env python3
"""How the page looks, in Chromium: in schemes and sizes, its contrast, targets and times, and that nothing moves that should stay.

usage, at the top of the repository:  looks.py sizes | times

Where the environment names a folder as page_pictures, pictures stay there.
"""
import sys

import browsers
from seen import BY_HAND, NAMELESS, Wrong, at_most, clean, click, open_board, pictures, press, run, same, text

# The least contrast of letters and what is behind them, over the page, by the formula of WCAG.
LIGHT = """
const light = it => { const [r, g, b] = it.map(it => it / 255).map(it => it <= .03928 ? it / 12.92 : ((it + .055) / 1.055) ** 2.4); return .2126 * r + .7152 * g + .0722 * b; };
const parts = it => (it.match(/[\\d.]+/g) || []).map(Number), solid = it => parts(it).length === 3 || parts(it)[3] === 1;
const behind = it => { while (it && !solid(getComputedStyle(it).backgroundColor)) it = it.parentElement; return it ? getComputedStyle(it).backgroundColor : "rgb(255, 255, 255)"; };
const ratio = (a, b) => { const [one, other] = [light(parts(a)), light(parts(b))]; return (Math.max(one, other) + .05) / (Math.min(one, other) + .05); };
"""
CONTRAST = LIGHT + """
let least = [99, ""];
for (const it of document.querySelectorAll("body *")) {
  const own = [...it.childNodes].some(it => it.nodeType === 3 && it.data.trim()), style = getComputedStyle(it);
  if (!own || it.closest("script, style, :disabled, option") || style.visibility === "hidden" || it.getClientRects().length === 0) continue;
  const told = ratio(it.closest("svg") ? style.fill : style.color, behind(it));
  if (told < least[0]) least = [told, it.tagName + "." + it.className + ": " + it.textContent.trim().slice(0, 30)];
}
return least;
"""
# Marks, places and rings, each beside what it lies on: the felt, or the page.
MARKS = LIGHT + """
const style = getComputedStyle(document.documentElement), colour = name => { const it = document.createElement("i"); it.style.color = style.getPropertyValue(name); document.body.append(it); const told = getComputedStyle(it).color; it.remove(); return told; };
return [["--well-line", "--felt"], ["--mark", "--felt"], ["--ring", "--felt"], ["--card", "--felt"], ["--focus", "--page"], ["--focus", "--panel"], ["--edge", "--panel"], ["--bar", "--panel"]]
  .map(([a, b]) => [ratio(colour(a), colour(b)), a, b]).sort((a, b) => a[0] - b[0])[0];
"""
SEEN = "return ['table', 'controls'].map(it => document.getElementById(it).getBoundingClientRect().bottom)"
PLACES = "return JSON.stringify([...document.querySelectorAll('.place, #controls, #word')].map(it => { const { x, y, width } = it.getBoundingClientRect(); return [x, y, width]; }))"
SMALL = """return [...document.querySelectorAll('header button, .controls button, .acts button, .lines button')].filter(it => it.getClientRects().length > 0)
  .map(it => [it.id, it.getBoundingClientRect()]).filter(([, it]) => it.width < 43.9 || it.height < 43.9).map(it => it[0])"""
# Sixteen cards in a column: each index is seen whole.
LONG = "Foundations: H-0 C-0 D-0 S-0\nKS QH JS TH 9S 8H 7S 6H 5S 4H 3S 2H KH QS JH TS\nKC QD JC TD 9C 8D 7C 6D 5C 4D 3C 2D AC AD AH AS\nKD QC JD TC 9D 8C 7D 6C 5D 4C 3D 2C\n9H 8S 7H 6S 5H 4S 3H 2S\n"
CUT = """return [...document.querySelectorAll('.columns .lying > li:not(:last-child) .card > span')].filter(it => it.getBoundingClientRect().height > it.closest('li').getBoundingClientRect().height + .6).length"""
# The places of a plot's texts that lie on each other.
OVER = """const all = [...document.querySelectorAll('#plots svg')].flatMap(it => { const told = [...it.querySelectorAll(':scope > text')].map(it => it.getBoundingClientRect());
  return told.flatMap((a, i) => told.slice(i + 1).filter(b => a.left < b.right && b.left < a.right && a.top < b.bottom && b.top < a.bottom)); }); return all.length"""


def sizes():
    """Table and controls are seen without scrolling, texts and marks stand out, and a tap moves nothing that should stay."""
    with pictures() as folder, browsers.Chromium() as page:
        for scheme in ("light", "dark"):
            for width, height in ((1280, 720), (1366, 768), (360, 740)):
                page.scheme(scheme)
                page.size(width, height)
                page.stored(BY_HAND)
                page.open("#deal=617&step=60")
                what = f"{scheme}, {width} wide"
                at_most(max(page.run(SEEN)), height, f"where table and controls end, {what}")
                same(page.run("return document.documentElement.scrollWidth"), width, f"how wide the page is, {what}")
                for script, least in ((CONTRAST, 4.5), (MARKS, 3)):
                    ratio, *where = page.run(script)
                    if ratio < least:
                        raise Wrong(f"contrast {ratio:.2f} of {where}, {what}")
                if width < 560:
                    same(page.run(SMALL), [], f"what is too small to be touched, {what}")
                before = page.run(PLACES)
                page.run("hands.touch(document.querySelector('.card.may'))")
                page.driver.save_screenshot(f"{folder}/taken-{scheme}-{width}.png")
                same(page.run(PLACES), before, f"what moves when a card is taken, {what}")
                same(page.run(NAMELESS), [], f"what has no name, {what}")
                open_board(page, LONG)
                same(page.run(CUT), 0, f"letters that are cut in a column of sixteen, {what}")
                page.driver.save_screenshot(f"{folder}/long-{scheme}-{width}.png")
                clean(page, what)
        page.size(1280)
        page.open("#deal=617&step=60", all_rows=True)
        same(page.run(OVER), 0, "texts of plots that lie on each other")
        page.picture(f"{folder}/whole-1280.png", 1280)
        page.driver.execute_cdp_cmd("Emulation.setEmulatedMedia", {"features": [{"name": "forced-colors", "value": "active"}, {"name": "prefers-reduced-motion", "value": "reduce"}]})
        page.run("hands.touch(document.querySelector('.card.may'))")
        outline = page.run("const it = getComputedStyle(document.querySelector('.card[aria-pressed=true]')); return [it.outlineStyle, it.outlineWidth]")
        same(outline, ["solid", "4px"], "what is taken, in forced colours")
        page.driver.save_screenshot(f"{folder}/forced-colours.png")
    return "three sizes in two schemes, contrast, targets, what stays where it is, forced colours: as they should be"


# Forty steps, after which the page is laid out each time; and what one of them may take, in milliseconds of the page's own thread: on a
# machine with nothing else to do it is half of that.
STEPS, COUNT, MOST = "for (let at = 1; at <= 40; at++) { store.set(it => store.to(it, at)); document.body.offsetHeight; }", 40, 20


def step(page):
    """Milliseconds of the page's thread that a step takes: the least of some tries, since others run beside."""
    def now():
        return {it["name"]: it["value"] for it in page.driver.execute_cdp_cmd("Performance.getMetrics", {})["metrics"]}["TaskDuration"]

    told = []
    for _ in range(4):
        before = now()
        page.run(STEPS)
        told.append((now() - before) / COUNT * 1000)
    return min(told)


def refuse_scripts(page):
    """A script that is put into the page doesn't run: the page's policy allows its own files alone."""
    page.open("#deal=5")
    page.run("document.body.append(Object.assign(document.createElement('script'), { textContent: 'window.wasRun = true' }))")
    page.run("document.body.insertAdjacentHTML('beforeend', '<img src=\"data:,\" onerror=\"window.wasRun = true\">')")
    page.run_async("await new Promise(done => setTimeout(done, 200))")
    same(page.run("return window.wasRun ?? null"), None, "whether another script ran")
    same(len([it for it in page.console() if "Content Security Policy" in it or "Content-Security-Policy" in it]) > 0, True, "whether the console tells it")


def times():
    """A step takes little, and little is read before the gallery is seen."""
    with browsers.Chromium(has_solver=True) as page:
        page.scheme("light")
        page.size(1280, 720)
        page.driver.execute_cdp_cmd("Performance.enable", {"timeDomain": "threadTicks"})
        page.open("#deal=617&step=1")
        at_most(step(page), MOST, "milliseconds of a step")
        read = page.run("return [...document.scripts].map(it => it.getAttribute('src')).filter(it => /^(deals\\/\\d|solver)/.test(it))")
        same(sorted(read), ["deals/501.js", "solver.js"], "what is read before the gallery is seen")
        refuse_scripts(page)
    return "a step's time, what is read at first, scripts that aren't the page's: as they should be"


if __name__ == "__main__":
    browsers.selenium()
    run({"sizes": sizes, "times": times}, sys.argv[1:])
