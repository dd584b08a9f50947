#!/usr/bin/env python3
"""The solver in the page: its words beside the proved program's, in Chromium.

usage, at the top of the repository:
    words.py games              deal 617's row, a random deal, three bad moves, a hint, a list that is played out, a worker that is stopped
    words.py boards COUNT       of COUNT boards of games, drawn by the commit, the word within 20,000 positions; page_times tells the time

The program is the one that the environment names as fc_solve. Where no browser has 64-bit memory for WebAssembly the status is 77.
"""
import os
import random
import re
import statistics
import subprocess
import sys

import browsers
from seen import Wrong, at_most, clean, click, has, moves, open_board, press, run, same, text

sys.path.insert(0, os.path.join(os.path.dirname(os.path.abspath(__file__)), "..", "hostile"))
# How many frames go by while the worker searches, each told by the time since the one before.
FRAMES = """
let last = performance.now(), frames = [];
known.ask(store.now().game, store.now().own.line, store.now().own.at, undefined);
while (frames.length < 90) { const now = await new Promise(requestAnimationFrame); frames.push(now - last); last = now; }
return frames.slice(1);
"""
WORD = """
const board_ = board.read(given[0], given[1]), from = performance.now();
const told = await engine.best(given[1], board.print(board_, given[1]), given[2]);
return [performance.now() - from, told.text];
"""
FREECELL = {"cells": 4, "isBakers": False, "isKings": False}


def ask(words, given=""):
    return subprocess.run([os.environ["fc_solve"], *words], input=given, capture_output=True, text=True, check=False).stdout


def begun(page, fragment="#deal=617"):
    page.open(fragment)
    page.wait("return engine.isThere() || engine.why() !== ''")
    if page.run("return engine.why()"):
        browsers.skip(f"no solver runs here: {page.run('return engine.why()')}")


# Games


def rows_word(page):
    """Deal 617's word is its row's, at once; that of a deal without a row is found."""
    page.driver.get("about:blank")
    page.driver.get(browsers.PAGE + "#deal=617")
    page.wait("return document.getElementById('word').textContent === 'From here: can be won in 98 moves, and in no fewer'")
    at_most(page.run("return performance.now()"), 5000, "milliseconds until deal 617's word is seen")
    at_most(page.run("return performance.getEntriesByType('paint')[0].startTime"), 5000, "milliseconds until the page is painted")
    begun(page)
    page.open("#deal=40004")
    page.wait("return /can be won in \\d+ moves/.test(document.getElementById('word').textContent)", 30)
    wanted = re.match(r"(?:shortest|won) (\d+)", ask(["best", "--budget", "500k", "40004"]))[1]
    page.wait(f"return document.getElementById('word').textContent.startsWith('From here: can be won in {wanted} moves') && !known.isThinking()", 60)


def bad_moves(page):
    """After three bad moves it is said that the game is lost, and by which move, as the program's review says."""
    reviewed = ask(["review", "617", "-"], "1a 2b 3c 4d").splitlines()[0]
    has(reviewed, "move 3, 3c ", "what the program's review says")
    begun(page, "#deal=617&own=1a.2b.3c.4d")
    page.wait("return document.getElementById('word').textContent.includes('move 3, 3c, lost it')", 60)
    same(text(page, "review"), reviewed, "what is said of it")
    click(page, "to-before")
    same(page.run("return store.now().own.at"), 2, "the step before the move that lost")


def found_at_once(page):
    """Where the words before say so, the move that lost is named without a review."""
    begun(page)
    for keys in ("1a", "2b"):
        press(page, keys)
        page.wait("return document.getElementById('word').textContent.includes('can be won in') && !known.isThinking()", 60)
    press(page, "3c")
    page.wait("return document.getElementById('word').textContent.includes('move 3, 3c, lost it')", 60)
    press(page, "4d")
    has(text(page, "word"), "move 3, 3c, lost it", "what is said behind the move that lost")


def help_out(page):
    """A hint is the next move of the best list; played out, the game is won in as many moves as were told; a move stops what is asked."""
    page.stored({"switches": {"home": False}})
    begun(page)
    press(page, "2a")
    page.wait("return !document.getElementById('hint').disabled", 30)
    press(page, "i")
    has(text(page, "live"), "hint: ", "a hint")
    hint = page.run("return store.now().hint")
    same(page.run("return document.querySelector('.card.hinted').closest('[data-place]').dataset.place"), hint[0], "where the hint is shown")
    press(page, "i")
    same(moves(page), f"2a {hint}", "the hint, played")
    page.wait("return !known.isThinking()", 60)
    count = page.run("const it = store.now(); return known.of(it.game, it.own.line, it.own.at, store.rowOf(it)).moves")
    page.run("store.set(it => ({ ...it, speed: 1000 }))")
    click(page, "finish")
    page.wait("return board.isWon(store.present(store.now()))", 30)
    same(page.run("return store.now().own.at"), 2 + count, "the moves of a game that is played out")
    begun(page, "#deal=777777")
    page.wait("return engine.isBusy()", 30)
    press(page, page.run("return moves.all(store.now().game, store.present(store.now()))[0]"))
    page.wait("return document.getElementById('word').textContent.startsWith('From here: ') && !known.isThinking()", 60)
    key = page.run("const it = store.now(); return board.print(store.present(it), it.game)")
    word = ask(["best", "--budget", "500k", "-"], key).splitlines()[0]
    has(text(page, "word"), f"in {re.search(r'[0-9]+', word)[0]} moves" if word[0] in "sw" else "can't be won", "the word after a move that stopped another search")
    page.stored()


def smooth(page):
    """The page draws on while the worker searches."""
    begun(page, "#deal=40004")
    frames = page.run_async(FRAMES)
    at_most(statistics.median(frames), 100, "milliseconds from frame to frame while the worker searches")


def unable(page):
    """Where the browser has no 64-bit memory, or no file of the solver, that is said, and all else is as it was."""
    stop = page.before("WebAssembly.validate = () => false")
    page.open("#deal=40004")
    has(text(page, "word"), "This browser has no 64-bit memory", "what is said without memory")
    page.open("#deal=617")
    same(text(page, "word"), "From here: can be won in 98 moves, and in no fewer", "a row without a solver")
    stop()


def games():
    with browsers.Chromium(has_solver=True) as page:
        page.scheme("light")
        page.size(1280)
        for work in (rows_word, bad_moves, unable) + (() if os.environ.get("few") else (found_at_once, help_out, smooth)):
            work(page)
            clean(page, work.__name__)
    return "a row's word, a random deal's, a lost game's" + ("" if os.environ.get("few") else ", a hint, a game played out, a search that is stopped") + ": as they should be"


# Boards of games


def drawn(count):
    """Boards of games: deals drawn by the commit, 1 to 20 random moves from the start, or from a board of a list."""
    draw = random.Random(os.environ["commit"])
    for number in range(count):
        deal = draw.randint(1, 1_000_000 if number % 2 else 32_000)
        yield deal, number % 2 == 0 and draw.random() < .5, draw.randint(1, 20), draw.randint(1, 2**31 - 1)


MIDDLE = """
const game = given[1], told = [];
for (const [number, isOfList, length, first] of given[0]) {
  let seed = first, now = deal.dealt(number);
  const next = () => (seed = (Math.imul(seed, 1103515245) + 12345) & 0x7fffffff) >>> 8;
  const steps = isOfList ? rows.of(number)?.list.match(/../g) ?? [] : [];
  for (const move of steps.slice(0, next() % (steps.length + 1))) now = moves.after(now, move);
  for (let i = 0; i < length; i++) { const all = moves.all(game, now); if (all.length) now = moves.after(now, all[next() % all.length]); }
  told.push(board.print(now, game));
}
return told;
"""


def boards(count):
    with browsers.Chromium(has_solver=True) as page:
        begun(page)
        page.run("rows.askAll()")
        page.wait("return rows.isWhole()")
        given, wrong, times = page.run_async(MIDDLE, list(drawn(int(count))), FREECELL), [], []
        for board in given:
            seconds, word = page.run_async(WORD, board, FREECELL, 20000)
            times.append(seconds)
            if word != ask(["best", "--budget", "20k", "-"], board):
                wrong.append(board)
    if os.environ.get("page_times"):
        print(f"seconds, in the median: {statistics.median(times) / 1000:.2f}, at most {max(times) / 1000:.2f}", file=sys.stderr)
    if wrong:
        raise Wrong(f"the words of {len(wrong)} boards of games aren't the program's: {wrong[0]!r}")
    return f"the words of {len(given)} boards of games: those of the program"


if __name__ == "__main__":
    browsers.selenium()
    run({"games": games, "boards": boards}, sys.argv[1:])
