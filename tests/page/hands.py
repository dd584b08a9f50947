#!/usr/bin/env python3
"""The page as hands use it, in Chromium: games by keys, taps and drags, watched and won, kept from one visit to the next.

usage, at the top of the repository:
    hands.py games    a deal played and undone, cards dragged, tapped and taken by keys, where the focus stays, a list watched
    hands.py kept     both lines side by side, cards that go home by themselves, a win, what is kept, and a browser that keeps nothing

The program is the one that the environment names as fc_solve.
"""
import sys

import browsers
from seen import BY_HAND, RUN, TWO_KINGS, at_top, card, clean, click, has, moves, open_board, press, rows_of_gallery, run, same, share, text

# Scripts that the page asks for come later than it writes its link.
LATE = """
const append = Element.prototype.append;
Element.prototype.append = function (...inside) { inside[0] instanceof HTMLScriptElement ? setTimeout(() => append.apply(this, inside), 700) : append.apply(this, inside); };
"""
FOCUS = "const it = document.activeElement; return it.closest('#table') ? it.getAttribute('aria-label') : it.tagName"


def keys():
    from selenium.webdriver.common.keys import Keys

    return Keys


def chain(page):
    from selenium.webdriver.common.action_chains import ActionChains

    return ActionChains(page.driver, 30)


# Games


def play_deal(page):
    """Deal 617 is typed, played to its end by keys, and undone."""
    row = rows_of_gallery(501)[617]
    page.open("#deal=1")
    field = page.driver.find_element("id", "deal")
    field.clear()
    field.send_keys("617", keys().ENTER)
    page.wait("return store.now().deal === 617 && store.now().hasRow")
    has(text(page, "known"), f"Deal 617 is won in {row[2]} moves, and no list has fewer", "what is known of deal 617")
    same(page.run("return document.title"), "Deal 617 · Luffaknife", "the page's title")
    press(page, row[8].strip())
    same(text(page, "count"), f"{row[2]} of {row[2]}", "the count at the end")
    has(text(page, "live"), "Won.", "what is said at the end")
    has(text(page, "hands"), f"{row[2]} moves", "the moves at the end")
    same(page.run("return [...document.querySelectorAll('#top [data-place=h] .card')].map(it => it.getAttribute('aria-label')).join()"),
         "king of clubs,king of diamonds,king of hearts,king of spades", "what is home")
    press(page, "u" * int(row[2]))
    same(text(page, "count"), f"0 of {row[2]}", "the count when all is undone")
    same(page.run("return board.print(store.present(store.now()), store.now().game) === board.print(deal.dealt(617), store.now().game)"), True, "the deal when all is undone")


def drag_cards(page):
    """Cards are carried by a pointer, several at once, and put back where they may not lie."""
    open_board(page, RUN)
    to = page.driver.find_element("css selector", "[data-place='6']")
    at_top(page, card(page, "jack of diamonds")).click_and_hold().move_by_offset(20, 10).move_to_element(to).perform()
    same(page.run("return document.querySelectorAll('.ghost .card').length"), 2, "how many cards are carried")
    has(text(page, "live"), "jack of diamonds taken with 1 more: may go to column 5, column 6, column 7, column 8.", "where they may go")
    chain(page).release().perform()
    same(moves(page), "1a 16 a6", "the moves of two cards")
    same(text(page, "hands"), "your game: 3 moves, 1 by hand", "both counts")
    chain(page).drag_and_drop(card(page, "ten of spades"), card(page, "ten of hearts")).perform()
    same((text(page, "live"), page.run("return store.now().own.at")), ("put back.", 3), "a card that may not lie there")


def tap_places(page):
    """With the switch off: a card and then a place, or twice on a card."""
    open_board(page, RUN)
    at_top(page, card(page, "queen of clubs")).click().perform()
    same(page.run("return [...document.querySelectorAll('.goal')].map(it => it.dataset.place).join('')"), "5678", "where three cards may go")
    page.driver.find_element("css selector", "[data-place='5'] .slot").click()
    same(moves(page), "1a 1b 15 b5 a5", "the moves of three cards")
    chain(page).double_click(card(page, "ten of spades")).perform()
    same(page.run("return store.now().own.line.moves.at(-1)"), "4h", "twice on a card")
    click(page, "undo")
    click(page, "undo")
    same((text(page, "count"), page.run("return document.getElementById('redo').disabled")), ("0 of 6", False), "two entries undone")
    click(page, "redo")
    same(text(page, "count"), "5 of 6", "an entry done again")


def take_by_keys(page):
    """Tab and Enter take a card and lay it, and the focus stays with it; two letters that aren't allowed say why."""
    open_board(page, RUN)
    page.run("document.querySelector(\"[aria-label='ten of clubs']\").focus()")
    page.driver.switch_to.active_element.send_keys(keys().ENTER)
    has(text(page, "live"), "ten of clubs taken: may go to column 5, column 6, column 7, column 8, cell a, cell b, cell c, cell d, home.", "what is taken by Enter")
    page.run("document.querySelector(\"[data-place='h'] .card\").focus()")
    page.driver.switch_to.active_element.send_keys(keys().ENTER)
    same((moves(page), page.run(FOCUS)), ("1h", "ten of clubs"), "what is laid home by Enter, and the focus")
    for place, move in (("a", "2a"), ("5", "35")):
        page.run(f"document.querySelector(\"[data-place='{move[0]}'] li:last-child .card\").focus()")
        name = page.run(FOCUS)
        page.driver.switch_to.active_element.send_keys(keys().ENTER)
        page.run(f"document.querySelector(\"[data-place='{place}'] .slot\").focus()")
        page.driver.switch_to.active_element.send_keys(keys().ENTER)
        same((moves(page).split()[-1], page.run(FOCUS)), (move, name), f"the move {move}, and the focus")
    press(page, "uuu")
    press(page, "12")
    same(text(page, "live"), "12 would move the ten of clubs: the card may not stand on the last card there, the TD.", "why not")
    press(page, "?")
    same(page.run("return document.getElementById('help-box').open"), True, "the keys")


def await_rows(page):
    """A link's step is shown when its row comes, however late, and until then nothing is said that isn't so."""
    stop = page.before(LATE)
    page.driver.get("about:blank")
    page.driver.get(browsers.PAGE + "#deal=617&step=40")
    has(text(page, "known"), "Deal 617: looking…", "what is said before the row comes")
    page.wait("return store.shown(store.now()).at === 40")
    page.wait("return location.hash === '#deal=617&step=40'")
    stop()


def watch(page):
    """The solution is shown when it is asked for; play and pause, the slider, steps of the list; a move of one's own leaves it, and both are kept."""
    page.open("#deal=617")
    same((page.run("return document.querySelectorAll('#list li').length"), text(page, "its-line")), (0, "show the solution"), "what is seen of the solution at first")
    click(page, "its-line")
    same((page.run("return document.querySelectorAll('#list li').length"), text(page, "its-line")), (98, "the solution (98)"), "the solution, asked for")
    page.open("#deal=617&step=40")
    same(page.run("return document.querySelector('#list [aria-current=step]').dataset.at"), "40", "the present move")
    page.run("const it = document.getElementById('speed'); it.value = '8'; it.dispatchEvent(new Event('change', { bubbles: true }))")
    press(page, " ")
    page.wait("return store.shown(store.now()).at >= 43")
    press(page, " ")
    same(page.run("return store.now().isPlaying"), False, "a pause")
    page.driver.find_element("css selector", "#list button[data-at='42']").click()
    page.wait("return store.shown(store.now()).at === 42")
    page.driver.find_element("id", "slider").send_keys(keys().ARROW_RIGHT)
    same(text(page, "count"), "43 of 98", "the slider")
    page.wait("return location.hash === '#deal=617&step=43'")
    press(page, page.run("const it = store.now(), now = store.present(it); return moves.all(it.game, now).find(move => move !== it.solution.line.moves[43] && moves.settled(it.game, moves.after(now, move)).length === 0)"))
    has(text(page, "hands"), "your game: 44 moves", "a game of one's own")
    click(page, "its-line")
    same(text(page, "count"), "43 of 98", "back to the solution")
    click(page, "own-line")
    has(text(page, "hands"), "your game: 44 moves", "back to one's own game")
    click(page, "after")
    page.wait("return store.now().deal === 618")
    page.driver.back()
    page.wait("return store.now().deal === 617")
    has(text(page, "hands"), "your game: 44 moves", "one's own game after going back")
    page.driver.forward()
    page.wait("return store.now().deal === 618")


def games():
    with browsers.Chromium() as page:
        page.scheme("light")
        page.size(1280)
        page.stored(BY_HAND)
        for work in share((play_deal, drag_cards, take_by_keys, tap_places, watch, await_rows)):
            work(page)
            clean(page, work.__name__)
    return "a deal played and undone, cards dragged, tapped and taken by keys, a list watched: as they should be"


# What is kept


def tap_once(page):
    """A tap sends a card to its best place, a second one within a moment elsewhere."""
    page.stored({"switches": {"home": False}})
    open_board(page, RUN)
    at_top(page, card(page, "queen of clubs")).click().perform()
    same(moves(page), "1a 1b 15 b5 a5", "three cards go to an empty column")
    click(page, "undo")
    twice = "const it = document.querySelector(\"[aria-label='ten of spades']\"); for (let i = 0; i < arguments[0]; i++) hands.tap(it)"
    for taps, wanted in ((1, "4h"), (2, "4a"), (3, "4b"), (6, "45")):
        page.run_async("await new Promise(done => setTimeout(done, 720))")
        page.run("store.set(it => store.to(it, 0))")
        page.run(twice, taps)
        same(moves(page), wanted, f"{taps} taps")
    page.stored()


def lines_kept(page):
    """Leaving the solution for a second time keeps the game before; a link to a game of one's own keeps the row."""
    page.open("#deal=617&own=2a")
    has(text(page, "known"), "Deal 617 is won in 98 moves, and no list has fewer", "the row beside a game of one's own")
    click(page, "its-line")
    press(page, "8a")
    same((moves(page), page.run("return store.now().earlier.line.moves.join(' ')")), ("8a", "2a"), "the game before")
    click(page, "earlier")
    same(moves(page), "2a", "the game before, again")
    click(page, "its-line")
    click(page, "finish")
    page.run("store.set(it => ({ ...it, isPlaying: false }))")
    click(page, "own-line")
    same(moves(page), "2a", "one's own game, when the solution was played on")
    page.wait("return location.hash === '#deal=617&own=2a'")
    page.driver.refresh()
    page.wait("return document.readyState === 'complete' && store.now().hasRow")
    same((moves(page), "is won in 98 moves" in text(page, "known")), ("2a", True), "a game that is loaded anew")


def go_home(page):
    """Cards that nothing can want go home by themselves, with the move that freed them, and go back with it; by hand they are none."""
    open_board(page, TWO_KINGS)
    press(page, "1a")
    same(moves(page), "1a 1h 2h 2h ah", "what goes home")
    same(text(page, "hands"), "your game: 5 moves, 1 by hand: won", "moves by hand")
    press(page, "u")
    same(text(page, "count").split()[0], "0", "all is undone with it")


def counts_by_hand(page):
    """Moves are counted as the program counts them by hand."""
    page.stored(BY_HAND)
    open_board(page, TWO_KINGS)
    press(page, "1a1h2h2hah")
    same((text(page, "hands"), moves(page)), ("your game: 5 moves, 1 by hand: won", "1a 1h 2h 2h ah"), "moves by hand")
    page.stored()


def win(page):
    """A win is told over the table, with the fewest moves; all home sends what is left."""
    row = rows_of_gallery(501)[617]
    page.stored(BY_HAND)
    page.open("#deal=617")
    press(page, row[8].strip()[:-8])
    same(page.run("return document.getElementById('all-home').hidden"), False, "whether all may go home")
    click(page, "all-home")
    same(page.run("return document.getElementById('win').hidden"), False, "whether the win is told")
    has(text(page, "win-text"), "Won in 98 moves", "what is told of it")
    has(text(page, "win-text"), "No list has fewer.", "how good it is")
    has(text(page, "win-text"), "You have won 1 deal.", "how many deals are won")
    click(page, "win-next")
    page.wait("return store.now().deal === 618")
    page.stored()


def resume(page):
    """A game goes on where it was left, and switches are kept; without storage all else works."""
    for number in range(6):
        page.stored({"switches": {"home": False}})
        page.open("#deal=5")
        press(page, "2a8b")
        page.wait("return location.hash.includes('own=2a.8b')")
        page.keep()
        page.driver.get(browsers.PAGE + f"?{number}#deal=5")
        page.wait("return document.readyState === 'complete' && store.now().hasRow")
        # (a browser that has just begun loses now and then what one of its processes kept)
        if page.run("return localStorage.length > 0"):
            break
    same((moves(page), page.run("return store.now().own.at")), ("2a 8b", 2), "a game that goes on")
    click(page, "menu")
    for name in ("colours", "timer", "keys"):
        page.driver.find_element("id", f"switch-{name}").click()
    page.driver.find_element("css selector", "#menu-box .strong").click()
    page.driver.refresh()
    page.wait("return document.readyState === 'complete'")
    same(page.run("const { colours, timer, keys, home } = store.now().switches; return [colours, timer, keys, home]"), [True, True, False, False], "switches that are kept")
    same(page.run("return getComputedStyle(document.querySelector('.card.suit-C')).color !== getComputedStyle(document.querySelector('.card.suit-S')).color"), True, "four colours")
    press(page, "7c")
    same(moves(page), "2a 8b", "a key of one letter that is turned off")
    stop = page.before("Object.defineProperty(window, 'localStorage', { get() { throw new Error('refused'); } })")
    page.driver.get("about:blank")
    page.driver.get(browsers.PAGE + "#deal=5")
    page.wait("return document.readyState === 'complete' && store.now().hasRow")
    press(page, "2a")
    same(moves(page), "2a ah", "a game without storage")
    stop()
    page.stored()


def today(page):
    """Today's deal is one of those with a row; other games are dealt by the menu."""
    page.open("#deal=5")
    click(page, "menu")
    click(page, "today")
    page.wait("return store.now().deal === deal.ofDay(new Date()) && store.now().hasRow")
    page.open("#deal=5")
    click(page, "menu")
    page.run("for (const [id, value] of [['cells', '2'], ['game', 'bakers']]) document.getElementById(id).value = value; document.getElementById('cells').dispatchEvent(new Event('change'))")
    page.wait("return location.hash.startsWith('#deal=5&game=bakers&cells=2')")
    has(text(page, "known"), "Deal 5 of Baker's Game, 2 cells: no answer is kept here.", "another game")


def history(page):
    """A move that is made just before another deal is asked for stays in the history."""
    page.stored({"switches": {"home": False}})
    page.open("#deal=5")
    page.run("store.set(it => store.play(it, '2a', 1)); document.getElementById('after').click()")
    page.wait("return store.now().deal === 6")
    page.driver.back()
    page.wait("return store.now().deal === 5")
    same((moves(page), page.run("return location.hash")), ("2a", "#deal=5&own=2a"), "the game that was left")


def kept():
    with browsers.Chromium() as page:
        page.scheme("light")
        page.size(1280)
        for work in share((tap_once, lines_kept, go_home, counts_by_hand, win, today, history)):
            work(page)
            clean(page, work.__name__)
    # (in a browser of its own, where nothing else was kept)
    with browsers.Chromium() as page:
        page.size(1280)
        resume(page)
        clean(page, "resume")
    return "taps, both lines, cards that go home by themselves, a win, games and switches that are kept: as they should be"


if __name__ == "__main__":
    browsers.selenium()
    run({"games": games, "kept": kept}, sys.argv[1:])
