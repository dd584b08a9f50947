#!/usr/bin/env python3
"""The page's links, boards that are pasted into it, and its gallery, in Chromium.

usage, at the top of the repository:
    links.py opened     links to deals, boards, lists and games of one's own, and links that lie
    links.py printed    links that the program prints, of deals, a board typed in rows, a hint, a replay and a review
    links.py pasted     a board with a fault, boards in rows, long texts and long lists
    links.py gallery    filters, plots, presets, links to what is chosen, and its table as a file

The program is the one that the environment names as fc_solve.
"""
import os
import subprocess
import sys
import urllib.parse

import browsers
from seen import BY_HAND, FEW, TWO_KINGS, at_most, clean, click, has, link, moves, open_board, press, rows_of_gallery, run, same, share, text

FAULTY = "JD KD 2S 4C 3S 6D 6S\n2D KC KS 5C TD 8S 9C\n9H 9S 9D TS 4S 8D 2H\nJC 5S QD QX TH QS 6H\n"
NO_WORDS = "shortest", "won", "can't be won", "gave up"


def keys():
    from selenium.webdriver.common.keys import Keys

    return Keys


def ask(words, given=""):
    return subprocess.run([os.environ["fc_solve"], *words], input=given, capture_output=True, text=True, check=False)


# Links


def open_list(page):
    """A link with a board, a list and a floor shows the answer."""
    open_board(page, TWO_KINGS, list="13 1h 2h 2h 3h", floor="5")
    has(text(page, "known"), "This board is won in 5 moves, and no list has fewer", "what is known of the link")
    press(page, keys().ARROW_RIGHT)
    same((text(page, "count"), text(page, "live")), ("1 of 5", "king of hearts from column 1 to the empty column 3."), "the first move of the link")
    press(page, keys().END)
    has(text(page, "live"), "Won.", "what is said at the end of the link")


def other_links(page):
    """Deals without a row, numbers that are none, another game, a list with a step that isn't allowed, packed lists and drawn boards."""
    page.open("#deal=999999")
    has(text(page, "known"), "./fc_solve best --budget max 999999", "the command of a deal without a row")
    for told, fault in (("1000001", "deal number 1000001 is outside 1 to 1000000"), ("0", "deal number 0 is outside 1 to 1000000"), ("1e3", "1e3 is no deal's number"), ("x", "x is no deal's number")):
        page.open(f"#deal={told}")
        same((text(page, "deal-fault"), page.run("return store.now().deal")), (fault, 617), f"the deal {told}")
    field = page.driver.find_element("id", "deal")
    field.clear()
    field.send_keys("1e3", keys().ENTER)
    same((text(page, "deal-fault"), page.run("return store.now().deal")), ("1e3 is no deal's number", 617), "1e3, typed")
    open_board(page, TWO_KINGS, list="131h2h2h3h")
    has(text(page, "known"), "This board is won in 5 moves.", "a packed list")
    page.open(link(TWO_KINGS) + "&list=13+1h+3x")
    page.wait("return store.now().deal === null")
    has(text(page, "known"), "step 3: not a move\nentry 3, line 1: '3x' is no move", "a step that is none")
    open_board(page, TWO_KINGS.replace(" - -\n", "\n"), list="13 1h 2h 2h 3h", game="bakers", kings="1", cells="2")
    has(text(page, "known"), "This board of Baker's Game, kings alone on empty columns, 2 cells is won in 5 moves.", "another game")
    page.open("#deal=146692&answer=can't+be+won")
    has(text(page, "known"), "Deal 146692 can't be won: so its answer says.", "an answer without a list")
    page.open("#deal=999999&answer=gave+up&floor=70")
    has(text(page, "known"), "Deal 999999: no list was found, and none that wins has fewer than 70 moves: so its answer says.", "an answer that gave up")
    open_board(page, ask(["show", "1"]).stdout)
    same(page.run("return board.print(store.now().start, store.now().game) === board.print(deal.dealt(1), store.now().game)"), True, "a drawn board")
    page.open(link(FAULTY))
    same(page.run("return document.getElementById('paste-box').open"), True, "a link with a fault")


def told_by(page):
    """What is known, and what is wrong with the link."""
    return page.run("return document.querySelector('#known .sentence').textContent"), text(page, "deal-fault")


def wrong_links(page):
    """What is no number is told and passed over; what a link claims stands neither above a deal's own row nor against its list."""
    rows = {**rows_of_gallery(), **rows_of_gallery(501)}
    own = {deal: f"Deal {deal} is won in {rows[deal][2]} moves, and no list has fewer: shown within {rows[deal][4]} positions." for deal in (5, 617)}
    same([rows[5][1], rows[617][1]], ["shortest", "shortest"], "what the rows of both deals say")
    for fragment, sentence, fault in (
            ("#deal=5&step=x", own[5], "the link's step, x, is no number"), ("#deal=5&step=abc", own[5], "the link's step, abc, is no number"),
            ("#deal=5&step=1.5", own[5], "the link's step, 1.5, is no number"), ("#deal=5&step=-1", own[5], "the link's step, -1, is no number"),
            ("#deal=5&step=NaN", own[5], "the link's step, NaN, is no number"), ("#deal=617&floor=NaN", own[617], "the link's floor, NaN, is no number"),
            ("#deal=617&floor=abc", own[617], "the link's floor, abc, is no number"), ("#deal=617&floor=7", own[617], ""),
            ("#deal=617&answer=can't+be+won", own[617], ""), ("#deal=617&answer=gave+up", own[617], ""),
            ("#deal=617&answer=perhaps", own[617], "the link's answer, perhaps, is none"),
            ("#deal=617&list=2a&floor=90", own[617], ""), ("#deal=617&own=2a", own[617], ""),
            ("#deal=999999&floor=abc", "Deal 999999: no answer is kept here.", "the link's floor, abc, is no number"),
            (link(TWO_KINGS, list="13 1h 2h 2h 3h", floor="abc"), "This board is won in 5 moves.", "the link's floor, abc, is no number"),
            (link(TWO_KINGS, list="13 1h 2h 2h 3h", floor="6"), "This board is won in 5 moves.", "the link's floor, 6, is refuted by its list"),
            (link(TWO_KINGS, list="13 1h 2h 2h 3h", floor="4"), "This board is won in 5 moves, and no list has fewer than 4: so its answer says.", ""),
            (link(TWO_KINGS, list="13 1h 2h 2h 3h", answer="can't be won"), "This board is won in 5 moves.", "the link's answer, can't be won, is refuted by its list")):
        page.open(fragment)
        same(told_by(page), (sentence, fault), f"the link {fragment}")
        deal = urllib.parse.parse_qs(fragment[1:]).get("deal")
        same(page.run("return [store.now().deal, store.now().isWatching ? store.shown(store.now()).at : 0]"), [deal and int(deal[0]), 0], f"what the link {fragment} shows")


def opened():
    with browsers.Chromium() as page:
        page.stored(BY_HAND)
        for work in share((open_list, other_links, wrong_links)):
            work(page)
            clean(page, work.__name__)
    return "links to deals, boards, lists and games, and links that lie: as they should be"


# Links that are printed: deals of each answer, and a board as it is typed in rows.

LINKED_DEALS = (617, 11982) if os.environ.get("few") else (1, 5, 27, 31, 164, 617, 941, 11982)
IN_ROWS = "Foundations: H-J C-K D-K S-J\nQS QH -- -- -- -- -- --\nKH KS -- -- -- -- -- --\n"


def told_with_link(words, given=""):
    """What the program prints, and the link at its end."""
    *told, link = ask([*words, "--link"], given).stdout.splitlines()
    same(link.split("#")[0], f"file://{os.environ['FC_SOLVE_PAGE']}", f"the page of {words}")
    return told, "#" + link.partition("#")[2]


def printed():
    """Each link opens at its answer, with the list, which wins at its end."""
    os.environ["FC_SOLVE_PAGE"] = "/somewhere/page/index.html"
    asked = [(["best", "--quiet", str(it)], "") for it in LINKED_DEALS] + [(["best", "--rows", "-"], IN_ROWS), (["hint", "--rows", "-"], IN_ROWS)]
    asked += [(["solve", "--bound", "clearing", "941"], ""), (["replay", "--expanded", "617", "-"], "2a 2b"), (["review", "--budget", "20k", "617", "-"], "2a 2b")]
    with browsers.Chromium() as page:
        for words, given in asked:
            told, fragment = told_with_link(words, given)
            page.open(fragment)
            if told[0] == "can't be won":
                has(text(page, "known"), "can't be won", f"what is known by {words}")
                continue
            moves = urllib.parse.parse_qs(fragment[1:])["list"][0].split()
            same(text(page, "count"), f"0 of {len(moves)}", f"the count of {words}")
            press(page, keys().END)
            same(text(page, "count"), f"{len(moves)} of {len(moves)}", f"the count at the end of {words}")
            if words[0] not in ("replay", "review"):
                has(text(page, "live"), "Won.", f"what is said at the end of {words}")
        same(page.console(), [], "the console")
    return f"links of {len(LINKED_DEALS)} deals, of a board in rows, of a hint, a replay and a review: each opens at its answer"


# Boards that are pasted


def paste(page, board, moves=""):
    page.open("#deal=5")
    click(page, "menu")
    click(page, "paste")
    page.run("document.getElementById('board-text').value = arguments[0]; document.getElementById('list-text').value = arguments[1]", board, moves)
    page.driver.find_element("css selector", "#paste-form .strong").click()


def paste_fault(page):
    """A board with a fault is told as the program tells it, at the card."""
    paste(page, FAULTY)
    told = ask(["show"], FAULTY).stderr.replace("fc_solve: ", "")
    same(page.run("return [...document.querySelectorAll('#board-fault p')].map(it => it.textContent + '\\n').join('')"), told, "the fault")
    same(page.run("return document.querySelector('#board-fault mark').textContent"), "QX", "the card of the fault")
    same(page.run("const it = document.getElementById('board-text'); return it.value.slice(it.selectionStart, it.selectionEnd)"), "QX", "what is chosen in the text")


def paste_rows(page):
    """Deal 617 as it is typed in rows of 8, 8, 8, 8, 8, 8 and 4 is a board in columns too: it is asked which is meant. In columns it isn't."""
    rows = "\n".join(line.strip() for line in ask(["show", "617", "--plain"]).stdout.splitlines()) and "\n".join(
        line.strip() for line in ask(["show", "617"]).stdout.splitlines()[-7:])
    printed = "return board.print(store.now().start, store.now().game) === board.print(deal.dealt(617), store.now().game)"
    for choice, is_deal in (("as-rows", True), ("as-columns", False)):
        paste(page, rows)
        same(page.run("return [document.getElementById('paste-box').open, document.getElementById('board-ask').hidden]"), [True, False], "whether it is asked")
        has(text(page, "board-asked"), "another one in rows", "what is asked")
        click(page, choice)
        page.wait("return store.now().deal === null")
        same(page.run(printed), is_deal, f"the board, {choice}")
    paste(page, ask(["deal", "617"]).stdout)
    page.wait("return store.now().deal === null")
    same(page.run(printed), True, "the deal in columns, of which nothing is asked")


def long_texts(page):
    """Of a megabyte no more than a line is said; a list of 20,000 moves takes no more than its length asks."""
    paste(page, "JD " + "Q" * 1_000_000)
    at_most(len(text(page, "board-fault")), 700, "how long the fault of a megabyte is")
    paste(page, ask(["deal", "617"]).stdout, "2a " + "x" * 1_000_000)
    at_most(len(text(page, "list-fault")), 700, "how long the fault of a long list is")
    page.open("#deal=617&floor=" + "x" * 100_000)
    at_most(len(text(page, "deal-fault")), 200, "how long the fault of a long link is")
    open_board(page, TWO_KINGS, list="1334" + "4334" * 9_999)
    page.wait("return store.now().own.line.moves.length === 20000")
    told = page.run("const from = performance.now(); store.set(it => store.to(it, 19999)); store.set(it => store.to(it, 1)); return [performance.now() - from, document.querySelectorAll('#list li').length]")
    at_most(told[0], 5000, "milliseconds of two steps in a list of 20,000")
    at_most(told[1], 400, "how many moves of it are shown")
    at_most(page.run("const from = performance.now(); list.read(store.now().game, store.now().start, '13' + '3443'.repeat(9999)); return performance.now() - from"), 5000, "milliseconds of reading it")


def pasted():
    with browsers.Chromium() as page:
        for work in (paste_fault, paste_rows) if FEW else (paste_fault, paste_rows, long_texts):
            work(page)
            clean(page, work.__name__)
    return "boards with faults, in rows, long texts and lists: as they should be"


# The gallery


def filters(page):
    """A bar and a field filter the rows; what is chosen stands in the link, and is a table."""
    rows = rows_of_gallery()
    page.open("#deal=5", all_rows=True)
    total = page.run("return rows.all().length.toLocaleString('en')")
    page.run("document.querySelector('.bar[data-field=moves][data-value=\"80\"]').dispatchEvent(new MouseEvent('click', { bubbles: true }))")
    page.driver.find_element("name", "to deal").send_keys("500")
    count = sum(it[2] == "80" for it in rows.values())
    same(text(page, "found"), f"{count} of {total} deals", "how many deals pass")
    same(page.run("return [...document.querySelectorAll('#rows td:nth-child(3)')].every(it => it.textContent === '80')"), True, "the rows that pass")
    page.wait("return location.hash === '#deal=5&deals=-500&moves=80-80'")
    told = page.run("return rows.tsv(rows.chosen(store.now().view.filter, 'deal', false))").splitlines()
    same(told, ["deal\tanswer\tmoves\tfloor\tbudget\tlist", *("\t".join(it[:5] + it[8:]) for it in rows.values() if it[2] == "80")], "the table")
    page.open("#deal=5&deals=-500&moves=80-80&sort=-gap&page=2", all_rows=True)
    same((text(page, "found"), text(page, "pages")[:6]), (f"{count} of {total} deals", "page 2"), "what is chosen, by its link")
    click(page, "clear")
    same(text(page, "found"), f"{total} of {total} deals", "how many deals there are")


def presets(page):
    """The hardest that are shown, the easiest, the lost ones; how hard a deal is."""
    page.open("#deal=617", all_rows=True)
    first = "return [...document.querySelector('#rows tr').children].map(it => it.textContent)"
    told = page.run("const it = rows.all().filter(it => it.answer === 'shortest').map(it => it.moves); return [Math.max(...it), Math.min(...it), it.filter(it => it < 98).length / it.length]")
    for name, most in (("hardest", told[0]), ("easiest", told[1])):
        click(page, name)
        same(page.run(first)[1:3], ["shortest", str(most)], f"the first row of the {name}")
    click(page, "lost")
    same(page.run(first)[:2], ["11982", "can't be won"], "the first that is lost")
    has(text(page, "known"), f"more than those of {int(100 * told[2])} % of the deals", "how hard deal 617 is")
    for name in ("gap", "floor", "within", "moves"):
        has(page.run("return document.querySelector('#gallery dl').textContent"), name, "what is explained")
    same(page.run("return [...document.querySelectorAll('footer a')].filter(it => it.getAttribute('href').startsWith('../')).length"), 6, "links to what is told elsewhere")
    for href in page.run("return [...document.querySelectorAll('footer a')].map(it => it.getAttribute('href'))"):
        same(os.path.exists(os.path.join(os.path.dirname(browsers.PAGE.removeprefix("file://")), href)), True, f"whether {href} is there")


def gallery():
    with browsers.Chromium() as page:
        page.size(1280)
        for work in (filters, presets):
            work(page)
            clean(page, work.__name__)
    return "filters, presets, links to what is chosen and a table of it: as they should be"


if __name__ == "__main__":
    browsers.selenium()
    run({"opened": opened, "printed": printed, "pasted": pasted, "gallery": gallery}, sys.argv[1:])
