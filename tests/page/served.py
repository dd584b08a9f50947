#!/usr/bin/env python3
"""The page in Firefox from its folder, and in Chromium from a web server that then ends.

usage, at the top of the repository:  served.py firefox | offline

The program is the one that the environment names as fc_solve.
"""
import functools
import http.server
import os
import re
import subprocess
import sys
import threading
import time

import browsers
from seen import OUTSIDE, TOP, clean, has, moves, pictures, rows_of_gallery, run, same, text


def until(page, condition, seconds=30):
    end = time.monotonic() + seconds
    while not page.run(condition):
        if time.monotonic() > end:
            raise TimeoutError(condition)
        time.sleep(0.02)


def in_firefox():
    """A deal typed, played and undone; the solver's words; a filter."""
    row = rows_of_gallery(501)[617]
    with pictures() as folder, browsers.Firefox() as page:
        page.open("#deal=1")
        page.click("#menu")
        page.click("#switch-home")
        page.click("#menu-box .strong")
        page.run("document.getElementById('deal').value = ''")
        page.type("#deal", "617\ue007")
        until(page, "return document.getElementById('known').textContent.includes('Deal 617 is won')")
        has(text(page, "known"), f"Deal 617 is won in {row[2]} moves, and no list has fewer", "what is known of deal 617")
        same(text(page, "word"), f"From here: can be won in {row[2]} moves, and in no fewer", "the word of deal 617")
        page.type("body", row[8].strip())
        same(text(page, "count"), f"{row[2]} of {row[2]}", "the count at the end")
        has(text(page, "live"), "Won.", "what is said at the end")
        page.picture(f"{folder}/firefox.png")
        page.click("#win-close")
        page.type("body", "u" * int(row[2]))
        same(text(page, "count"), f"0 of {row[2]}", "the count when all is undone")
        page.type("body", "1a2b3c4d")
        until(page, "return document.getElementById('word').textContent.includes('move 3, 3c, lost it')", 90)
        ran = subprocess.run([os.environ["fc_solve"], "review", "617", "-"], input="1a 2b 3c 4d", capture_output=True, text=True, check=False)
        same(text(page, "review"), ran.stdout.splitlines()[0], "what the program's review says")
        page.open("#deal=5&step=x")
        until(page, "return document.getElementById('known').textContent.includes('Deal 5 is won')")
        same(text(page, "deal-fault"), "the link's step, x, is no number", "what is wrong with the link")
        page.run("document.getElementById('plots').scrollIntoView()")
        until(page, "return document.querySelectorAll('#rows tr').length > 0")
        page.run("document.querySelector('.bar[data-field=moves][data-value=\"80\"]').dispatchEvent(new MouseEvent('click', { bubbles: true }))")
        same(page.run("return [...document.querySelectorAll('#rows td:nth-child(3)')].every(it => it.textContent === '80')"), True, "the rows that pass")
        same(page.run(OUTSIDE), [], "what came from outside")
        same(page.console(), [], "the console")
    return "a deal played and undone, the solver's words, and a filter, in Firefox: as they should be"


class Quiet(http.server.SimpleHTTPRequestHandler):
    """A server of files that says nothing."""

    def log_message(self, *_):
        pass


def offline():
    """From a web server the page has a manifest, and when it was there once it opens without the server: each of its files is kept."""
    with open(os.path.join(TOP, "page", "index.html"), encoding="utf-8") as page, open(os.path.join(TOP, "page", "offline.js"), encoding="utf-8") as it:
        kept = re.findall(r'"([^"]+)"', it.read().split("PAGE = [")[1].split("]")[0])
        same([name for name in re.findall(r'<(?:script src|link rel="(?:stylesheet|icon)" href)="([^"]+)"', page.read()) if name not in kept], [], "files that aren't kept")
    with browsers.Chromium(has_solver=True) as page:
        server = http.server.ThreadingHTTPServer(("127.0.0.1", 0), functools.partial(Quiet, directory=TOP))
        threading.Thread(target=server.serve_forever, daemon=True).start()
        address = f"http://127.0.0.1:{server.server_address[1]}/page/index.html"
        page.driver.get(f"{address}#deal=617")
        page.wait("return document.readyState === 'complete' && store.now().hasRow")
        page.run_async("await navigator.serviceWorker.ready; await fetch('manifest.webmanifest').catch(() => {}); await new Promise(done => setTimeout(done, 500));")
        same(page.run("return document.querySelector('link[rel=manifest]').getAttribute('href')"), "manifest.webmanifest", "the manifest")
        page.driver.get(f"{address}?again#deal=617")
        page.wait("return document.readyState === 'complete' && store.now().hasRow && engine.isThere()")
        server.shutdown()
        server.server_close()
        page.driver.get("about:blank")
        page.driver.get(f"{address}?again#deal=617")
        page.wait("return document.readyState === 'complete' && store.now().hasRow && engine.isThere()")
        has(text(page, "known"), "Deal 617 is won in 98 moves", "what is known without a server")
    return "a page that was served once opens without its server"


if __name__ == "__main__":
    if sys.argv[1] != "firefox":
        browsers.selenium()
    run({"firefox": in_firefox, "offline": offline}, sys.argv[1:])
