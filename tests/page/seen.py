"""What the page's cases have in common: what is seen, pressed and asked of it, and how it is told that it isn't so."""
import contextlib
import os
import sys
import tempfile
import urllib.parse

sys.dont_write_bytecode = True
HERE = os.path.dirname(os.path.abspath(__file__))
TOP = os.path.dirname(os.path.dirname(HERE))
sys.path.insert(0, HERE)

TWO_KINGS = "Foundations: H-J C-K D-K S-J\nFreecells: - - - -\n: QS KH\n: QH KS\n:\n:\n:\n:\n:\n:\n"
# Four cards lie on each other in the first column.
RUN = "Foundations: H-9 C-9 D-9 S-9\nKD QC JD TC\nKC QD JC TD\nKH QH JH TH\nKS QS JS TS\n"
# Nothing goes home by itself, and a tap takes a card.
BY_HAND = {"switches": {"home": False, "tap": False}}
NAMELESS = """return [...document.querySelectorAll("button, a, input, select, textarea, [role=button], [role=img]")].filter(it => it.getClientRects().length > 0
  && !(it.getAttribute("aria-label") || it.textContent.trim() || (it.labels && it.labels.length))).map(it => it.outerHTML.slice(0, 80))"""
OUTSIDE = "return performance.getEntriesByType('resource').map(it => it.name).filter(it => !it.startsWith(new URL('.', location.href).href) && !it.startsWith('blob:'))"


# Without the toolchain a share of it is tried.
FEW = bool(os.environ.get("few"))


class Wrong(Exception):
    """The page isn't as it should be."""


def same(told, wanted, what):
    if told != wanted:
        raise Wrong(f"{what}: {told!r} in place of {wanted!r}")


def has(told, wanted, what):
    if wanted not in told:
        raise Wrong(f"{what}: {told!r} lacks {wanted!r}")


def at_most(told, most, what):
    if not told <= most:
        raise Wrong(f"{what}: {told}, and at most {most} is asked")


@contextlib.contextmanager
def pictures():
    """The folder of pictures, which goes with the run where none is named."""
    if os.environ.get("page_pictures"):
        os.makedirs(os.environ["page_pictures"], exist_ok=True)
        yield os.environ["page_pictures"]
    else:
        with tempfile.TemporaryDirectory(prefix="pictures-") as folder:
            yield folder


def text(page, name):
    return page.run(f"return document.getElementById('{name}').textContent")


def rows_of_gallery(first=1):
    """Each row of one of the page's scripts, by its deal."""
    with open(os.path.join(TOP, "page", "deals", f"{first}.js"), encoding="utf-8") as it:
        lines = [line.split("\t") for line in it.read().split("`")[1].split("\n") if line]
    return {int(line[0]): line for line in lines}


def link(board, **more):
    return "#board=" + urllib.parse.quote(board) + "".join(f"&{name}={urllib.parse.quote(value)}" for name, value in more.items())


def open_board(page, board, **more):
    page.open(link(board, **more))
    page.wait("return store.now().deal === null")


def press(page, keys):
    page.driver.find_element("tag name", "body").send_keys(keys)


def click(page, name):
    page.driver.find_element("id", name).click()


def card(page, name):
    return page.driver.find_element("css selector", f"#table [aria-label='{name}']")


def at_top(page, it):
    """The pointer on the part of a card that others leave free."""
    from selenium.webdriver.common.action_chains import ActionChains

    return ActionChains(page.driver, 30).move_to_element_with_offset(it, 0, 6 - it.size["height"] // 2)


def moves(page):
    """The moves of the player's own line."""
    return page.run("return store.now().own.line.moves.join(' ')")


def clean(page, what):
    """Nothing on the console, nothing from outside, and nothing without a name."""
    same(page.console(), [], f"the console, {what}")
    same(page.run(OUTSIDE), [], f"what came from outside, {what}")
    same(page.run(NAMELESS), [], f"what has no name, {what}")


def share(works):
    """Every other of them, where a share is asked for."""
    return works[::2] if FEW else works


def run(works, names):
    """Runs the work that is named, and says what is wrong."""
    try:
        print(works[names[0]](*names[1:]))
    except Wrong as fault:
        print(fault)
        sys.exit(1)
