"""The library as WebAssembly beside the native one: boards drawn by the commit, each asked in several ways, and the same answers, byte for
byte.

usage, at the top of the repository:  compare.py node COUNT       in Node
                                      compare.py chromium COUNT   in a worker of Chromium
                                      compare.py firefox COUNT    in a worker of Firefox
                                      compare.py peak             how much memory deal 617 takes from the system within 500,000, by both

The status is 77 where what is wanted is missing here.
"""
import functools
import hashlib
import http.server
import json
import os
import random
import shutil
import subprocess
import sys
import tempfile
import threading
import time

HERE = os.path.dirname(os.path.abspath(__file__))
TOP = os.path.dirname(os.path.dirname(HERE))
sys.dont_write_bytecode = True
sys.path[:0] = [os.path.join(TOP, "lib", "python"), os.path.join(TOP, "tests", "page")]
LOST_DEALS = (11982, 146692, 186216, 455889, 495505, 512118, 517776, 781948)
WASM = os.path.join(TOP, "lib", "out", "luffaknife.wasm")
# What begins each of Node's calls: where it has memory of 64 bits, by itself or by this option.
OPTION = "--experimental-wasm-memory64"
MOST_SECONDS = 600


def skip(reason):
    print(reason)
    sys.exit(77)


def made():
    """The package over the native library of these sources, beside which the WebAssembly lies."""
    for word in ("--over", "--wasm"):
        status = subprocess.run(["lib/make", word], cwd=TOP, capture_output=True, check=False).returncode
        if status == 4:
            skip("no library stands proved here")
        if status:
            sys.exit("the library isn't built")
    os.environ["LUFFAKNIFE_LIBRARY"] = os.path.join(TOP, "lib", "out", "libluffaknife.so")
    import luffaknife

    return luffaknife


# Questions


def middle(native, draw, game):
    """A board some moves into a deal, by random moves that are allowed."""
    board = native.deal(draw.randint(1, 1_000_000))
    places = "12345678abcd"
    for _ in range(draw.randint(0, 40)):
        move = draw.choice(places) + draw.choice(places + "h")
        try:
            board = native.replay(board, move, game=native.Game(**game)).boards[0]
        except native.Refused:
            pass
    return board


def damaged(draw, text):
    """A board's text with some letters dropped, doubled or changed."""
    for _ in range(draw.randint(1, 3)):
        at = draw.randrange(len(text))
        text = text[:at] + draw.choice(["", text[at] * 2, draw.choice("AKQ2hx:-\n\u2665"), "\n" * 9]) + text[at + 1 :]
    return text


def questions_of(native, draw, number):
    """What is asked of a board: the best answer with its certificate, whether that is accepted, as it is and changed, one search, and
    lists."""
    game = {} if number % 3 else {"game": draw.choice(["freecell", "bakers"]), "kings": draw.random() < 0.3, "cells": draw.randint(0, 4)}
    if number % 25 == 24:
        board, budget = draw.choice(LOST_DEALS), draw.choice([2000, 200_000])
    elif number % 2:
        board, budget = middle(native, draw, {**({"name": game["game"], "kings": game["kings"], "cells": game["cells"]} if game else {})}), draw.choice([500, 20_000])
    else:
        board, budget = draw.randint(1, 1_000_000), draw.choice([1, 500, 5_000])
    if number % 10 == 9:
        board = damaged(draw, board if isinstance(board, str) else native.deal(board))
    yield {"call": "best", "words": [board, {**game, "budget": budget, "certificate": True}]}
    yield {"call": "check", "words": [board, game], "of": 2 * number, "change": {}}
    yield {"call": "check", "words": [board, game], "of": 2 * number, "change": {"at": draw.randrange(1 << 20), "value": draw.randrange(256)}}
    method = {"rule": draw.randint(0, 3), "bound": draw.choice(["plain", "clearing"]), "weight": draw.choice([1, 1.5, 3, 11]),
              "expansion": draw.choice(["full", "partial"]), "budget": draw.choice([0, 200, 3000])}
    yield {"call": "solve", "words": [board, {**game, **method, "certificate": True}]}
    yield {"call": "check", "words": [board, game], "of": 2 * number + 1, "change": {"length": draw.randint(0, 2000)}}
    places = "12345678abcd"
    moves = [draw.choice(places) + draw.choice(places + "h") for _ in range(draw.randint(0, 3))]
    yield {"call": "replay", "words": [board, moves, game]}
    yield {"call": "replay", "words": [board, " ".join(moves) + draw.choice(["", "v2", " xx"]), {**game, "sequences": True}]}
    yield {"call": "review", "words": [board, moves[:1], {**game, "budget": 300}]}


def drawn(native, count):
    commit = os.environ.get("commit", "none")
    draw = random.Random(commit)
    return [it for number in range(count) for it in questions_of(native, draw, number)]


# Answers of the native library


def digest(data):
    return hashlib.sha256(data).hexdigest()


def changed(certificate, change):
    made = bytearray(certificate[: change.get("length", len(certificate))])
    if "at" in change:
        made[change["at"] % len(made)] = change["value"]
    return bytes(made)


def told(native, question, certificates):
    call, (board, *rest) = question["call"], question["words"]
    options = dict(rest[-1])
    game = native.Game(options.pop("game", "freecell"), options.pop("kings", False), options.pop("cells", 4))
    if call in ("best", "solve"):
        answer = getattr(native, call)(board, game=game, **options)
        certificates.append(answer.certificate or b"")
        return [answer.kind, answer.text, answer.moves, answer.floor, answer.list, answer.budget, digest(certificates[-1])]
    if call == "check":
        certificate = certificates[question["of"]]
        claim = native.check(board, changed(certificate, question["change"] if certificate else {}), game=game)
        return [claim.kind, claim.moves, claim.floor, claim.text]
    if call == "replay":
        played = native.replay(board, rest[0], game=game, **options)
        return [played.is_won, played.boards]
    found = native.review(board, rest[0], game=game, **options)
    return [found.losing, found.kind, found.moves, found.floor, found.text]


def answers(native, questions):
    certificates, made = [], []
    for question in questions:
        try:
            made.append(told(native, question, certificates))
        except native.Refused as refused:
            if question["call"] in ("best", "solve"):
                certificates.append(b"")
            made.append(["refused", refused.reason, refused.place])
    return made


# The WebAssembly


def node():
    path = shutil.which("node") or skip("there is no node here")
    for words in ([path], [path, OPTION]):
        script = "process.exit(WebAssembly.validate(new Uint8Array([0,97,115,109,1,0,0,0,5,3,1,4,1])) ? 0 : 1)"
        if subprocess.run([*words, "-e", script], capture_output=True, check=False).returncode == 0:
            return words
    return skip("this node has no memory of 64 bits")


def in_node(questions):
    words = node()
    with tempfile.NamedTemporaryFile("w", suffix=".json", encoding="utf-8") as it:
        json.dump(questions, it)
        it.flush()
        ran = subprocess.run([*words, f"{HERE}/in_node.mjs", WASM, it.name], capture_output=True, check=True)
    return json.loads(ran.stdout), None


class Served(http.server.SimpleHTTPRequestHandler):
    """The repository, and the questions beside the page."""

    questions = b""

    def do_GET(self):
        if not self.path.endswith("/questions.json"):
            super().do_GET()
            return
        self.send_response(200)
        self.send_header("Content-Type", "application/json")
        self.end_headers()
        self.wfile.write(self.questions)

    def log_message(self, *_):
        pass


def in_browser(name, questions):
    import browsers

    browser = {"chromium": lambda: browsers.Chromium(has_solver=True), "firefox": browsers.Firefox}[name]
    with browser() as window:
        Served.questions = json.dumps(questions).encode()
        with http.server.ThreadingHTTPServer(("127.0.0.1", 0), functools.partial(Served, directory=TOP)) as server:
            threading.Thread(target=server.serve_forever, daemon=True).start()
            url = f"http://127.0.0.1:{server.server_port}/tests/wasm/in_browser.html"
            if name == "chromium":
                window.driver.get(url)
            else:
                window.ask("WebDriver:Navigate", url=url)
            end = time.monotonic() + MOST_SECONDS
            while not window.run("return window.stopped ?? window.failed ?? null"):
                if time.monotonic() > end:
                    sys.exit("no answer comes")
                time.sleep(0.2)
            failed = window.run("return window.failed ?? null")
            if failed:
                sys.exit(failed)
            result = json.loads(window.run("return window.told")), window.run("return window.stopped")
            server.shutdown()
    return result


def compare(engine, count):
    if engine == "node":
        node()
    native = made()
    questions = drawn(native, count)
    wasm, stopped = in_node(questions) if engine == "node" else in_browser(engine, questions)
    wanted = json.loads(json.dumps(answers(native, questions)))
    wrong = [it for it in zip(questions, wanted, wasm) if it[1] != it[2]]
    for question, one, other in wrong[:3]:
        print(f"{json.dumps(question):.400}\n  native {one!r:.300}\n  wasm   {other!r:.300}")
    same = len(wanted) == len(wasm) and not wrong
    print(f"{count} boards in {engine}: {'the same answers' if same else 'OTHER ANSWERS'}")
    if stopped:
        print(stopped)
    return 0 if same else 1


def peak():
    words = node()
    made()
    with tempfile.TemporaryDirectory() as room:
        subprocess.run(["cc", "-I", "lib", f"{HERE}/peak.c", "lib/out/libluffaknife.a", "-o", f"{room}/peak"], cwd=TOP, check=True)
        native = int(subprocess.run([f"{room}/peak"], capture_output=True, check=True).stdout)
    wasm = int(subprocess.run([*words, f"{HERE}/in_node.mjs", WASM], capture_output=True, check=True).stdout)
    print(f"deal 617 within 500000 takes {'at most' if wasm <= 1.3 * native else 'MORE THAN'} 1.3 times what the native library does")
    print(f"native {native}, wasm {wasm} bytes", file=sys.stderr)
    return 0


def main(words):
    if words == ["peak"]:
        return peak()
    if len(words) != 2 or words[0] not in ("node", "chromium", "firefox"):
        print("usage: compare.py node|chromium|firefox COUNT, or peak", file=sys.stderr)
        return 2
    return compare(words[0], int(words[1]))


if __name__ == "__main__":
    sys.exit(main(sys.argv[1:]))
