#!/usr/bin/env python3
"""The page's own rules beside the proved program's: the page is opened in Chromium, and what its script says is compared with what the
program, which the environment names as fc_solve, prints.

usage, at the top of the repository:
    rules.py deals LAST          deals 1 to LAST, by the digest of all their texts
    rules.py boards COUNT        each board on the way of the lists of the first COUNT rows, by digests
    rules.py moves COUNT SEED    on so many random ways each board, and of one board of every other way which moves are allowed from it
    rules.py every COUNT SEED    of each of these boards which moves are allowed from it, by the proved library: 77 where none stands here
    rules.py faults              texts that are refused: what is said of each, and what it lies at
    rules.py answers DEAL..      what the program answers of deals, in letters, words, boards and entries, and lists that are refused
"""
import ctypes
import hashlib
import importlib.util
import io
import json
import os
import random
import subprocess
import sys
from contextlib import redirect_stdout

HERE = os.path.dirname(os.path.abspath(__file__))
TOP = os.path.dirname(os.path.dirname(HERE))
sys.dont_write_bytecode = True
sys.path[:0] = [HERE, os.path.join(TOP, "tests", "hostile"), os.path.join(TOP, "lib", "python")]
import browsers

browsers.selenium()
import runs

PLACES = "12345678abcd"
GAME = "const game = { cells: 4, isBakers: false, isKings: false };"


def said(words, given=b"", files=()):
    return runs.program().run(words, given, files)


def digest(content):
    return hashlib.sha256(content).hexdigest()


def parts(count, size):
    return [range(first, min(first + size, count + 1)) for first in range(1, count + 1, size)]


# Deals


def dealt(numbers):
    return b"".join(said(["deal", str(number)]).out for number in numbers)


def deals(last):
    wanted = digest(b"".join(runs.side_by_side(dealt, parts(int(last), 500))))
    with browsers.Chromium() as page:
        page.open()
        told = page.run_async("""
            let text = "";
            for (let number = 1; number <= given[0]; number++) for (const column of deal.dealt(number).columns) text += column.map(cards.name).join(" ") + "\\n";
            const digest = await crypto.subtle.digest("SHA-256", new TextEncoder().encode(text));
            return [...new Uint8Array(digest)].map(it => it.toString(16).padStart(2, "0")).join("");""", int(last))
    print(f"deals 1 to {last}: {'the same' if told == wanted else 'NOT THE SAME'}")
    return told == wanted


# Boards on the way of lists


def replayed(task):
    """The digest of the boards of a list, and how it ended."""
    deal, moves = task
    ran = said(["replay", "--must-win", str(deal), "-"], moves.encode())
    return digest(ran.out) if ran.status == 0 else ran.fault()


def boards(count):
    with browsers.Chromium() as page:
        page.open(all_rows=True)
        given = page.run_async(GAME + """
            const told = [];
            for (const row of rows.all().filter(it => it.list !== "").slice(0, given[0])) {
              const { line } = list.read(game, deal.dealt(row.deal), row.list), text = line.boards.slice(1).map(it => board.print(it, game)).join("");
              const digest = await crypto.subtle.digest("SHA-256", new TextEncoder().encode(text));
              told.push([row.deal, line.moves.join(" "), [...new Uint8Array(digest)].map(it => it.toString(16).padStart(2, "0")).join(""), row.moves]);
            }
            return told;""", int(count))
    wanted = runs.side_by_side(replayed, [(deal, moves) for deal, moves, *_ in given])
    wrong = [deal for (deal, moves, told, number), it in zip(given, wanted) if told != it or len(moves.split()) != number]
    print(f"the boards of {len(given)} lists: {'the same' if not wrong else f'NOT THE SAME, of deals {wrong}'}")
    return not wrong and len(given) == int(count)


# Random ways


def candidates():
    return [source + target for source in PLACES for target in PLACES + "h"]


def wrong_moves(task):
    """What is wrong with the boards of a way, or with the moves that are allowed from one of them, if one is named."""
    deal, moves, texts, allowed, at = task
    ran = said(["replay", str(deal), "-"], " ".join(moves).encode())
    if ran.out.decode() != "".join(texts[1:]):
        return f"deal {deal}: another board on the way of {moves}"
    for move in candidates() if at is not None else []:
        ran = said(["replay", "--expanded", "-", "/dev/fd/3"], texts[at].encode(), [move.encode()])
        if (ran.status == 0) != (move in allowed[at]):
            return f"deal {deal}, board {at}: {move}: {ran.fault()}\n{texts[at]}"
    return None


def ways(count, seed):
    """Random ways from random deals: the deal, the moves, the boards, the moves that are allowed from each, and of every other way one of the boards."""
    numbers = random.Random(seed)
    asked = [[numbers.randint(1, 1000000), numbers.randint(1, 2**31 - 1), numbers.randint(20, 60)] for _ in range(count)]
    with browsers.Chromium() as page:
        page.open()
        told = page.run_async(GAME + """
            return given[0].map(([number, seed, length]) => {
              const texts = [], steps = [], all = [];
              for (let at = 0, now = deal.dealt(number); ; now = moves.after(now, steps[at++])) {
                texts.push(board.print(now, game));
                all.push(moves.all(game, now));
                seed = (Math.imul(seed, 1103515245) + 12345) & 0x7fffffff;
                if (at === length || all[at].length === 0) return [number, steps, texts, all];
                steps.push(all[at][(seed >>> 8) % all[at].length]);
              }
            });""", asked)
    return [(*it, numbers.randrange(len(it[2])) if number % 2 == 0 else None) for number, it in enumerate(told)]


def moves(count, seed):
    wrong = [it for it in runs.side_by_side(wrong_moves, ways(int(count), seed)) if it]
    print(f"seed {seed}: the boards of {count} random ways, and the moves that are allowed: {'the same' if not wrong else 'NOT THE SAME'}")
    print("".join(f"{it}\n" for it in wrong[:5]), end="")
    return not wrong


def wrong_by_library(way):
    """What is wrong with the moves that are allowed from each board of a way, as the library says."""
    from luffaknife import calls

    deal, _, texts, allowed, _ = way
    size = ctypes.c_size_t(4096)
    game, room, tried = calls.Game(0, 4), ctypes.create_string_buffer(size.value), [(it, it.encode()) for it in candidates()]
    for at, text in enumerate(texts):
        board = calls.handed(text.encode())
        told = [move for move, it in tried if calls.call("replay", game, *board, *calls.handed(it), room, size).status <= 3]
        if told != allowed[at]:
            return f"deal {deal}, board {at}: {told}, {allowed[at]}\n{text}"
    return None


def every(count, seed):
    made = subprocess.run(["lib/make", "--over"], cwd=TOP, capture_output=True, check=False).returncode
    if made == 4:
        browsers.skip("no library stands proved here")
    os.environ["LUFFAKNIFE_LIBRARY"] = os.path.join(TOP, "lib", "out", "libluffaknife.so")
    given = ways(int(count), seed)
    wrong = [it for it in runs.side_by_side(wrong_by_library, given) if it]
    print(f"seed {seed}: the moves that are allowed from {sum(len(it[2]) for it in given)} boards of {count} random ways: {'the same' if not wrong else 'NOT THE SAME'}")
    print("".join(f"{it}\n" for it in wrong[:5]), end="")
    return not wrong


# Faults


def texts():
    """The texts of cases that are refused, and some that are read."""
    with redirect_stdout(io.StringIO()):
        spec = importlib.util.spec_from_file_location("table", os.path.join(TOP, "cases", "boards", "faults-name-their-place", "table.py"))
        table = importlib.util.module_from_spec(spec)
        spec.loader.exec_module(table)
    yield from (text for text, *_ in table.ROWS)
    for name in ("faulty-cards", "faulty-lines", "faulty-cells", "spelled-tens", "spelled-foundations", "spelled-empty-columns"):
        path = os.path.join(TOP, "tests", "rows", f"{name}.tsv")
        with open(path, encoding="utf-8") as it:
            lines = it.read().splitlines()
        at = None
        for line in lines:
            words = line.split("\t")
            if words[0] == "columns":
                at = words.index("in") - 1 if "in" in words else None
            elif at is not None and words[0] not in ("#", "let", "use", "run", "also") and not line.startswith("#"):
                cell = words[at] if at < len(words) else ""
                if not cell.startswith("@"):
                    yield cell.encode("raw_unicode_escape").decode("unicode_escape")


def row_texts():
    """The texts in rows of cases, read and refused."""
    for name in ("faults-of-rows", "rows-by-their-places", "rows-may-be-short"):
        with open(os.path.join(TOP, "tests", "rows", f"{name}.tsv"), encoding="utf-8") as it:
            lines = it.read().splitlines()
        at = None
        for words in (line.split("\t") for line in lines if not line.startswith("#")):
            if words[0] == "columns":
                at = words.index("in") - 1
            elif at is not None and words[0] not in ("let", "use", "run", "also") and not words[at].startswith("@"):
                yield words[at].encode("raw_unicode_escape").decode("unicode_escape")


def told_of_rows(text):
    ran = said(["show", "--rows", "--plain"], text.encode())
    return ran.out.decode() or ran.fault().replace("fc_solve: ", "")


def told_of(text):
    ran = said(["show", "--plain"], text.encode())
    return ran.out.decode() or ran.err.decode().replace("fc_solve: ", "").replace("--guess adds it\n", "")


def faults():
    given = [*dict.fromkeys(texts())]
    with browsers.Chromium() as page:
        page.open()
        told = page.run(GAME + """return arguments[0].map(text => {
            const it = board.read(text, game);
            return board.isFault(it) ? [`board: ${it.says}\\n${it.note}\\n`, it.spots.map(({ from, to }) => text.slice(from, to))] : [board.print(it, game), []];
          });""", given)
        in_rows = [*dict.fromkeys(row_texts())]
        told_in_rows = page.run(GAME + """return arguments[0].map(text => {
            const it = board.read(text, game, true);
            return board.isFault(it) ? `board: ${it.says}` : board.print(it, game);
          });""", in_rows)
    wrong = 0
    for text, says in zip(in_rows, told_in_rows):
        wanted = told_of_rows(text)
        if wanted != says:
            wrong += 1
            print(f"in rows {json.dumps(text)}\nsays {says!r}\nin place of {wanted!r}")
    for text, wanted, (says, spots) in zip(given, map(told_of, given), told):
        lies = [it for it in spots if it.strip() == it and it] == spots
        if wanted != says or not lies and "repeated" not in says:
            wrong += 1
            print(f"{json.dumps(text)}\nsays {says!r} at {spots}\nin place of {wanted!r}")
    print(f"{len(given)} texts in columns, {len(in_rows)} in rows: {'each is told as the program tells it' if not wrong else f'{wrong} are told otherwise'}")
    return not wrong


# Answers


REFUSED = ["2a 2b 3x", "2a 2a 11", "h1", "2a 2b 2c 2d 2a", "ab", "12 2h", "18v", "2a\n2b\nbh"]
FORMS = [[], ["--words"], ["--boards"], ["--sequences"]]


def answers(*deals):
    given = [[int(deal), [said(["best", "--budget", "100k", *form, deal]).out.decode() for form in FORMS]] for deal in deals]
    with browsers.Chromium() as page:
        page.open()
        told = page.run(GAME + """return arguments[0].map(([number, texts]) => texts.map(text => {
            const { claim, line, fault } = list.read(game, deal.dealt(number), text);
            return [claim.answer, claim.floor, line.moves, line.moves.map((move, at) => `${at + 1}. ${list.words(line.boards[at], move, cards.name)}`), fault, line.ends.length];
          }));""", given)
        faults = page.run(GAME + "return arguments[0].map(text => list.read(game, deal.dealt(617), text).fault)", REFUSED)
    wrong = [text for text, it in zip(REFUSED, faults) if said(["replay", "617", "-"], text.encode()).err.decode().replace("fc_solve: ", "") != it + "\n"]
    for (deal, texts), read in zip(given, told):
        claim, letters = texts[0].split("\n")[:2]
        moves, words, entries = letters.split(), texts[1].split("\n")[1:-1], texts[3].split("\n")[1].split()
        floor = int(claim.split()[-1])
        if any(it[:5] != [claim.split()[0], floor, moves, words, ""] for it in read) or read[0][5] != len(entries):
            wrong.append(f"deal {deal}")
    print(f"{len(given)} answers in {len(FORMS)} forms, and {len(REFUSED)} lists that are refused: {'as the program tells them' if not wrong else f'NOT {wrong}'}")
    return not wrong


if __name__ == "__main__":
    runs.high_memory()
    works = {"deals": deals, "boards": boards, "moves": moves, "every": every, "faults": faults, "answers": answers}
    sys.exit(0 if works[sys.argv[1]](*sys.argv[2:]) else 1)
