"""Random small boards of every game: what searches answer of them, and their bounds, beside a plain search and plain counts.

usage:  plain.py searches COUNT SEED   so many boards of each game, by each home rule, weight, expansion and bound
        plain.py best COUNT SEED       their best answers, by each home rule
        plain.py bounds COUNT SEED     so many boards of each game with at most two cards of a suit left, and with at most three

The environment names the built program as fc_solve. The rules and the search breadth first are those of tests/hostile/rules.py. Each
board is answered twice, with a certificate and without. The list of a certificate has to win by these rules; by a weight it has at most so
many times the fewest moves, and its floor is at most the fewest. That none wins is answered exactly where the plain search found none.
"""
import functools
import os
import random
import sys
import tempfile
from fractions import Fraction
from typing import NamedTuple

TOP = os.path.dirname(os.path.dirname(os.path.abspath(__file__)))
sys.path.insert(0, os.path.join(TOP, "tests", "hostile"))
import rules
import runs
from boards import random_board

GAMES = [rules.Game(cells, is_bakers, is_kings) for cells in range(5) for is_bakers in (False, True) for is_kings in (False, True)]
# FreeCell with four cells wins most of these boards, and a bound is the same in every game.
FREE_CELL = rules.Game(4)
WEIGHTS = ["1", "1.3", "2", "3", "10"]
RULES, EXPANSIONS, BOUNDS = "012", ["full", "partial"], ["plain", "clearing"]
# So many boards, but for the order of columns and cells, may be met from one before it is drawn again.
MOST_MET = 150


# Boards, and the plain search


def small_board(numbers, game, most):
    """A board with at most so many of the highest cards of each suit left, in three columns and the cells."""
    homes = tuple(13 - numbers.randint(0, most) for _ in range(4))
    left = [card for card in range(52) if card // 4 >= homes[card % 4]]
    numbers.shuffle(left)
    columns, cells = [[] for _ in range(8)], [None] * game.cells
    for card in left:
        place = numbers.randrange(4)
        if numbers.randrange(4) == 0 and place < game.cells and cells[place] is None:
            cells[place] = card
        else:
            columns[place % 3].append(card)
    return rules.Board(tuple(map(tuple, columns)), tuple(cells), homes)


class Drawn(NamedTuple):
    board: rules.Board
    fewest: int  # the moves of a shortest list, None where none wins


def drawn(numbers, game):
    """A board from which the plain search meets few others; where there are few cells half of them have most cards left, and few moves."""
    is_tight = game.cells < 3 and numbers.random() < 0.5
    while True:
        board = random_board(numbers, game, is_tight)
        try:
            return Drawn(board, rules.fewest(game, board, MOST_MET))
        except OverflowError:
            continue


def listed(boards):
    """The text of boards, one after the other."""
    return "---\n".join(map(rules.printed, boards)).encode()


# What the program says


class Row(NamedTuple):
    """A row of a table."""

    answer: str
    moves: int  # None where there is none
    floor: int


def rows_of(words, boards, certs=None):
    """The rows of a batch of boards, whose certificates are written to a folder where one is told."""
    told = runs.program().run(["batch", "--table", *words, *(["--certs", certs] if certs else []), "--boards", "-"], listed(boards))
    cells = [line.split("\t") for line in told.out.decode().splitlines()[1:]]
    if told.err or len(cells) != len(boards):
        raise ValueError(f"{words}: {told}")
    return [Row(answer, *(int(it) if it else None for it in (moves, floor))) for _, answer, moves, floor, *_ in cells]


def read(path):
    with open(path, "rb") as it:
        return it.read()


def moves_of(cert):
    """The list of a certificate in the second or the third form."""
    at = 7 + (cert[:4] == b"FCC3")
    kind, at = cert[at], at + 1
    if kind == 2:
        return []
    at += 4 * (kind == 3)
    text = cert[at + 4:][:2 * int.from_bytes(cert[at:at + 4], "big")].decode()
    return [text[i:i + 2] for i in range(0, len(text), 2)]


def claim_of(row):
    """The claim of the certificate of a row."""
    return {"shortest": f"shortest {row.moves}", "won": f"won {row.moves}, at least {row.floor}"}.get(row.answer, row.answer)


def checked(game, board, cert):
    """What `check` says of a certificate, or its first line of why not."""
    ran = runs.program().run(["check", *game.words(), "-", "/dev/fd/3"], rules.printed(board).encode(), [cert])
    return ran.out.decode().rstrip("\n") or ran.fault()


def wins(game, board, moves):
    """Whether a list of moves is allowed and wins."""
    after = rules.play(game, board, moves)
    return after is not None and rules.is_won(after)


def is_right(row, fewest, weight):
    """Whether a row by a weight is what the plain search found."""
    if fewest is None:
        return row == Row("can't be won", None, None)
    if weight == 1:
        return row == Row("shortest", fewest, fewest)
    return row.answer == "won" and row.floor <= fewest <= row.moves <= weight * fewest


# Searches and best answers


def try_words(game, boards, words, weight):
    """What is wrong with the rows of boards by these words of a batch, with their certificates and without."""
    texts = [it.board for it in boards]
    with tempfile.TemporaryDirectory() as folder:
        rows, certified = rows_of(words, texts), rows_of(words, texts, folder)
        certs = [read(f"{folder}/-:{number}.cert") for number in range(1, len(boards) + 1)]
    for (board, fewest), row, again, cert in zip(boards, rows, certified, certs):
        moves = moves_of(cert)
        is_well = row == again and is_right(row, fewest, weight) and len(moves) == (row.moves or 0)
        if not is_well or fewest is not None and not wins(game, board, moves):
            yield f"{game} {words}: {fewest} moves, told {row}, {again}, {moves}\n{rules.printed(board)}"
    number = sum(map(len, words)) % len(boards)
    told = checked(game, texts[number], certs[number])
    if told != "accepted: " + claim_of(rows[number]):
        yield f"{game} {words}: {rows[number]}, {told}\n{rules.printed(texts[number])}"


def methods():
    """The words of each method, and its weight."""
    for rule in RULES:
        for weight in WEIGHTS:
            for expansion in EXPANSIONS:
                for bound in BOUNDS:
                    yield ["--rule", rule, "--within", weight, "--expand", expansion, "--bound", bound], Fraction(weight)


def best_methods():
    for rule in RULES:
        yield ["--best", "--rule", rule], 1


def try_game(task):
    """How many boards of a game are lost, how many rows were told of them, and what is wrong."""
    words_of, number, count, seed = task
    game, numbers = GAMES[number], random.Random(f"{seed}/{number}")
    boards = [drawn(numbers, game) for _ in range(count)]
    failed, told = [], 0
    for words, weight in words_of():
        failed += try_words(game, boards, [*words, *game.words()], weight)
        told += 2 * count
    return sum(it.fewest is None for it in boards), told, failed


def try_games(name, words_of, count, seed):
    results = runs.side_by_side(try_game, [(words_of, number, count, seed) for number in range(len(GAMES))])
    lost, told = (sum(it[part] for it in results) for part in (0, 1))
    failed = [it for result in results for it in result[2]]
    print(f"seed {seed}: {count * len(GAMES)} boards of {len(GAMES)} games, {lost} of them lost: {told} {name}, {'not all ' if failed else ''}as a plain search says")
    return failed


# Bounds


def away(board):
    """How many cards are not home."""
    return 52 - sum(board.homes)


def is_lower(card, other):
    return card % 4 == other % 4 and card < other


def plain_bound(board):
    """Cards that are not home, and those above a lower one of their suit in their column."""
    return away(board) + sum(any(is_lower(lower, card) for lower in column[:at]) for column in board.columns for at, card in enumerate(column))


def clearing_bound(board):
    """Cards that are not home, and the least cost of taking all of them out of their columns, in any order."""

    @functools.lru_cache(maxsize=None)
    def cost(heights):
        left = [card for column, height in zip(board.columns, heights) for card in column[:height]]
        costs = []
        for at, height in enumerate(heights):
            if height:
                card, rest = board.columns[at][height - 1], rules.put_at(heights, at, height - 1)
                costs.append(any(is_lower(lower, card) for lower in left) + cost(rest))
        return min(costs, default=0)

    return away(board) + cost(tuple(map(len, board.columns)))


def fewest_or_none(game, board):
    """The moves of a shortest list where the plain search finds one soon."""
    try:
        return rules.fewest(game, board, MOST_MET // 3)
    except OverflowError:
        return None


def with_cells(board, game):
    """The board in another game, which has no fewer cells."""
    return board._replace(cells=board.cells + (None,) * (game.cells - len(board.cells)))


def some_moves(numbers, board):
    """At most four moves of FreeCell from a board, drawn one after the other."""
    front = []
    for _ in range(4):
        tried = [source + target for source in "12345678abcd" for target in "12345678abcd"]
        allowed = [it for it in tried if rules.play(FREE_CELL, board, [*front, it]) is not None]
        if allowed:
            front.append(numbers.choice(allowed))
    return front


def long_lists(numbers, boards):
    """Lists of moves of FreeCell from boards, some moves longer than is needed: each wins, or is None where none was found."""
    fronts = [some_moves(numbers, board) for board in boards]
    starts = [rules.play(FREE_CELL, board, front) for board, front in zip(boards, fronts)]
    with tempfile.TemporaryDirectory() as folder:
        rows = rows_of(["--within", "3", *FREE_CELL.words()], starts, folder)
        certs = [read(f"{folder}/-:{number}.cert") if row.moves is not None else None for number, row in enumerate(rows, 1)]
    lists = [front + moves_of(cert) if cert else None for front, cert in zip(fronts, certs)]
    return [it if it and wins(FREE_CELL, board, it) else None for board, it in zip(boards, lists)]


def floor_cert(moves, floor):
    """A certificate of FreeCell, by home rule 0 and the clearing bound, that shows its floor by the bound of the board alone."""
    numbers = b"".join(it.to_bytes(4, "big") for it in (floor, len(moves)))
    return b"FCC3\0\4\0\1\3" + numbers + "".join(moves).encode() + bytes(4)


def bounds_wrong(board, fewest, plain, clearing, floors):
    """Whether the bounds of a board aren't what they should be: the plain one, a quick one of those between, and the clearing bound, each
    no more than the moves of a shortest list. What gave up at once tells the first two as its floor."""
    (by_plain, by_quick), is_told = floors, [row.answer == "gave up" for row in floors]
    is_well = not is_told[0] or by_plain.floor == plain
    is_well &= not is_told[1] or plain <= by_quick.floor <= clearing
    return not is_well or fewest is not None and clearing > fewest


def try_bounds(task):
    """How many floors were told, how many clearing bounds were asked about, and what is wrong."""
    number, count, seed = task
    game, numbers = GAMES[number], random.Random(f"{seed}/{number}")
    boards = [small_board(numbers, game, most) for most in (2, 3) for _ in range(count)]
    words = ["--budget", "1", "--rule", "0", *game.words(), "--bound"]
    floors = [*zip(*(rows_of([*words, bound], boards) for bound in BOUNDS))]
    wide = [with_cells(board, FREE_CELL) for board in boards]
    asked, failed = 0, []
    for board, start, both, moves in zip(boards, wide, floors, long_lists(numbers, wide)):
        plain, clearing, fewest = plain_bound(board), clearing_bound(board), fewest_or_none(game, board)
        told = []
        if moves and len(moves) > clearing:
            asked += 1
            told = [checked(FREE_CELL, start, floor_cert(moves, floor)) for floor in (clearing, clearing + 1)]
        wanted = [f"accepted: won {len(moves)}, at least {clearing}", "fc_solve: certificate refused: StartOpen"] if told else []
        if told != wanted or bounds_wrong(board, fewest, plain, clearing, both):
            failed.append(f"{game} {plain} {clearing} {fewest}: told {both}, {told}\n{rules.printed(board)}")
    return sum(row.answer == "gave up" for both in floors for row in both), asked, failed


def try_all_bounds(count, seed):
    results = runs.side_by_side(try_bounds, [(number, count, seed) for number in range(len(GAMES))])
    floors, asked = (sum(it[part] for it in results) for part in (0, 1))
    failed = [it for result in results for it in result[2]]
    print(f"seed {seed}: {2 * count * len(GAMES)} boards of {len(GAMES)} games: {floors} floors and {asked} clearing bounds, {'not all ' if failed else ''}as counted plainly")
    return failed


def main(word, count, seed):
    if word == "bounds":
        return try_all_bounds(count, seed)
    return try_games(*{"searches": ("answers", methods), "best": ("best answers", best_methods)}[word], count, seed)


if __name__ == "__main__":
    runs.high_memory()
    runs.end(main(sys.argv[1], int(sys.argv[2]), sys.argv[3]))
