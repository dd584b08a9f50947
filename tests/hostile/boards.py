"""Random small boards of every game: what `solve --cert` and `best --cert` print, what `check` accepts of their certificates, and where
`replay` of their moves ends, agree with a plain search breadth first.

usage:  boards.py COUNT SEED
"""
import random
import re
import sys

import rules
import runs

# Boards with more classes than so many are drawn again: of those with few cards left, and of those with most.
MOST_LOOSE, MOST_TIGHT = 800, 100
GAMES = [rules.Game(cells, is_bakers, is_kings) for cells in range(5) for is_bakers in (False, True) for is_kings in (False, True)]


def random_board(numbers, game, is_tight):
    """A board with a few of the highest cards of each suit left, in a few columns and some cells; or with most cards left, in all
    columns and all cells, where few moves are allowed."""
    least, most = (9, 13) if is_tight else (0, numbers.choice([1, 2, 2, 3]))
    homes = tuple(13 - numbers.randint(least, most) for _ in range(4))
    left = [card for card in range(52) if card // 4 >= homes[card % 4]]
    numbers.shuffle(left)
    cells = [left.pop() if left and (is_tight or numbers.random() < 0.5) else None for _ in range(game.cells)]
    columns, width = [[] for _ in range(8)], 8 if is_tight else numbers.randint(1, 8)
    for number, card in enumerate(left):
        columns[number % 8 if is_tight else numbers.randrange(width)].append(card)
    numbers.shuffle(columns)
    return rules.Board(tuple(tuple(column) for column in columns), tuple(cells), homes)


def drawn(numbers, game):
    """A board that the plain search gets through, and the moves of a shortest list, or None."""
    is_tight = numbers.random() < 0.5
    while True:
        board = random_board(numbers, game, is_tight)
        try:
            return board, rules.fewest(game, board, MOST_TIGHT if is_tight else MOST_LOOSE)
        except OverflowError:
            continue


def try_board(task):
    """How many moves a shortest list of a board has, or None, and what the program says otherwise."""
    number, seed = task
    numbers, game = random.Random(f"{seed}/{number}"), GAMES[number % len(GAMES)]
    board, fewest = drawn(numbers, game)
    weight = numbers.choice([1, 1, 2, 3])
    rule = ["--rule", numbers.choice("012")]
    words = ["solve", *rule, "--bound", numbers.choice(["plain", "clearing"]), "--within", str(weight)]
    told = told_wrong(game, board, fewest, words, weight) or told_wrong(game, board, fewest, ["best", *rule], 1)
    return fewest, told and f"board {number} {game} {words}\n{rules.printed(board)}{told}"


def told_wrong(game, board, fewest, words, weight):
    """What the program says otherwise of a board, or None."""
    program, text = runs.program(), rules.printed(board).encode()
    solved = program.run([*words, *game.words(), "--cert", "/dev/fd/3"], text, [b""])
    first, moves = (solved.out.decode().split("\n") + [""])[:2]
    moves = moves.split()
    checked = program.run(["check", *game.words(), "-", "/dev/fd/3"], text, solved.files)
    if (checked.status, checked.out) != (0, f"accepted: {first}\n".encode()):
        return f"{solved}\n{checked}"
    if fewest is None:
        return None if (solved.status, solved.out) == (1, b"can't be won\n") else f"it can't be won: {solved}"
    told = re.fullmatch(r"shortest (\d+)|won (\d+), at least (\d+)", first)
    if solved.status != 0 or not told:
        return f"{fewest} moves win: {solved}"
    shortest, count, floor = (int(it) if it else None for it in told.groups())
    is_right = shortest == fewest if shortest is not None else weight > 1 and floor <= fewest <= count <= weight * fewest
    after = rules.play(game, board, moves)
    if not is_right or len(moves) != (count if shortest is None else shortest) or after is None or not rules.is_won(after):
        return f"{fewest} moves win: {solved}"
    replayed = program.run(["replay", *game.words(), "-", "/dev/fd/3"], text, [" ".join(moves).encode()])
    boards = b"".join(rules.printed(rules.play(game, board, moves[:made])).encode() for made in range(1, len(moves) + 1))
    return None if (replayed.status, replayed.out) == (0, boards) else f"{solved}\n{replayed}"


if __name__ == "__main__":
    runs.high_memory()
    count, seed = int(sys.argv[1]), sys.argv[2]
    results = runs.side_by_side(try_board, [(number, seed) for number in range(count)])
    failed, lost = [told for _, told in results if told], sum(fewest is None for fewest, _ in results)
    print(f"seed {seed}: {count} boards of {len(GAMES)} games, {lost} of them lost, {'not all ' if failed else ''}as a plain search says")
    runs.end(failed)
