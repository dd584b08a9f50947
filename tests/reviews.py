"""Lists of moves under review: random ones of small boards and of deals, and another solver's.

usage:  reviews.py small COUNT SEED   so many random lists on small boards of random games, beside a plain search breadth first
        reviews.py deals COUNT SEED   so many lists of random allowed moves on deals: where a move loses, the boards around it have
                                      certificates that both checkers accept, of a list before it and of none after it
        reviews.py solvers LAST       the lists of tests/lists/ of deals 1 to so many: each wins, with a certificate of that very list

The environment names the built program as fc_solve. The rules and the plain search are those of tests/hostile/rules.py.
"""
import os
import random
import re
import subprocess
import sys
import tempfile

sys.dont_write_bytecode = True
TOP = os.path.dirname(os.path.dirname(os.path.abspath(__file__)))
sys.path[:0] = [os.path.join(TOP, "tests"), os.path.join(TOP, "tests", "hostile")]
import plain
import rules

LETTERS = "12345678abcd"
# So few positions for each board keep the test short; where that isn't enough, nothing is claimed.
BUDGET = "20k"


def says(words, given=b""):
    return subprocess.run([os.environ["fc_solve"], *words], input=given, capture_output=True, check=False)


def random_list(numbers, game, board, length):
    """Allowed moves, and the boards on their way, the first board among them."""
    moves, boards = [], [board]
    for _ in range(length):
        allowed = [(s, t) for s in range(8 + game.cells) for t in range(-1, 8 + game.cells) if rules.move(game, boards[-1], s, t) is not None]
        if not allowed:
            break
        source, target = numbers.choice(allowed)
        moves.append(LETTERS[source] + ("h" if target < 0 else LETTERS[target]))
        boards.append(rules.move(game, boards[-1], source, target))
    return moves, boards


def wrong_small(numbers, room):
    """What is wrong with the review of a random list on a small board."""
    game = numbers.choice(plain.GAMES)
    start = plain.drawn(numbers, game).board
    moves, boards = random_list(numbers, game, start, 8)
    path = os.path.join(room, "board")
    with open(path, "wb") as it:
        it.write(rules.printed(start).encode())
    fewest = [rules.fewest(game, it, 100_000) for it in boards]
    told = says(["review", *game.words(), path, "-"], " ".join(moves).encode()).stdout.decode()
    losing = re.match(r"move (\d+), .* loses: (\d+) moves? wins? before it, none after\n", told)
    if losing:
        place = int(losing[1])
        is_right = fewest[place - 1] == int(losing[2]) and fewest[place] is None
    elif told.startswith("can't be won"):
        is_right = fewest[0] is None
    elif told.startswith("none of these moves loses"):
        is_right = re.search(r"from here (\d+) moves? wins?, and none fewer\n", told) is not None and int(told.split("from here ")[1].split()[0]) == fewest[-1]
    else:
        floor = re.match(r"won in (\d+) moves?, \d+ by hand; no list wins in fewer(?: than (\d+))?", told)
        is_right = floor is not None and int(floor[2] or floor[1]) == fewest[0] and fewest[-1] is not None
    return None if is_right else f"{game.words()} {moves} {fewest}: {told!r}"


def accepted(second, board, cert):
    """What both checkers say of a certificate, which is one."""
    one = says(["check", board, cert]).stdout
    other = subprocess.run([second, board, cert], capture_output=True, check=False).stdout
    return one.decode() if one == other else f"{one!r} and {other!r}"


def wrong_deal(numbers, room, second):
    """What is wrong with the review of a random list on a deal, and whether it names a move."""
    number, game = numbers.randint(1, 32000), rules.Game(4)
    start = rules.read_plain(says(["deal", str(number)]).stdout, 4)
    moves, _ = random_list(numbers, game, start, 30)
    told = says(["review", "--budget", BUDGET, "--certs", room, str(number), "-"], " ".join(moves).encode()).stdout.decode()
    losing = re.match(r"move \d+, .* loses: (\d+) moves? wins? before it, none after\n", told)
    if not losing:
        is_right = told.startswith(("none of these", "one of the moves", "no move loses", "no list wins after", "gave up", "can't be won"))
        return None if is_right else f"{number} {moves}: {told!r}", False
    before, after = (accepted(second, os.path.join(room, f"{it}.txt"), os.path.join(room, f"{it}.cert")) for it in ("before", "after"))
    is_right = after == "accepted: can't be won\n" and re.match(rf"accepted: (shortest|won) {losing[1]}\b", before)
    return None if is_right else f"{number} {moves}: {told!r}, {before!r}, {after!r}", True


def wrong_solver(number, folder, room):
    """What is wrong with the review of another solver's list."""
    cert = os.path.join(room, "cert")
    path = os.path.join(TOP, "tests", "lists", folder, f"{number}.txt")
    told = says(["review", "--sequences", "--budget", BUDGET, "--cert", cert, str(number), path]).stdout.decode()
    won = re.match(r"won in (\d+) moves, \d+ by hand; no list wins in fewer than (\d+); ", told)
    claim = says(["check", str(number), cert]).stdout.decode()
    is_right = won is not None and claim == f"accepted: won {won[1]}, at least {won[2]}\n"
    return None if is_right else f"{folder}/{number}: {told!r}, {claim!r}"


def main(kind, count, seed=1):
    numbers, wrong, named = random.Random(int(seed)), [], 0
    with tempfile.TemporaryDirectory() as room:
        second = os.path.join(room, "second")
        if kind == "deals":
            subprocess.run(["rustc", "-O", os.path.join(TOP, "checker", "checker.rs"), "-o", second], check=True)
        for at in range(1, int(count) + 1):
            if kind == "small":
                wrong.append(wrong_small(numbers, room))
            elif kind == "deals":
                fault, is_named = wrong_deal(numbers, room, second)
                wrong.append(fault)
                named += is_named
            else:
                wrong += [wrong_solver(at, folder, room) for folder in ("sn", "snx")]
    wrong = [it for it in wrong if it]
    print("\n".join(wrong) if wrong else f"{kind}: all as they should be" + (f", and of some lists the move is named: {named > 0}" if kind == "deals" else ""))
    return 1 if wrong else 0


if __name__ == "__main__":
    sys.exit(main(*sys.argv[1:]))
