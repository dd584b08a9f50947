"""What `solve` tells of its moves, told once more by the plain rules of tests/hostile/rules.py.

usage:  told.py words DEAL..          each line of `best --words` is that of the move in letters, and `replay` reads it back
        told.py boards COUNT SEED     so many random boards, drawn by `show` and typed otherwise in rows, are read back by `--rows`
        told.py joined DEAL..         each entry of `solve --sequences` in words, and with the board drawn, is that of the entry in
                                      letters; `replay --sequences` reads both back, and draws the same boards by `--drawn`
        told.py entries FROM TO       the entries of `best --sequences` of these deals win, in no more one-card moves than it tells
"""
import os
import random
import re
import subprocess
import sys

sys.path.insert(0, os.path.join(os.path.dirname(os.path.abspath(__file__)), "hostile"))
import rules

FREECELL = rules.Game(4)


def run(*words, text=""):
    """What a command prints, on standard output and on standard error."""
    ran = subprocess.run([os.environ["fc_solve"], *words], input=text, capture_output=True, text=True, check=False)
    return ran.stdout, ran.stderr


# Moves in words


def name_of(letter):
    if letter in "abcd":
        return f"cell {letter}"
    return f"column {letter}"


def card_at(board, letter):
    """The card that may be taken from a place, or None."""
    if letter in "abcd":
        return board.cells["abcd".index(letter)]
    column = board.columns[int(letter) - 1]
    return column[-1] if column else None


def words_of(board, number, source, target):
    """A move in words."""
    told = f"{number}. {rules.name_of(card_at(board, source))} from {name_of(source)} "
    if target == "h":
        return told + "home"
    if target in "abcd":
        return told + f"to {name_of(target)}"
    under = card_at(board, target)
    return told + (f"to the empty column {target}" if under is None else f"to the {rules.name_of(under)} on column {target}")


def check_words(deal):
    letters = run("best", deal)[0].split("\n")
    board = rules.read_plain(run("deal", deal)[0].encode(), 4)
    lines = [letters[0]]
    for number, (source, target) in enumerate(letters[1].split(), 1):
        lines.append(words_of(board, number, source, target))
        board = rules.play(FREECELL, board, [source + target])
    told = run("best", "--words", deal)[0]
    pages = run("best", "--boards", deal)[0]
    boards = run("replay", deal, "-", text=letters[1])
    back = [run("replay", deal, "-", text=list_) == boards for list_ in (told, pages)]
    print(deal, told == "\n".join(lines) + "\n", [line for line in pages.split("\n") if re.match(r"\d+\.", line)] == lines[1:], *back)


# Boards in rows


def random_board(numbers):
    """A board in the middle of a game."""
    homes = tuple(numbers.randint(0, 9) for _ in range(4))
    left = [card for card in range(52) if card // 4 >= homes[card % 4]]
    numbers.shuffle(left)
    cells = tuple(left.pop() if left and numbers.random() < 0.5 else None for _ in range(4))
    columns = [[] for _ in range(8)]
    for card in left:
        columns[numbers.randrange(8)].append(card)
    return rules.Board(tuple(map(tuple, columns)), cells, homes)


def typed(numbers, board):
    """The board as somebody types it in rows."""
    none = numbers.choice(["--", "-", "."])
    rows = max(map(len, board.columns))
    entries = [[rules.name_of(column[row]) if row < len(column) else none for column in board.columns] for row in range(rows)]
    while entries and entries[-1][-1] == none:
        entries[-1].pop()
    homes = " ".join(f"{suit}-{rules.RANKS[home - 1] if home else 0}" for suit, home in zip(rules.SUITS, board.homes))
    cells = " ".join("-" if card is None else rules.name_of(card) for card in board.cells)
    gap = numbers.choice([" ", "  ", "\t"])
    return f"Foundations: {homes}\nFreecells: {cells}\n" + "".join(gap.join(row) + "\n" for row in entries)


def check_boards(count, seed):
    deals = [run("deal", deal)[0] for deal in "1 5 27 31 164 617 941 11982".split()]
    numbers = random.Random(seed)
    boards = [random_board(numbers) for _ in range(count)]
    texts = [rules.printed(rules.read_plain(text.encode(), 4)) for text in deals] + [rules.printed(board) for board in boards]
    drawn = sum(run("show", "--plain", "--rows", text=run("show", text=text)[0]) == (text, "") for text in texts)
    read = sum(run("show", "--plain", "--rows", text=typed(numbers, board))[0] == text for board, text in zip(boards, texts[8:]))
    print(drawn, "drawn boards read back,", read, "typed ones")


# Entries that may move several cards


def is_carried(board, source, target, count):
    """Whether so many cards of a column may be carried to another one, by docs/RULES.md."""
    column = board.columns[source]
    cards = column[len(column) - count:]
    if count > len(column) or not all(rules.stands_on(FREECELL, upper, lower) for lower, upper in zip(cards, cards[1:])):
        return False
    spare = sum(not other for place, other in enumerate(board.columns) if place != target)
    return rules.takes(FREECELL, board, cards[0], target) and count <= (board.cells.count(None) + 1) << spare


def carried(board, entry):
    """The cards that an entry moves, the deepest first, and the board after it."""
    if not (entry[0] in "12345678" and entry[1] in "12345678"):
        return [card_at(board, entry[0])], rules.play(FREECELL, board, [entry])
    source, target = int(entry[0]) - 1, int(entry[1]) - 1
    counts = [count for count in range(1, 14) if is_carried(board, source, target, count) and entry[2:] in ("", f"v{count:x}")]
    assert len(counts) == 1, entry
    column = board.columns[source]
    left, cards = column[:-counts[0]], column[-counts[0]:]
    columns = rules.put_at(rules.put_at(board.columns, source, left), target, board.columns[target] + cards)
    return list(cards), board._replace(columns=columns)


# (lists that are found soon carry cards more often than the best)
JOINED = "solve", "--within", "10", "--bound", "clearing", "--sequences"


def check_joined(deal):
    letters = run(*JOINED, deal)[0]
    head, entries, _ = letters.split("\n")
    board = rules.read_plain(run("deal", deal)[0].encode(), 4)
    lines, pages, most = [], [], 0
    for number, entry in enumerate(entries.split(), 1):
        cards, after = carried(board, entry)
        names = [rules.name_of(card) for card in cards]
        line = words_of(board, number, *entry[:2])
        if len(cards) > 1:
            line = line.replace(f"{number}. {names[-1]} from", f"{number}. {len(cards)} cards, {names[0]} to {names[-1]}, from")
        lines.append(line + "\n")
        drawing = run("show", text=rules.printed(after))[0]
        pages.append(lines[-1] + drawing.replace(" " + names[0], ">" + names[0]) + "\n")
        board, most = after, max(most, len(cards))
    told, drawn = (run(*JOINED, form, deal)[0] for form in ("--words", "--boards"))
    ended = run("replay", "--sequences", deal, "-", text=letters)
    back = [run("replay", "--sequences", deal, "-", text=text) == ended for text in (told, drawn)]
    again = run("replay", "--sequences", "--drawn", deal, "-", text=letters)
    print(deal, rules.is_won(board), most > 1, told == head + "\n" + "".join(lines), drawn == head + "\n" + "".join(pages), *back,
          again == ("".join(pages), ended[1]))


def check_entries(first, last):
    joined = 0
    for deal in map(str, range(first, last + 1)):
        told = run("best", "--sequences", deal)[0]
        moves, entries = map(int, re.match(r"\w+ (\d+)(?:, at least \d+)?, in (\d+) entries\n", told).groups())
        ended = run("replay", "--sequences", deal, "-", text=told)[1]
        won = re.fullmatch(r"fc_solve: won in (\d+) moves\n", ended)
        if not won or int(won[1]) > moves or len(told.split("\n")[1].split()) != entries or run("best", deal)[0].split()[1].rstrip(",") != str(moves):
            print("deal", deal, told, ended)
        joined += entries
    print(f"mean number of entries {joined / (last + 1 - first):.1f}", file=sys.stderr)
    print("deals", first, "to", last)


if __name__ == "__main__":
    words = sys.argv[2:]
    if sys.argv[1] == "words":
        for number in words:
            check_words(number)
    elif sys.argv[1] == "joined":
        for number in words:
            check_joined(number)
    elif sys.argv[1] == "boards":
        check_boards(int(words[0]), words[1])
    else:
        check_entries(int(words[0]), int(words[1]))
