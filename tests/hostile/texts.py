"""Board texts, damaged and random: the program reads each as a second reader does, or refuses it with the same fault.

usage:  texts.py changes FILE..        each front of the texts, and each byte changed to each other value
        texts.py random COUNT SEED     so many random texts

A text is read by `show --plain`, which prints the board's ten lines. The second reader is that of rules.py.
"""
import random
import re
import sys

import rules
import runs

ADVERSE = [b"", b"\x00", b"\xff", b"\xc2", b"\xa0", b"\xc2\xa0", b"\xe2\x99", b"\xef\xbb\xbf", b"\xff\xfe", b"\xe2\x99\xa0\xef\xb8\x8f", b"\r", b"\n",
           b"\r\r\n", b"\x0b", b"\x0c", b"10", b"1O", b"0C", b"-", b"*", b"--", b":", b"::", b"9:", b"1:", b"H-0", b"h-k", b"S-14", b"FC:",
           b"Deck:", b"foundations :", b"TC", b"10c", b"#", b",", b"7D,", b"D7", b"s10", b"Cells:", b"# a comment\n", b"\xf0\x9f\x82\xa1", b"KS KS", b" " * 60]


# What is wanted of a text


def wanted(text, cells):
    """The status, the output and the first line on standard error, or its front."""
    try:
        board = rules.read_plain(rules.plain(text), cells)
        return 0, rules.printed(board).encode(), lengths_note(board) or title_note(text)
    except rules.Fault as fault:
        return 3, b"", f"fc_solve: board: {in_file(text, str(fault))}"


def in_file(text, fault):
    """A fault whose line is told by its number in the file."""
    line = re.match(r"line ([0-9]+):", fault)
    stay = rules.file_lines(text) if line else None
    return f"line {stay[int(line[1]) - 1]}:{fault[line.end():]}" if stay else fault


def title_note(text):
    """How it begins what is said where a title is left out."""
    return "fc_solve: left out as a title" if rules.has_title(text) else ""


def lengths_note(board):
    """What is said of a board with all cards in columns that aren't as long as a deal's."""
    lengths = [len(column) for column in board.columns]
    if sum(lengths) < 52 or sorted(lengths) == [6] * 4 + [7] * 4:
        return ""
    return f"fc_solve: the columns have {' '.join(map(str, lengths))} cards, as no deal has"


def told_wrong(program, text, cells):
    """What the program does otherwise with a text, or None."""
    ran, right = program.run(["show", "--plain", "--cells", str(cells)], text), wanted(text, cells)
    # (behind the lengths of columns may stand what to do)
    fault = ran.fault().removesuffix(": for a board typed in rows say --rows")
    # (and behind this the title)
    fault = re.sub(r"^(fc_solve: left out as a title): '.*'$", r"\1", fault)
    if (ran.status, ran.out, fault) == right and ran.seconds < 1:
        return None
    return f"{text!r}, {cells} cells: {ran.status} {ran.out!r} {ran.fault()!r} {ran.seconds:.2f} s in place of {right!r}"


# Changes of real texts


def fronts_of(text):
    return [text[:size] for size in range(len(text))]


def changes_of(text, place):
    """The text with each other value of the byte at this place."""
    return [text[:place] + bytes([value]) + text[place + 1:] for value in range(256) if value != text[place]]


def try_texts(texts):
    program = runs.program()
    told = [told_wrong(program, text, 4) for text in texts]
    return len(texts), sum(wanted(text, 4)[0] == 0 for text in texts), [it for it in told if it]


def check_changes(paths):
    for path in paths:
        text = read_file(path)
        tell(path, runs.side_by_side(try_texts, [fronts_of(text)] + [changes_of(text, place) for place in range(len(text))]))


def read_file(path):
    with open(path, "rb") as file:
        return file.read()


# Random texts


def random_board(numbers, cells):
    """A board of which about half of the cards are home, or none, or nearly all."""
    most = numbers.choice([0, 0, 6, 11, 13])
    homes = tuple(numbers.randint(max(0, most - 3), most) for _ in range(4))
    left = [card for card in range(52) if card // 4 >= homes[card % 4]]
    numbers.shuffle(left)
    held = [left.pop() if left and numbers.random() < 0.4 else None for _ in range(cells)]
    columns = [[] for _ in range(8)]
    for card in left:
        numbers.choice(columns).append(card)
    return rules.Board(tuple(tuple(column) for column in columns), tuple(held), homes)


def any_case(numbers, text):
    return "".join(letter.lower() if numbers.random() < 0.3 else letter for letter in text)


def spelled_card(numbers, card):
    rank, suit = rules.name_of(card)
    if rank == "T" and numbers.random() < 0.3:
        rank = "10"
    if numbers.random() < 0.1:
        suit = numbers.choice([symbol for symbol, letter in rules.SYMBOLS.items() if letter == suit])
        suit += numbers.choice(["", "", "\ufe0e", "\ufe0f"])
    return any_case(numbers, rank + suit)


def gap(numbers):
    return numbers.choice([" ", " ", " ", "  ", "\t", " \t ", "\u00a0"])


def joined(numbers, front, tokens):
    """The tokens behind the front of their line."""
    if front.endswith(":") and tokens and numbers.random() < 0.2:
        front, tokens = front + tokens[0], tokens[1:]
    return front + "".join(gap(numbers) + token for token in tokens) + numbers.choice(["", "", "", " ", "\t"])


def spelled(numbers, board):
    """One of the many texts of a board, as its lines."""
    columns, is_numbered, mark = [], numbers.random() < 0.2, numbers.choice(["", ": ", ":"])
    for number, column in enumerate(board.columns, 1):
        front = f"{number}:" if is_numbered else mark
        columns.append(joined(numbers, numbers.choice(["", "", " "]) + front, [spelled_card(numbers, card) for card in column]))
    while columns and not is_numbered and not board.columns[len(columns) - 1] and numbers.random() < 0.5:
        columns.pop()
    named = [f"{any_case(numbers, rules.SUITS[suit])}-{any_case(numbers, ('0' + rules.RANKS)[count])}"
             for suit, count in enumerate(board.homes) if count or numbers.random() < 0.5]
    held = [numbers.choice("-*") if card is None else spelled_card(numbers, card) for card in board.cells]
    while held and held[-1] in "-*" and numbers.random() < 0.5:
        held.pop()
    others = []
    if named or numbers.random() < 0.5:
        others.append(joined(numbers, any_case(numbers, numbers.choice(rules.FOUNDATIONS).decode().capitalize()), named))
    if held or numbers.random() < 0.5:
        others.append(joined(numbers, any_case(numbers, numbers.choice(rules.CELLS).decode().capitalize()), held))
    for line in others:
        columns.insert(numbers.choice([0, 0, 0, len(columns), numbers.randint(0, len(columns))]), line)
    return columns


def as_text(numbers, lines):
    end = numbers.choice(["\n", "\n", "\r\n"])
    front = numbers.choice(["", "", "", "\ufeff"])
    return (front + end.join(lines) + numbers.choice([end, end, "", end + end])).encode()


def damaged(numbers, text):
    """The text with a few bytes changed, pieces of it moved, doubled or left out, or strange bytes put in."""
    for _ in range(numbers.randint(1, 3)):
        at, to = sorted((numbers.randint(0, len(text)), numbers.randint(0, len(text))))
        to = min(to, at + numbers.choice([1, 2, 3, 20, 60]))
        piece = text[at:to]
        where = numbers.randint(0, len(text))
        way = numbers.randrange(10)
        if way == 0:
            text = text[:at] + bytes([numbers.randrange(256)]) + text[at + 1:]
        elif way == 1:
            text = text[:at] + text[to:]
        elif way == 2:
            text = text[:where] + piece + text[where:]
        elif way == 3:
            text = text[:at] + numbers.choice(ADVERSE) + text[at:]
        elif way == 4:
            text = text[:at] + numbers.choice(ADVERSE) + text[to:]
        elif way == 5:
            lines = text.split(b"\n")
            numbers.shuffle(lines)
            text = b"\n".join(lines)
        elif way == 6:
            lines = text.split(b"\n")
            text = b"\n".join([*lines, numbers.choice(lines)])
        else:
            text = with_another_token(numbers, text)
    return text


def with_another_token(numbers, text):
    """The text with one token left out, or another one in its place."""
    tokens = list(re.finditer(rb"\S+", text))
    if not tokens:
        return text
    token = numbers.choice(tokens)
    other = numbers.choice([b"", rules.name_of(numbers.randrange(52)).encode(), numbers.choice(tokens)[0], b"-", b"h-t"])
    return text[: token.start()] + other + text[token.end():]


def soup(numbers):
    """Tokens, names and bytes in no order."""
    tokens = [rules.name_of(numbers.randrange(52)).encode() for _ in range(numbers.choice([1, 5, 30]))]
    names = [name for name in rules.FOUNDATIONS + rules.CELLS]
    pieces = [numbers.choice(tokens + ADVERSE + names + [b"\n", b" "] * 5 + [bytes([numbers.randrange(256)])])
              for _ in range(numbers.choice([0, 1, 3, 20, 100]))]
    return numbers.choice([b"", b" "]).join(pieces)


def long_text(numbers):
    """A text about as long as may be read, before it is made plain or after."""
    lines = spelled(numbers, random_board(numbers, 4))
    text = as_text(numbers, lines)
    size = numbers.choice([4096, 16384]) + numbers.randint(-2, 2)
    filling = numbers.choice([b" ", b"\n", b"\t", b"\xc2\xa0", b"-", b"AC "])
    return text + (filling * size)[: max(0, size - len(text))]


def random_text(numbers, cells):
    way = numbers.random()
    if way < 0.02:
        return long_text(numbers)
    if way < 0.1:
        return soup(numbers)
    text = as_text(numbers, spelled(numbers, random_board(numbers, cells)))
    return text if way < 0.45 else damaged(numbers, text)


def try_random(task):
    first, last, seed = task
    numbers, program, good, told = random.Random(seed), runs.program(), 0, []
    for _ in range(first, last):
        cells = numbers.choice([4, 4, 4, 3, 2, 1, 0])
        text = random_text(numbers, cells)
        good += wanted(text, cells)[0] == 0
        told.append(told_wrong(program, text, cells))
    return last - first, good, [it for it in told if it]


def tell(name, results):
    count, good = (sum(it[number] for it in results) for number in (0, 1))
    FAILED.extend(told for it in results for told in it[2])
    print(f"{name}: {count} texts, {good} of them boards, {'not all ' if FAILED else ''}read as by the second reader")


FAILED = []

if __name__ == "__main__":
    what, *words = sys.argv[1:]
    if what == "changes":
        check_changes(words)
    else:
        tell(f"seed {words[1]}", runs.side_by_side(try_random, runs.slices(int(words[0]), words[1])))
    runs.end(FAILED)
