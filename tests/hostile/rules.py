"""The rules of docs/RULES.md once more, written plainly: cards, boards, moves, and the reader of board texts."""
import re
from typing import NamedTuple

RANKS, SUITS = "A23456789TJQK", "CDHS"
BLANKS = b" \t"
FOUNDATIONS = [b"foundations:", b"foundation:", b"founds:", b"found:", b"decks:", b"deck:"]
CELLS = [b"freecells:", b"freecell:", b"fc:"]
SYMBOLS = dict(zip("\u2660\u2661\u2662\u2663\u2664\u2665\u2666\u2667", "SHDCSHDC"))


class Board(NamedTuple):
    columns: tuple  # of eight tuples of cards, the deepest first
    cells: tuple  # a card or None for each cell of the game
    homes: tuple  # how many cards of each suit are home


class Game(NamedTuple):
    cells: int
    is_bakers: bool = False
    is_kings: bool = False

    def words(self):
        return [*(["--game", "bakers"] if self.is_bakers else []), *(["--kings"] if self.is_kings else []), "--cells", str(self.cells)]


class Fault(Exception):
    """Why a text is no board, as the program says it."""


def name_of(card):
    return RANKS[card // 4] + SUITS[card % 4]


# Reading


def plain(text):
    """The text made plain."""
    if len(text) > 16384:
        raise Fault("too long")
    lines, columns = [respelled(line) for line in untitled(said_of(text))], 0
    for number, line in enumerate(lines):
        if sort_line(line)[0] != "column":
            continue
        columns += 1
        rest = line.lstrip(BLANKS)
        if columns <= 8 and rest.startswith(b"%d:" % columns):
            lines[number] = line[: len(line) - len(rest)] + rest[1:]
    return b"\n".join(lines)


def said_of(text):
    """What the lines of a text say, in bytes and without its signs."""
    for mark, order in ((b"\xff\xfe", "little"), (b"\xfe\xff", "big")):
        if text.startswith(mark):
            text = in_bytes(text[2:], order)
            break
    if text.startswith(b"\xef\xbb\xbf"):
        text = text[3:]
    for symbol, letter in SYMBOLS.items():
        for selector in ("\ufe0e", "\ufe0f", ""):
            text = text.replace((symbol + selector).encode(), letter.encode())
    text = text.replace("\u00a0".encode(), b" ")
    return said(text.split(b"\n"))


def has_title(text):
    """Whether a title is left out of a text."""
    lines = said_of(text)
    return untitled(lines) != lines


def in_bytes(text, order):
    """Units of two bytes as bytes: halves of pairs, and a byte that is left alone, are question marks."""
    units = [text[at:at + 2] for at in range(0, len(text), 2)]
    numbers = [int.from_bytes(unit, order) if len(unit) == 2 else 0xD800 for unit in units]
    return "".join("?" if 0xD800 <= number < 0xE000 else chr(number) for number in numbers).encode()


def file_lines(text):
    """The numbers in the file of the lines that stay: all but those that are a comment alone, unless last, and the title."""
    if text.startswith((b"\xff\xfe", b"\xfe\xff")):
        return None
    text = text[3:] if text.startswith(b"\xef\xbb\xbf") else text
    lines = text.replace("\u00a0".encode(), b" ").split(b"\n")
    stay = [number for number, line in enumerate(lines, 1) if number == len(lines) or not line.lstrip(BLANKS).startswith(b"#")]
    told = said_of(text)
    kept = untitled(told)
    if kept != told:
        del stay[next(at for at, line in enumerate(told) if line.strip(BLANKS + b"\r"))]
    return stay


def said(lines):
    """What lines say: without comments and commas, their cells named as the reader names them."""
    told = []
    for number, line in enumerate(lines, 1):
        if line.lstrip(BLANKS).startswith(b"#"):
            told += [b""] if number == len(lines) else []
            continue
        line = line.split(b"#")[0]
        for spelled, name in ((rb"(?:cells?|free(?: cells?)?):", b"FC:"), (rb"homes?:", b"Deck:")):
            named = re.match(rb"([ \t]*)" + spelled, line, re.IGNORECASE)
            line = named[1] + name + line[named.end():] if named else line
        line = re.sub(rb"\A([ \t]*[1-8])[.)]", rb"\1:", line)
        told.append(line.replace(b",", b" "))
    return told


def untitled(lines):
    """The lines without the title, if the first that has more than blanks is one and another stands below."""
    for number, line in enumerate(lines[:-1]):
        body = line[:-1] if line.endswith(b"\r") else line
        if body.strip(BLANKS):
            return lines[:number] + lines[number + 1:] if is_title(body) else lines
    return lines


def is_title(body):
    """Whether a line is no foundation or cell line, and of its tokens one has a word and none may stand in a column."""
    if sort_line(body)[0] != "column":
        return False
    piece = body.lstrip(BLANKS)
    tokens = re.findall(rb"[^ \t]+", piece[len(re.match(rb"([1-8]:|:)?", piece)[0]):])
    is_of_board = lambda token: card_of(respelled_card(token)) is not None or card_of(token) is not None or token in (b"-", b"--", b"*", b".")
    return any(re.search(rb"[A-Za-z]{4}", token) for token in tokens) and not any(map(is_of_board, tokens))


def respelled(line):
    """A line whose cards have their ranks first, whose foundations are told by counts, and whose dash alone is nothing."""
    body, end = (line[:-1], b"\r") if line.endswith(b"\r") else (line, b"")
    kind, _tokens = sort_line(body)
    front = len(body) - len(body.lstrip(BLANKS))
    if kind == "column":
        front += len(re.match(rb"([1-8]:|:)?", body[front:])[0])
        if body[front:].strip(BLANKS) == b"-":
            return body[:front] + end
    else:
        names = FOUNDATIONS if kind == "homes" else CELLS
        front += next(len(name) for name in names if body[front:front + len(name)].lower() == name)
    spell = respelled_home if kind == "homes" else respelled_card
    return body[:front] + re.sub(rb"[^ \t]+", lambda token: spell(token[0]), body[front:]) + end


def respelled_card(token):
    is_suit_first = suit_of(token[:1]) is not None and rank_of(token[1:]) is not None
    return token[1:] + token[:1] if is_suit_first else token


def respelled_home(token):
    card = respelled_card(token)
    if card_of(card) is not None:
        return card[-1:] + b"-" + card[:-1]
    dashed = token[:1] + b"-" + token[2:]
    return dashed if token[1:2] == b":" and home_of(dashed) else token


def rank_of(token):
    """A rank, 1 to 13, or None."""
    if token == b"10":
        return 10
    at = RANKS.find(token.decode("latin-1").upper()) if len(token) == 1 and token.isascii() else -1
    return at + 1 if at >= 0 else None


def suit_of(token):
    at = SUITS.find(token.decode("latin-1").upper()) if len(token) == 1 and token.isascii() else -1
    return at if at >= 0 else None


def card_of(token):
    rank, suit = rank_of(token[:-1]), suit_of(token[-1:])
    return None if rank is None or suit is None else 4 * (rank - 1) + suit


def home_of(token):
    """A suit and how many of its cards are home, or None."""
    suit, dash, count = suit_of(token[:1]), token[1:2], 0 if token[2:] == b"0" else rank_of(token[2:])
    return None if suit is None or dash != b"-" or count is None else (suit, count)


def sort_line(line):
    """The kind of a line and its tokens."""
    piece = line.lstrip(BLANKS)
    for kind, names in (("homes", FOUNDATIONS), ("cells", CELLS)):
        for name in names:
            if piece[: len(name)].lower() == name:
                return kind, piece[len(name):].replace(b"\t", b" ").split(b" ")
    return "column", (piece[1:] if piece.startswith(b":") else piece).replace(b"\t", b" ").split(b" ")


def read_plain(text, cell_count):
    """The board of a plain text; raises its fault."""
    if len(text) > 4096:
        raise Fault("too long")
    lines = text.split(b"\n")
    if lines[-1] == b"":
        lines.pop()
    columns, cells, homes = [], None, None
    for number, line in enumerate(lines, 1):
        kind, tokens = sort_line(line[:-1] if line.endswith(b"\r") else line)
        tokens = [token for token in tokens if token]
        if kind == "homes":
            told = {}
            for token in tokens:
                home = home_of(token)
                if home is None or home[0] in told:
                    raise Fault(f"line {number}: not a foundation")
                told[home[0]] = home[1]
            if homes is not None:
                raise Fault(f"line {number}: repeated")
            homes = told
            continue
        cards = [None if kind == "cells" and token in (b"-", b"*") else card_of(token) for token in tokens]
        for token, card in zip(tokens, cards):
            if card is None and not (kind == "cells" and token in (b"-", b"*")):
                raise Fault(f"line {number}: not a card")
        if kind == "cells":
            if len(cards) > cell_count:
                raise Fault(f"line {number}: too many cells")
            if cells is not None:
                raise Fault(f"line {number}: repeated")
            cells = cards
        elif len(columns) < 8:
            columns.append(tuple(cards))
        elif cards:
            raise Fault(f"line {number}: too many columns")
    columns += [()] * (8 - len(columns))
    cells = (cells or []) + [None] * (cell_count - len(cells or []))
    homes = tuple((homes or {}).get(suit, 0) for suit in range(4))
    return whole(Board(tuple(columns), tuple(cells), homes))


def whole(board):
    """The board, if each card has one place; raises its fault."""
    counts = [0] * 52
    for card in [card for column in board.columns for card in column] + [card for card in board.cells if card is not None]:
        counts[card] += 1
    for suit, count in enumerate(board.homes):
        for rank in range(count):
            counts[4 * rank + suit] += 1
    for card in range(52):
        if counts[card] > 1:
            raise Fault(f"card {name_of(card)} stands twice")
    for card in range(52):
        if counts[card] == 0:
            raise Fault(f"card {name_of(card)} is missing")
    return board


def printed(board):
    """The board's ten lines."""
    homes = " ".join(f"{SUITS[suit]}-{('0' + RANKS)[board.homes[suit]]}" for suit in (2, 0, 1, 3))
    cells = "".join(" " + ("-" if card is None else name_of(card)) for card in board.cells)
    columns = "".join(":" + "".join(" " + name_of(card) for card in column) + "\n" for column in board.columns)
    return f"Foundations: {homes}\nFreecells:{cells}\n{columns}"


# Playing


def is_next(board, card):
    return board.homes[card % 4] == card // 4


def stands_on(game, card, under):
    is_red, is_under_red = card % 4 in (1, 2), under % 4 in (1, 2)
    return under // 4 == card // 4 + 1 and (under % 4 == card % 4 if game.is_bakers else is_red != is_under_red)


def takes(game, board, card, place):
    """Whether the place takes the card: 0 to 7 a column, 8 on a cell, -1 home."""
    if place < 0:
        return is_next(board, card)
    if place >= 8:
        return board.cells[place - 8] is None
    column = board.columns[place]
    return stands_on(game, card, column[-1]) if column else not game.is_kings or card // 4 == 12


def lift(board, place):
    """The card that may be taken from a place, and the board without it; or None."""
    if place >= 8:
        card = board.cells[place - 8]
        return None if card is None else (card, board._replace(cells=put_at(board.cells, place - 8, None)))
    column = board.columns[place]
    return (column[-1], board._replace(columns=put_at(board.columns, place, column[:-1]))) if column else None


def put_at(values, at, value):
    return values[:at] + (value,) + values[at + 1:]


def lay(board, card, place):
    if place < 0:
        return board._replace(homes=put_at(board.homes, card % 4, board.homes[card % 4] + 1))
    if place >= 8:
        return board._replace(cells=put_at(board.cells, place - 8, card))
    return board._replace(columns=put_at(board.columns, place, board.columns[place] + (card,)))


def move(game, board, source, target):
    """The board after a move, or None where it isn't allowed."""
    lifted = lift(board, source) if 0 <= source < 8 + game.cells else None
    if lifted is None or source == target or (source >= 8 and target >= 8) or target >= 8 + game.cells:
        return None
    card, rest = lifted
    return lay(rest, card, target) if takes(game, board, card, target) else None


def results(game, board):
    """The boards that one move leads to."""
    places = 8 + game.cells
    for source in range(places):
        for target in range(-1, places):
            after = move(game, board, source, target)
            if after is not None:
                yield after


def is_won(board):
    return board.homes == (13, 13, 13, 13)


def play(game, board, moves):
    """The board after a list of moves in standard notation, or None where one isn't allowed."""
    letters = "12345678abcd"
    for text in moves:
        board = move(game, board, letters.index(text[0]), letters.find(text[1]))
        if board is None:
            return None
    return board


def class_of(board):
    """What is equal for boards that differ in the order of columns and cells alone."""
    return tuple(sorted(board.columns)), tuple(sorted(-1 if card is None else card for card in board.cells)), board.homes


def fewest(game, start, most):
    """The length of a shortest list that wins, by a plain search breadth first; None where no list wins. Raises OverflowError
    where more than so many classes are met."""
    seen, ring, moves = {class_of(start)}, [start], 0
    while ring:
        further = []
        for board in ring:
            if is_won(board):
                return moves
            for after in results(game, board):
                name = class_of(after)
                if name not in seen:
                    seen.add(name)
                    further.append(after)
            if len(seen) > most:
                raise OverflowError
        ring, moves = further, moves + 1
    return None
