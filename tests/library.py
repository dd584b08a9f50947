"""The calls of lib/luffaknife.h, of the static library that is built here: what they hand over, why they refuse, and which rooms fit.

usage, at the top of the repository:  library.py answers     boards, deals and lists, with what is handed over
                                      library.py solves      boards that are searched by methods
                                      library.py sequences   lists whose entries may move several cards
                                      library.py reviews     lists of which is told which move loses, or how good they are
                                      library.py refusals    what is refused, with its number and its place
                                      library.py rooms       rooms that what is handed over fits, or doesn't
                                      library.py keeps       what is left behind, in place of rooms
                                      library.py changes     certificates with one byte changed, to each other value

Prints what differs, and how many calls were as they should be. The status is 77 where no library stands proved here.
"""
import ctypes
import itertools
import os
import re
import subprocess
import sys

sys.dont_write_bytecode = True
sys.path.insert(0, "lib/python")
import changes as changed_bytes

FREE_CELL, BAKERS = (0, 4), (1, 4)

ALL_HOME = "Foundations: H-K C-K D-K S-K\n"
# The king of spades is left, in the first cell.
ONE_KING = "Foundations: H-K C-K D-K S-Q\nFreecells: KS\n"
# The queen of spades lies under her king.
QUEEN_UNDER_KING = "Foundations: H-K C-K D-K S-J\nQS KS\n"
# The jack of spades lies under his queen, and the king beside them.
THREE_SPADES = "Foundations: H-K C-K D-K S-T\nJS QS\nKS\n"
TWO_KINGS = "Foundations: H-J C-K D-K S-J\nQS KH\nQH KS\n"
# The same, as people write a board.
TWO_KINGS_TYPED = "Foundations: JH, KC, KD, JS # two kings\n1: SQ \u2665K\n2: QH K\u2660\n"
# The queen of hearts lies on the king of spades: both may be carried at once.
TWO_CARDS = "Foundations: H-J C-K D-K S-Q\nKS QH\nKH\n"
# No card may move.
LOCKED = ("Foundations: H-7 C-7 D-7 S-7\nFreecells: KC KD KH KS\n8C 9C\n8D 9D\n8H 9H\n8S 9S\nTC QC JC\nTD QD JD\nTH QH JH\n"
          "TS QS JS\n")
# Three kings fill cells; that of spades lies on a column. Once it stands in the last cell, no card can move: the locked board.
KING_TO_MOVE = LOCKED.replace("KH KS\n8C 9C\n", "KH\n8C 9C KS\n")
# A list of thirty moves leads home.
THIRTY_MOVES = ("Foundations: H-6 C-7 D-7 S-8\nFreecells: 9C KC KD KH\n9H 9S\n7H 8H\n8D 9D\n8C JC\nQH TH JH\nQS TS JS\nQD TD JD\n"
                "QC TC KS\n")

# Deal 24, as another program prints it.
DEAL_24 = """\
4C 2C 9C 8C QS 4S 2H
5H QH 3C AC 3H 4H QD
QC 9S 6H 9H 3S KS 3D
5D 2S JC 5C JH 6D AS
2D KD TH TC TD 8D
7H JS KH TS KC 7C
AH 5S 6S AD 8H JD
7S 6C 7D 4D 8S 9D
"""

# The figures where nothing is answered, and where no list wins.
NOTHING, LOST = ("NONE", 0, 0, 0), ("CANNOT_WIN", 0, 0, 0)


def shortest(moves):
    """The figures of a shortest list of so many moves: no list that wins has fewer."""
    return "SHORTEST", moves, moves, 0


ALL_HOME_PRINTED = "Foundations: H-K C-K D-K S-K\nFreecells: - - - -\n:\n:\n:\n:\n:\n:\n:\n:\n"

# A game, a board, the number of its best answer, the figures, what is told of it, and what its certificate claims.
ANSWERS = [
    (FREE_CELL, ALL_HOME, "DONE", shortest(0), "shortest 0\n\n", "shortest 0"),
    (FREE_CELL, ONE_KING, "DONE", shortest(1), "shortest 1\nah\n", "shortest 1"),
    (FREE_CELL, LOCKED, "CANNOT_WIN", LOST, "can't be won\n", "can't be won"),
    (FREE_CELL, TWO_KINGS, "DONE", shortest(5), "shortest 5\n13 1h 2h 2h 3h\n", "shortest 5"),
    ((2, 2), TWO_KINGS_TYPED, "DONE", shortest(5), "shortest 5\n13 1h 2h 2h 3h\n", "shortest 5"),
    ((2, 0), THREE_SPADES, "CANNOT_WIN", LOST, "can't be won\n", "can't be won"),
    ((3, 0), THREE_SPADES, "DONE", shortest(4), "shortest 4\n12 1h 2h 2h\n", "shortest 4"),
]

# A certificate without a record that says of any board that no list of fewer than 0 moves wins, which is so of a won one.
EMPTY = b"FCC2\0\4\0\1\0\0\0\0\0\0\0\0"

# A call, what is handed in, the number that tells why it is refused, and where that lies.
REFUSALS = [
    # texts that are no board
    *[("best", (FREE_CELL, 100, text), number, place) for text, number, place in (
        ("KS\nXX\n", "NOT_A_CARD", 2),
        ("Foundations: H-X\n", "NOT_A_FOUNDATION", 1),
        ("\nFreecells: - - - - -\n", "TOO_MANY_CELLS", 2),
        ("\n\n\n\n\n\n\n\nKS\n", "TOO_MANY_COLUMNS", 9),
        ("FC: -\nFC: -\n", "REPEATED_LINE", 2),
        ("AC AD AD\n", "REPEATED_CARD", 1),
        ("Foundations: H-K C-K D-K S-Q\n", "MISSING_CARD", 51),
        ("\n\n", "MISSING_CARD", 0),
        (" " * 16_385, "BOARD_TOO_LONG", 0),
        (" " * 16_384, "BOARD_TOO_LONG", 0),
    )],
    # names of no game
    *[it for game in ((4, 4), (0, 5)) for it in (
        ("best", (game, 100, ONE_KING), "BAD_GAME", 0),
        ("check", (game, ONE_KING, b""), "BAD_GAME", 0),
        ("replay", (game, ONE_KING, ""), "BAD_GAME", 0),
    )],
    # numbers that are no budget, and no deal's
    ("best", (FREE_CELL, 0, ONE_KING), "BAD_BUDGET", 0),
    ("best", (FREE_CELL, 16_000_001, ONE_KING), "BAD_BUDGET", 0),
    ("deal", (0,), "BAD_DEAL", 0),
    ("deal", (1_000_001,), "BAD_DEAL", 0),
    ("review", (FREE_CELL, 100, QUEEN_UNDER_KING, "1a ax 1h"), "NOT_A_MOVE", 2),
    ("review", (FREE_CELL, 100, QUEEN_UNDER_KING, "1a 2a"), "NOT_ALLOWED", 2),
    ("review", (FREE_CELL, 100, QUEEN_UNDER_KING, " " * 1_048_577), "TOO_LONG", 0),
    ("review", (FREE_CELL, 0, QUEEN_UNDER_KING, "xx"), "BAD_BUDGET", 0),
    ("review", (FREE_CELL, 1, "XX", "xx"), "NOT_A_CARD", 1),
    # methods: each fault only where those before it have no cause
    *[("solve", ((0, 4), method, text), number, place) for method, text, number, place in (
        ((3, 2, 9, 2, 0), "XX", "BAD_RULE", 0),
        ((2, 2, 9, 2, 0), "XX", "BAD_BOUND", 0),
        ((2, 1, 9, 2, 0), "XX", "BAD_WEIGHT", 0),
        ((2, 1, 101, 2, 0), "XX", "BAD_WEIGHT", 0),
        ((2, 1, 100, 2, 0), "XX", "BAD_EXPANSION", 0),
        ((2, 1, 10, 1, 0), "XX", "BAD_BUDGET", 0),
        ((2, 1, 10, 1, 4_000_001), "XX", "BAD_BUDGET", 0),
        ((2, 1, 10, 1, 4_000_000), "XX", "NOT_A_CARD", 1),
    )],
    ("solve", ((4, 4), (3, 1, 10, 1, 1), ONE_KING), "BAD_GAME", 0),
    # bytes that are no certificate of the board
    ("check", (FREE_CELL, ONE_KING, b"FCC"), "CERT_SHORT", 0),
    ("check", (FREE_CELL, ONE_KING, b"FCC9"), "CERT_BAD_MAGIC", 0),
    ("check", (FREE_CELL, ONE_KING, EMPTY), "CERT_NOT_HOME", 0),
    ("check", (FREE_CELL, ONE_KING, EMPTY + b"!"), "CERT_TRAILING", 0),
    # lists
    ("replay", (FREE_CELL, QUEEN_UNDER_KING, "1a 1h ax"), "NOT_A_MOVE", 3),
    ("replay", (FREE_CELL, QUEEN_UNDER_KING, "shortest 3\n1a 1h ax"), "NOT_A_MOVE", 3),
    ("replay", (FREE_CELL, QUEEN_UNDER_KING, "won\n1a 1h ah"), "NOT_A_MOVE", 1),
    ("replay", (FREE_CELL, QUEEN_UNDER_KING, " won 3, at least 3\n1a 1h ah"), "NOT_A_MOVE", 1),
    ("replay", (FREE_CELL, QUEEN_UNDER_KING, "1a a1 1h"), "NOT_ALLOWED", 2),
    ("replay", (FREE_CELL, QUEEN_UNDER_KING, " " * 1_048_577), "TOO_LONG", 0),
    ("replay_sequences", (FREE_CELL, TWO_CARDS, "1h 13v2x"), "NOT_A_MOVE", 2),
    ("replay_sequences", (FREE_CELL, TWO_CARDS, "13v3"), "NOT_ALLOWED", 1),
    ("replay_sequences", (FREE_CELL, TWO_CARDS, " " * 1_048_577), "TOO_LONG", 0),
    ("replay_sequences", ((4, 4), TWO_CARDS, "13v2"), "BAD_GAME", 0),
]


class Library:
    """The calls, with the names of the header's numbers."""

    def __init__(self):
        built = subprocess.run(["lib/make", "--over"], capture_output=True, check=False).returncode
        if built:
            print("no library stands proved here" if built == 4 else "the library isn't built")
            sys.exit(77 if built == 4 else 1)
        os.environ["LUFFAKNIFE_LIBRARY"] = os.path.abspath("lib/out/libluffaknife.so")
        from luffaknife import calls

        self.calls = calls
        with open("lib/luffaknife.h", encoding="utf-8") as it:
            named = re.findall(r"LUFFAKNIFE_(\w+) = (\d+)", it.read())
        self.names = {int(number): name for name, number in named if not name.startswith("KIND_")}
        self.kinds = {int(number): name.removeprefix("KIND_") for name, number in named if name.startswith("KIND_")}

    def call(self, name, given, sizes=None):
        """How a call ended: the name of its number, the place, the figures, how long the text and the certificate are, and what stands in
        the rooms. They hold dots before, and so do 16 bytes behind each, which aren't lent."""
        sizes = sizes or [4096] * (2 if name.endswith("_certified") else 1)
        rooms = [ctypes.create_string_buffer(b"." * (size + 16), size + 16) for size in sizes]
        words = [word for one in given for word in self.words_of(one)]
        words += [word for room, size in zip(rooms, sizes) for word in (room, ctypes.c_size_t(size))]
        ended = self.calls.call(name, *words)
        return *self.told(ended), [room.raw for room in rooms]

    def told(self, ended):
        """How a call ended, but for what was handed over."""
        figures = self.kinds[ended.figures.kind], ended.figures.moves, ended.figures.floor, ended.figures.budget
        return self.names[ended.status], ended.place, figures, ended.text_len, ended.certificate_len


    def keep(self, name, given, count=1):
        """The same of a call that leaves what it hands over behind, and what each struct shows, which is freed; it shows `before` before."""
        before = ctypes.create_string_buffer(b"before", 6)
        kept = [self.calls.Bytes(ctypes.addressof(before), 6) for _ in range(count)]
        words = [word for one in given for word in self.words_of(one)] + [ctypes.byref(it) for it in kept]
        ended = self.calls.call(f"keep_{name}", *words)
        shown = [ctypes.string_at(it.bytes, it.len) if it.bytes == ctypes.addressof(before) else it.take() for it in kept]
        return *self.told(ended), shown

    def words_of(self, given):
        """What is handed over to C for a game, a number, a text or bytes."""
        if isinstance(given, tuple):
            return [self.calls.Game(*given) if len(given) == 2 else self.calls.Method(*given)]
        if isinstance(given, int):
            return [ctypes.c_uint32(given)]
        return self.calls.handed(given.encode() if isinstance(given, str) else given)


def held(size, *parts):
    """What a room of so many bytes holds, and 16 behind it: these bytes, and then the dots that stood there."""
    return b"".join(parts).ljust(size + 16, b".")


def handed(number, text, figures=NOTHING, size=4096):
    """How a call with one room ends that hands over a text."""
    return number, 0, figures, len(text), 0, [held(size, text.encode())]


def answers(library):
    """Calls that hand over: each with how it ended, and how it should."""
    for game, board, number, figures, text, claim in ANSWERS:
        yield "best", library.call("best", (game, 1000, board)), handed(number, text, figures)
        told = library.call("best_certified", (game, 1000, board))
        certificate = told[5][1][:told[4]]
        yield "best_certified", told, (number, 0, figures, len(text), len(certificate), [held(4096, text.encode()), held(4096, certificate)])
        yield "check", library.call("check", (game, board, certificate)), handed("DONE", f"accepted: {claim}\n", figures)
    # a list that wins, and a floor below it
    between = handed("DONE", "accepted: won 5, at least 4\n", ("WON", 5, 4, 0))
    yield "check", library.call("check", (FREE_CELL, TWO_KINGS, changed_bytes.BETWEEN_BYTES)), between
    # giving up has no certificate
    gave_up = b"gave up 1\n"
    wanted = "GAVE_UP", 0, ("GAVE_UP", 0, 0, 1), len(gave_up), 0, [held(4096, gave_up), held(4096)]
    yield "giving up", library.call("best_certified", (BAKERS, 1, THIRTY_MOVES)), wanted
    yield "deal", library.call("deal", (24,)), handed("DONE", DEAL_24)
    yield "replay", library.call("replay", (FREE_CELL, ONE_KING, "AH")), handed("DONE", ALL_HOME_PRINTED)
    yield "replay", library.call("replay", (FREE_CELL, ONE_KING, " \n")), handed("NOT_WON", "")
    # an answer's text is the list of its moves, whatever its first line tells
    for text in ("shortest 1\nah\n", "won 2, at least 1\nah", "shortest \n\nah\n"):
        yield "an answer", library.call("replay", (FREE_CELL, ONE_KING, text)), handed("DONE", ALL_HOME_PRINTED)
    for text in ("shortest 1\n", "won 1, at least 1"):
        yield "no moves", library.call("replay", (FREE_CELL, ONE_KING, text)), handed("NOT_WON", "")


def sequences(library):
    """Lists whose entries may move several cards: the boards are those of their one-card moves."""
    for board, list_of_entries, moves, number in (
        (TWO_CARDS, "13v2 3h 3h 2h", "1a 13 a3 3h 3h 2h", "DONE"),
        (TWO_CARDS, "shortest 3\n13v2 3h 3h 2h", "1a 13 a3 3h 3h 2h", "DONE"),
        (TWO_CARDS, "13V2", "1a 13 a3", "NOT_WON"),
        (TWO_CARDS, "13v1 1h", None, None),
        (TWO_CARDS, "1h 1h 2h", "1h 1h 2h", "DONE"),
        (ONE_KING, "", "", "NOT_WON"),
    ):
        told = library.call("replay_sequences", (FREE_CELL, board, list_of_entries))
        wanted = library.call("replay", (FREE_CELL, board, moves or list_of_entries.replace("v1", "")))
        yield list_of_entries, told, wanted
        yield "its status", told[0], number or wanted[0]


# A game, a board, a list, how a review of it ends, which move loses, the figures, and its line.
REVIEWS = [
    (FREE_CELL, ONE_KING, "ah", "DONE", 0, shortest(1), "won in 1 move, 0 by hand; no list wins in fewer\n"),
    (FREE_CELL, QUEEN_UNDER_KING, "1a 1h ah", "DONE", 0, shortest(3), "won in 3 moves, 1 by hand; no list wins in fewer\n"),
    (FREE_CELL, QUEEN_UNDER_KING, "shortest 3\n1a 1h ah\n", "DONE", 0, shortest(3), "won in 3 moves, 1 by hand; no list wins in fewer\n"),
    # (a move more than a shortest list; the two that carry the king to the other column are one entry)
    (FREE_CELL, QUEEN_UNDER_KING, "1a a2 1h 2h", "DONE", 0, ("WON", 4, 3, 0),
     "won in 4 moves, 1 by hand; no list wins in fewer than 3; the best one found has 3\n"),
    # (moves home are left out, and put in)
    (FREE_CELL, QUEEN_UNDER_KING, "1a", "DONE", 0, shortest(3), "won in 3 moves, 1 by hand; no list wins in fewer\n"),
    (FREE_CELL, QUEEN_UNDER_KING, "", "DONE", 0, shortest(3), "there are no moves: from here 3 moves win, and none fewer\n"),
    # (each of 24 cards goes home, and before that each nine, jack and queen, which lie on a lower card of their suit, to another place)
    (FREE_CELL, KING_TO_MOVE, "1d", "DONE", 1, shortest(36),
     "move 1, 1d (KS from column 1 to cell d), loses: 36 moves win before it, none after\n"),
    (FREE_CELL, LOCKED, "", "CANNOT_WIN", 0, NOTHING, "can't be won, before any of these moves\n"),
    ((2, 0), THREE_SPADES, "", "CANNOT_WIN", 0, NOTHING, "can't be won, before any of these moves\n"),
    # (all is home, after no move)
    (FREE_CELL, ALL_HOME, "", "DONE", 0, shortest(0), "won in 0 moves, 0 by hand; no list wins in fewer\n"),
]


def reviews(library):
    """Lists that win, lists with a move that loses, and boards that can't be won."""
    for game, board, moves, number, place, figures, line in REVIEWS:
        given, wanted = (game, 100_000, board, moves), (number, place, figures, len(line), 0)
        yield f"{moves!r}", library.call("review", given), (*wanted, [held(4096, line.encode())])
        yield f"{moves!r}, kept", library.keep("review", given), (*wanted, [line.encode()])
    # where the searches give up, no move is known to lose
    gave_up = "gave up: no list was found on the way\n"
    yield "giving up", library.call("review", (BAKERS, 1, THIRTY_MOVES, "")), ("GAVE_UP", 0, NOTHING, len(gave_up), 0, [held(4096, gave_up.encode())])
    # a deal whose third move loses
    size, _, (room,) = library.call("deal", (617,))[3:]
    number, place, (kind, most, least, _), size, _, (room,) = library.call("review", (FREE_CELL, 1_000_000, room[:size], "1a 2b 3c 4d"))
    told = re.fullmatch(rb"move 3, 3c \([^()\n]+\), loses: (\d+) moves win before it, none after\n", room[:size])
    yield "deal 617", (number, place, told and int(told[1]), kind in ("SHORTEST", "WON"), least <= most), ("DONE", 3, most, True, True)


def solves(library):
    """Boards that are searched by each method: the figures are those of the best answers, and what is won by twenty tenths is no more
    than twice a shortest list, and tells a floor that is no more than that."""
    for game, board, number, figures, _, claim in ANSWERS:
        for rule, bound, expansion in itertools.product(range(3), range(2), range(2)):
            told = library.call("solve", (game, (rule, bound, 10, expansion, 1000), board))
            text = told[5][0][:told[3]].decode()
            yield f"{claim} by {rule} {bound} {expansion}", (*told[:3], text.split("\n", maxsplit=1)[0]), (number, 0, figures, claim)
            kept = library.keep("solve", (game, (rule, bound, 10, expansion, 1000), board))
            yield "kept", kept, (number, 0, figures, len(text), 0, [text.encode()])
            both = library.keep("solve_certified", (game, (rule, bound, 10, expansion, 1000), board), 2)
            yield "its certificate", (both[:4], both[5][0].decode()), ((number, 0, figures, len(text)), text)
            yield "checked", library.call("check", (game, board, both[5][1])), handed("DONE", f"accepted: {claim}\n", figures)
        number, _, (kind, moves, floor, _), *_ = library.call("solve_certified", (game, (2, 1, 20, 0, 1000), board))
        fewest = figures[1]
        yield "within the weight", number == "CANNOT_WIN" or (kind != "GAVE_UP" and fewest <= moves <= 2 * fewest and floor <= fewest), True
    gave_up = handed("GAVE_UP", "gave up 1\n", ("GAVE_UP", 0, 0, 1))
    yield "giving up", library.call("solve", (BAKERS, (2, 1, 10, 1, 1), THIRTY_MOVES)), gave_up


def refusals(library):
    """Calls that are refused, which leave their room as it was."""
    for name, given, number, place in REFUSALS:
        yield f"{name} {given!r:.80}", library.call(name, given), (number, place, NOTHING, 0, 0, [held(4096)])


def rooms(library):
    """Rooms that fit, and others: where one doesn't, all stay as they were, and the lengths say how much room is wanted."""
    text = library.call("deal", (1,))[5][0][:156]
    yield "a deal ends with its last line", text[-1:], b"\n"
    yield "a room and two bytes more", library.call("deal", (1,), [158]), ("DONE", 0, NOTHING, 156, 0, [held(158, text)])
    yield "a byte less", library.call("deal", (1,), [155]), ("NO_ROOM", 0, NOTHING, 156, 0, [held(155)])
    yield "a refused call", library.call("deal", (0,), [155]), ("BAD_DEAL", 0, NOTHING, 0, 0, [held(155)])
    # both are put, or neither
    king, answer = (FREE_CELL, 100, ONE_KING), b"shortest 1\nah\n"
    _, _, _, _, size, (_, certificate) = library.call("best_certified", king)
    certificate = certificate[:size]
    yield "a certificate of more than 15 bytes, of the third form", (size > 15, certificate[3:4]), (True, b"3")
    for sizes, number, inside in (((14, 15), "NO_ROOM", (b"", b"")), ((14, 100), "DONE", (answer, certificate)), ((13, 100), "NO_ROOM", (b"", b""))):
        # (the figures are told either way)
        wanted = number, 0, shortest(1), 14, size, [held(*it) for it in zip(sizes, inside)]
        yield f"rooms of {sizes}", library.call("best_certified", king, sizes), wanted


def keeps(library):
    """Calls that leave behind what others put into rooms; a refused one leaves the structs as they were."""
    for game, board, number, figures, text, _ in ANSWERS:
        told = library.call("best_certified", (game, 1000, board))
        certificate = told[5][1][:told[4]]
        yield "best", library.keep("best", (game, 1000, board)), (number, 0, figures, len(text), 0, [text.encode()])
        wanted = number, 0, figures, len(text), len(certificate), [text.encode(), certificate]
        yield "best_certified", library.keep("best_certified", (game, 1000, board), 2), wanted
    gave_up = "GAVE_UP", 0, ("GAVE_UP", 0, 0, 1), 10, 0, [b"gave up 1\n", b""]
    yield "giving up", library.keep("best_certified", (BAKERS, 1, THIRTY_MOVES), 2), gave_up
    for name, given, number, place in REFUSALS:
        if name in ("best", "review"):
            yield f"{given!r:.80}", library.keep(name, given), (number, place, NOTHING, 0, 0, [b"before"])
        if name == "best":
            yield f"{given!r:.80}", library.keep("best_certified", given, 2), (number, place, NOTHING, 0, 0, [b"before"] * 2)


def changes(library):
    """Certificates with one byte changed: the fault that the table of fields says, and no false claim."""
    for it in changed_bytes.CERTIFICATES:
        with open(f"boards/{it.board}.txt", encoding="utf-8") as text:
            board = text.read()
        for at, value, certificate in changed_bytes.changed(it):
            number, place, _, size, _, rooms = library.call("check", (FREE_CELL, board, certificate), [64])
            told = number, place, rooms[0][:size].decode()
            yield f"{it.board} ({it.claim}), byte {at} as {value}", (*told, changed_bytes.is_right(it, at, value, *told)), (*told, True)


def brief(it):
    """What is to be printed, with no more than eight dots of a room in a row."""
    return re.sub(r"\.{9,}", "." * 8, repr(it))


def main(word):
    library, good, failed = Library(), 0, 0
    words = {it.__name__: it for it in (answers, solves, sequences, reviews, refusals, rooms, keeps, changes)}
    for name, told, wanted in words[word](library):
        good, failed = good + (told == wanted), failed + (told != wanted)
        if told != wanted:
            print(f"{name}: told {brief(told)}, wanted {brief(wanted)}")
    print(f"{word}: {good} as they should be")
    return 1 if failed else 0


if __name__ == "__main__":
    sys.exit(main(sys.argv[1]))
