"""FreeCell, solved, with answers that are proved: deals, best answers and searches by a method, with certificates that a checker
accepts or refuses without searching; lists replayed and reviewed.

>>> import luffaknife
>>> luffaknife.best(617).moves
98

A board is its text, as docs/RULES.md of the project has it, or the number of a deal, 1 to 1000000. What a call answers is proved as what
the program answers is; see lib/README.md.
"""
from __future__ import annotations

import ctypes
import threading
from dataclasses import dataclass, field
from typing import List, Optional, Sequence, Union

from . import calls

__all__ = ["Answer", "Claim", "Game", "Refused", "Replay", "Review", "best", "check", "deal", "replay", "review", "solve", "version"]

Board = Union[str, int]
Moves = Union[str, Sequence[str]]

_KINDS = ("none", "shortest", "won", "can't be won", "gave up")
_BOUNDS = ("plain", "clearing")
_EXPANSIONS = ("full", "partial")
_GAMES = ("freecell", "bakers")
_KINGS = 2
_RANKS, _SUITS = "A23456789TJQK", "CDHS"
# How often a call that runs looks whether Ctrl-C was pressed, in seconds.
_HEARD_EACH = 0.2

_REFUSALS = {
    16: "BadGame", 17: "BadDeal", 18: "BadBudget", 19: "NoMemory", 20: "NoRoom", 21: "TooLong", 22: "NotAMove", 23: "NotAllowed",
    24: "TooManyWays", 25: "BadRule", 26: "BadBound", 27: "BadWeight", 28: "BadExpansion", 32: "BoardTooLong", 33: "NotACard",
    34: "NotAFoundation", 35: "TooManyCells", 36: "TooManyColumns", 37: "RepeatedLine", 38: "RepeatedCard", 39: "MissingCard",
    48: "Short", 49: "BadMagic", 50: "BadCells", 51: "BadRule", 52: "BadBound", 53: "BadKind", 54: "BadFloor", 55: "BadMove",
    56: "BadRecord", 57: "Order", 58: "Label", 59: "Trailing", 60: "OtherGame", 61: "NotAllowed", 62: "NotHome", 63: "StartOpen",
    64: "WonListed", 65: "Open",
}
_REFUSED_FROM, _NO_ROOM, _TOLD_BY_CARD = 16, 20, (38, 39)
_BAD_GAME, _BAD_DEAL, _BAD_BUDGET, _BAD_RULE, _BAD_BOUND, _BAD_WEIGHT, _BAD_EXPANSION = 16, 17, 18, 25, 26, 27, 28
_BYTE, _WORD = 2**8 - 1, 2**32 - 1


class Refused(Exception):
    """A call that is refused: its `reason`, by the names of luffaknife.h and docs/CERTIFICATE-FORMAT.md, and its `place`: a line, a
    step, a card such as `QS`, or 0."""

    def __init__(self, status: int, place: int = 0):
        self.reason = _REFUSALS.get(status, f"status {status}")
        self.place = _RANKS[place // 4] + _SUITS[place % 4] if status in _TOLD_BY_CARD else place
        super().__init__(f"{self.reason} ({self.place})" if self.place else self.reason)


@dataclass(frozen=True)
class Game:
    """The game: `freecell`, in turning colours, or `bakers`, in suit; whether only kings may go to an empty column; and how many cells
    there are, 0 to 4."""

    name: str = "freecell"
    kings: bool = False
    cells: int = 4


FREECELL = Game()


@dataclass(frozen=True)
class Answer:
    """An answer: `shortest`, `won`, `can't be won` or `gave up`; how many moves its list has, and the fewest that any list has that
    wins, as far as that is shown; the list; of giving up, more positions than how many can be reached; the certificate, where it was
    asked for; and the text, as the program prints it."""

    kind: str
    moves: Optional[int]
    floor: Optional[int]
    list: Optional[List[str]]
    budget: Optional[int]
    text: str = field(repr=False)
    certificate: Optional[bytes] = field(default=None, repr=False)


@dataclass(frozen=True)
class Claim:
    """What a certificate proves of a board."""

    kind: str
    moves: int
    floor: int
    text: str = field(repr=False)


@dataclass(frozen=True)
class Replay:
    """The board after each move of a list, and whether the last one is won."""

    is_won: bool
    boards: List[str] = field(repr=False)


@dataclass(frozen=True)
class Review:
    """Of a list: the number of the move that loses, from 1, if one is known to; and what is told of the list that wins, or of the best
    one from the last board on the way from which one is told."""

    losing: Optional[int]
    kind: str
    moves: int
    floor: int
    text: str


def _in_a_thread(does):
    """What a function answers that is called in a thread of its own, so that Ctrl-C is heard while it runs; a call that is left runs on to
    its end, and what it tells is dropped."""
    told, failed = [], []

    def run():
        try:
            told.append(does())
        except BaseException as error:  # (it is raised where it was asked for)
            failed.append(error)

    thread = threading.Thread(target=run, daemon=True)
    thread.start()
    while thread.is_alive():
        thread.join(_HEARD_EACH)
    if failed:
        raise failed[0]
    return told[0]


def _ended(ended: calls.Call) -> calls.Call:
    if ended.status >= _REFUSED_FROM:
        raise Refused(ended.status, ended.place)
    return ended


def _kept(name: str, *words, count: int = 1):
    """A call that leaves bytes behind, which are copied and freed."""

    def does():
        kept = [calls.Bytes.none() for _ in range(count)]
        ended = _ended(calls.call(name, *words, *(ctypes.byref(it) for it in kept)))
        return ended, [it.take() for it in kept]

    return _in_a_thread(does)


def _written(name: str, *words):
    """A call with a room for its text, as large as it says."""

    def does():
        size = 4096
        while True:
            room = ctypes.create_string_buffer(size)
            ended = calls.call(name, *words, room, ctypes.c_size_t(size))
            if ended.status != _NO_ROOM:
                return _ended(ended), room.raw[: ended.text_len].decode()
            size = ended.text_len

    return _in_a_thread(does)


def _number(names, name, status) -> int:
    if name not in names:
        raise Refused(status)
    return names.index(name)


def _within(number, most, status) -> int:
    """A whole number as C is handed it: one that is greater would be cut."""
    if not isinstance(number, int) or not 0 <= number <= most:
        raise Refused(status)
    return number


def _game(game: Game) -> calls.Game:
    return calls.Game(_number(_GAMES, game.name, _BAD_GAME) + (_KINGS if game.kings else 0), _within(game.cells, _BYTE, _BAD_GAME))


def _board(board: Board) -> bytes:
    return (deal(board) if isinstance(board, int) else board).encode()


def _list(moves: Moves) -> bytes:
    return (moves if isinstance(moves, str) else " ".join(moves)).encode()


def _answer(ended: calls.Call, made: List[bytes]) -> Answer:
    figures, text = ended.figures, made[0].decode()
    kind = _KINDS[figures.kind]
    has_list = kind in ("shortest", "won")
    return Answer(
        kind,
        figures.moves if has_list else None,
        figures.floor if has_list else None,
        text.split("\n")[1].split() if has_list else None,
        figures.budget if kind == "gave up" else None,
        text,
        made[1] if len(made) > 1 and kind != "gave up" else None,
    )


def deal(number: int) -> str:
    """The text of a numbered deal."""
    return _written("deal", ctypes.c_uint32(_within(number, _WORD, _BAD_DEAL)))[1]


def best(board: Board, *, budget: int = 500_000, game: Game = FREECELL, certificate: bool = False) -> Answer:
    """The best answer within a budget of positions, 1 to 16000000."""
    name, count = ("keep_best_certified", 2) if certificate else ("keep_best", 1)
    words = (_game(game), ctypes.c_uint32(_within(budget, _WORD, _BAD_BUDGET)), *calls.handed(_board(board)))
    return _answer(*_kept(name, *words, count=count))


def solve(board: Board, *, rule: int = 2, bound: str = "plain", weight: float = 1, expansion: str = "full", budget: int = 100_000,
          game: Game = FREECELL, certificate: bool = False) -> Answer:
    """The answer of one search: by a home rule, 0 to 2, a bound, `plain` or `clearing`, at most `weight` times the fewest moves, 1 to
    10 in tenths, an expansion, `full` or `partial`, and within a budget of positions, 1 to 4000000."""
    if not weight * 10 < 256 or abs(round(weight * 10) - weight * 10) > 1e-9:
        raise Refused(_BAD_WEIGHT)
    tenths = round(weight * 10)
    method = calls.Method(
        _within(rule, _BYTE, _BAD_RULE),
        _number(_BOUNDS, bound, _BAD_BOUND),
        _within(tenths, _BYTE, _BAD_WEIGHT),
        _number(_EXPANSIONS, expansion, _BAD_EXPANSION),
        _within(budget, _WORD, _BAD_BUDGET),
    )
    name, count = ("keep_solve_certified", 2) if certificate else ("keep_solve", 1)
    return _answer(*_kept(name, _game(game), method, *calls.handed(_board(board)), count=count))


def check(board: Board, certificate: bytes, *, game: Game = FREECELL) -> Claim:
    """What a certificate proves of a board."""
    ended, text = _written("check", _game(game), *calls.handed(_board(board)), *calls.handed(certificate))
    figures = ended.figures
    return Claim(_KINDS[figures.kind], figures.moves, figures.floor, text.rstrip("\n"))


def replay(board: Board, moves: Moves, *, sequences: bool = False, game: Game = FREECELL) -> Replay:
    """The board after each move of a list, whose entries may move several cards where `sequences` says so."""
    name = "replay_sequences" if sequences else "replay"
    ended, text = _written(name, _game(game), *calls.handed(_board(board)), *calls.handed(_list(moves)))
    parts = text.split("Foundations: ")[1:]
    return Replay(ended.status == 0, [f"Foundations: {it}" for it in parts])


def review(board: Board, moves: Moves, *, budget: int = 500_000, game: Game = FREECELL) -> Review:
    """Which move of a list loses, or how good a list is that wins, by best answers within a budget."""
    words = (_game(game), ctypes.c_uint32(_within(budget, _WORD, _BAD_BUDGET)), *calls.handed(_board(board)), *calls.handed(_list(moves)))
    ended, made = _kept("keep_review", *words)
    figures = ended.figures
    return Review(ended.place or None, _KINDS[figures.kind], figures.moves, figures.floor, made[0].decode().rstrip("\n"))


def version() -> str:
    """That of the library, such as `0.2.0`."""
    number = calls.library.luffaknife_version()
    return f"{number // 1_000_000}.{number // 1_000 % 1_000}.{number % 1_000}"
