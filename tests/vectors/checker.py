#!/usr/bin/env python3
"""A third checker of certificates, in the order of docs/CERTIFICATE-FORMAT.md and as plainly as that page says it.

    checker.py [--game bakers] [--kings] [--cells N] BOARD CERTIFICATE

It is here for wrong_versions.py, which changes it line by line, and for whoever would rather read Python. BOARD is a text as `run
--help` has it. The status is 0 where the certificate is accepted, 3 where it is refused.
"""
import argparse
import sys
from typing import NamedTuple

EMPTY = 0xFF
SUITS, RANKS = "CDHS", "A23456789TJQK"
SOURCES, DESTINATIONS = b"12345678abcd", b"12345678abcdh"
COLUMNS, CELLS, HOME = range(8), range(8, 12), 12


class Refused(Exception):
    """The name of a fault."""


def ask(holds, fault):
    if not holds:
        raise Refused(fault)


def rank(card):
    return card // 4 + 1


def suit(card):
    return card % 4


class Game(NamedTuple):
    """The two bytes of a game."""

    code: int
    cells: int

    def may_stand(self, card, on):
        are_of_one_colour = (suit(card) in (1, 2)) == (suit(on) in (1, 2))
        fits = suit(card) == suit(on) if self.code % 2 == 1 else not are_of_one_colour
        return fits and rank(on) == rank(card) + 1

    def may_go_to_an_empty_column(self, card):
        return self.code < 2 or rank(card) == 13


class Position(NamedTuple):
    """How many cards of each suit are home, what the cells hold, and the columns, the deepest card first."""

    home: tuple
    cells: tuple
    columns: tuple

    def is_home(self, card):
        return rank(card) <= self.home[suit(card)]

    def is_next(self, card):
        return rank(card) == self.home[suit(card)] + 1

    def is_won(self):
        return self.home == (13, 13, 13, 13)

    def card_at(self, place):
        """The card that may be taken from a place, or that a card would stand on; none is None."""
        if place in COLUMNS:
            return self.columns[place][-1] if self.columns[place] else None
        return None if self.cells[place - 8] == EMPTY else self.cells[place - 8]

    def allows(self, game, source, to):
        card = self.card_at(source)
        if card is None:
            return False
        if to == HOME:
            return self.is_next(card)
        if to in CELLS:
            return source in COLUMNS and to - 8 < game.cells and self.card_at(to) is None
        if self.card_at(to) is None:
            return game.may_go_to_an_empty_column(card)
        return source != to and game.may_stand(card, self.card_at(to))

    def after(self, source, to):
        card, cells, columns, home = self.card_at(source), list(self.cells), list(self.columns), list(self.home)
        if source in COLUMNS:
            columns[source] = columns[source][:-1]
        else:
            cells[source - 8] = EMPTY
        if to == HOME:
            home[suit(card)] += 1
        elif to in CELLS:
            cells[to - 8] = card
        else:
            columns[to] = (*columns[to], card)
        return Position(tuple(home), tuple(cells), tuple(columns))

    def goes_home(self, game, rule, card):
        """Whether the card is forced, by rule 1, or free, by rule 2."""
        lower = (other for other in range(52) if game.may_stand(other, card))
        is_done = lambda other: self.is_home(other) or rule == 2 and self.goes_home(game, rule, other)
        return rule > 0 and self.is_next(card) and all(map(is_done, lower))

    def settled(self, game, rule):
        """What the position settles to, and in how many moves."""
        position, moves = self, 0
        while True:
            cards = [(position.card_at(place), place) for place in (*COLUMNS, *CELLS)]
            goers = [(card, place) for card, place in cards if card is not None and position.goes_home(game, rule, card)]
            if not goers:
                return position, moves
            position = position.after(min(goers)[1], HOME)
            moves += 1

    def key(self):
        first = lambda column: column[0] if column else EMPTY
        key = bytes(self.home) + bytes(sorted(self.cells))
        for column in sorted(self.columns, key=first):
            key += bytes([len(column), *column])
        return key

    def held(self):
        """The cards in columns above a lower card of their own suit."""
        stand_on = [(card, column[:i]) for column in self.columns for i, card in enumerate(column)]
        return {card for card, below in stand_on if any(suit(it) == suit(card) and it < card for it in below)}

    def not_home(self):
        return 52 - sum(self.home)

    def plain_bound(self):
        return self.not_home() + len(self.held())

    def without_loose(self, heights):
        """The heights when all cards have left that leave at once."""
        held, heights = self.held(), list(heights)
        while True:
            left = [card for column, height in zip(self.columns, heights) for card in column[:height]]
            lasts = [(i, self.columns[i][heights[i] - 1]) for i in COLUMNS if heights[i] > 0]
            waits = lambda card: any(suit(it) == suit(card) and it < card for it in left)
            loose = [i for i, card in lasts if card in held or not waits(card)]
            if not loose:
                return tuple(heights)
            for i in loose:
                heights[i] -= 1

    def ring(self, heights):
        """The columns of a ring; some card is left, and no last card is loose."""
        left = {card: i for i in COLUMNS for card in self.columns[i][:heights[i]]}
        last = lambda i: self.columns[i][heights[i] - 1]
        waits_for = lambda i: next(left[it] for it in sorted(left) if suit(it) == suit(last(i)))
        walk = [min(left.values())]
        while waits_for(walk[-1]) not in walk:
            walk.append(waits_for(walk[-1]))
        return walk[walk.index(waits_for(walk[-1])):]

    def payments(self):
        """How many cards pay beside those that are held, in the best order."""
        kept, paid = {self.without_loose(map(len, self.columns))}, 0
        while (0,) * 8 not in kept:
            without_last = lambda heights, i: self.without_loose(heights[:i] + (heights[i] - 1,) + heights[i + 1:])
            kept = {without_last(heights, i) for heights in kept for i in self.ring(heights)}
            paid += 1
        return paid

    def clearing_bound(self):
        return self.plain_bound() + self.payments()


class Fields:
    """The bytes of a certificate, read from the front."""

    def __init__(self, data):
        self.data, self.at = data, 0

    def take(self, count):
        ask(self.at + count <= len(self.data), "Short")
        self.at += count
        return self.data[self.at - count:self.at]

    def byte(self, allowed, fault):
        byte = self.take(1)[0]
        ask(byte in allowed, fault)
        return byte

    def number(self):
        return int.from_bytes(self.take(4), "big")

    def move(self, fault):
        source, to = self.take(2)
        ask(source in SOURCES and to in DESTINATIONS, fault)
        return SOURCES.index(source), DESTINATIONS.index(to)

    def extent(self):
        begin = self.at
        self.take(8)
        for _ in COLUMNS:
            self.take(self.take(1)[0])
        return self.data[begin:self.at]


def spelled(key):
    """The position that a key spells; None where the bytes are no key."""
    columns, rest = [], key[8:]
    for _ in COLUMNS:
        columns.append(tuple(rest[1:1 + rest[0]]))
        rest = rest[1 + rest[0]:]
    position = Position(tuple(key[:4]), tuple(key[4:8]), tuple(columns))
    away = [card for card in position.cells if card != EMPTY] + [card for column in columns for card in column]
    if max(position.home) > 13:
        return None
    has_one_place = sorted(away) == [card for card in range(52) if not position.is_home(card)]
    return position if has_one_place and position.key() == key else None


class Certificate(NamedTuple):
    """What the bytes say. The level is None where no list wins; records are costs and keys."""

    game: Game
    rule: int
    is_clearing: bool
    level: int
    claim: str
    moves: list
    records: list


def records_of(fields, cells, kind):
    records = []
    for i in range(fields.number()):
        cost, key = fields.number(), fields.extent()
        position = spelled(key)
        ask(position and sum(it != EMPTY for it in position.cells) <= cells, f"BadRecord({i})")
        ask(not records or records[-1][1] < key, f"Order({i})")
        ask(kind != 2 or cost == 0, f"Label({i})")
        records.append((cost, key))
    return records


def certificate_of(data):
    fields = Fields(data)
    magic = fields.take(4)
    ask(magic in (b"FCC1", b"FCC2", b"FCC3"), "BadMagic")
    form = magic[3] - ord("0")
    code = fields.byte(range(256), "") if form > 1 else 0
    cells = fields.byte(range(5), "BadCells") if form > 1 else 4
    rule = fields.byte(range(3) if form > 1 else range(2), "BadRule")
    bound = fields.byte(range(2), "BadBound") if form == 3 else 0
    kind = fields.byte(range(1, 4) if form == 3 else range(1, 3), "BadKind")
    floor = fields.number() if kind == 3 else 0
    count = fields.number() if kind != 2 else 0
    ask(floor <= count, "BadFloor")
    moves = [fields.move(f"BadMove({i + 1})") for i in range(count)]
    records = records_of(fields, cells, kind)
    ask(fields.at == len(data), "Trailing")
    level = {1: count, 2: None, 3: floor}[kind]
    claim = {1: f"shortest {count}", 2: "can't be won", 3: f"won {count}, at least {floor}"}[kind]
    return Certificate(Game(code, cells), rule, bound == 1, level, claim, moves, records)


class Check:
    """A certificate under check, with the cost of each key that it lists."""

    def __init__(self, certificate):
        self.certificate, self.costs = certificate, {key: cost for cost, key in certificate.records}

    def is_far(self, position, cost):
        """Whether cost and bound reach the level."""
        level = self.certificate.level
        if level is None:
            return False
        if cost + position.plain_bound() >= level:
            return True
        return self.certificate.is_clearing and cost + position.clearing_bound() >= level

    def holds(self, position, cost):
        """Whether what the position settles to is covered, or listed where no list wins."""
        settled, moves = position.settled(self.certificate.game, self.certificate.rule)
        listed = self.costs.get(settled.key())
        if self.certificate.level is None:
            return listed is not None
        return listed is not None and listed <= cost + moves or self.is_far(settled, cost + moves)

    def check_moves(self, board):
        position = board
        for i, (source, to) in enumerate(self.certificate.moves):
            ask(position.allows(self.certificate.game, source, to), f"NotAllowed({i + 1})")
            position = position.after(source, to)
        ask(self.certificate.level is None or position.is_won(), "NotHome")

    def check_record(self, i, cost, position):
        ask(not position.is_won(), f"WonListed({i})")
        if self.is_far(position, cost):
            return
        for source in (*COLUMNS, *CELLS):
            for to in (*COLUMNS, *CELLS, HOME):
                if position.allows(self.certificate.game, source, to):
                    ask(self.holds(position.after(source, to), cost + 1), f"Open({i})")

    def claim(self, game, board):
        ask(self.certificate.game == game, "OtherGame")
        self.check_moves(board)
        ask(self.holds(board, 0), "StartOpen")
        for i, (cost, key) in enumerate(self.certificate.records):
            self.check_record(i, cost, spelled(key))
        return self.certificate.claim


def said(game, board, data):
    """The line that a checker has to print."""
    try:
        return "accepted: " + Check(certificate_of(data)).claim(game, board)
    except Refused as fault:
        return f"certificate refused: {fault}"


def card_of(word):
    return 4 * RANKS.index(word[0]) + SUITS.index(word[1])


def board_of(text):
    """The board of a text as `run --help` has it."""
    home, cells, columns = [0] * 4, [], []
    for line in text.splitlines():
        words = line.split()
        if words[0] == "Foundations:":
            for word in words[1:]:
                home[SUITS.index(word[0])] = ("0" + RANKS).index(word[2])
        elif words[0] == "Freecells:":
            cells = [card_of(word) for word in words[1:]]
        else:
            columns.append(tuple(map(card_of, words)))
    return Position(tuple(home), tuple(cells + [EMPTY] * (4 - len(cells))), tuple(columns + [()] * (8 - len(columns))))


def game_of(words):
    """The game that the words name, and the words that are left."""
    reader = argparse.ArgumentParser(add_help=False)
    reader.add_argument("--game", choices=["freecell", "bakers"])
    reader.add_argument("--kings", action="store_true")
    reader.add_argument("--cells", type=int, default=4)
    asked, left = reader.parse_known_args(words)
    return Game((asked.game == "bakers") + 2 * asked.kings, asked.cells), left


def main():
    game, (board, path) = game_of(sys.argv[1:])
    with open(board, encoding="ascii") as text, open(path, "rb") as data:
        line = said(game, board_of(text.read()), data.read())
    print(line)
    return 0 if line.startswith("accepted") else 3


if __name__ == "__main__":
    sys.exit(main())
