#!/usr/bin/env python3
"""Tries the test vectors on wrong checkers: each version of checker.py below differs in a line or two, and some vector has to tell
it apart. Those of the last list mean the same as the checker, for the reason that is given, and no vector may tell them apart.

What isn't so is printed, and then how many are told apart; `--by` prints which vectors tell each. The status is 0 where all is so.
"""
import itertools
import os
import signal
import sys
import types
from typing import NamedTuple

HERE = os.path.dirname(os.path.abspath(__file__))
SECONDS = 2  # of the processor

# What is wrong; and the text of checker.py that becomes another, or several such pairs.
WRONG = [
    # Cards and games
    ("spades and hearts are one colour", "in (1, 2)) == (suit(on) in (1, 2))", "in (2, 3)) == (suit(on) in (2, 3))"),
    ("clubs and hearts are one colour", "in (1, 2)) == (suit(on) in (1, 2))", "in (0, 2)) == (suit(on) in (0, 2))"),
    ("a card stands on any suit", "return fits and rank(on)", "return rank(on)"),
    ("a card stands on any other suit", "else not are_of_one_colour", "else suit(card) != suit(on)"),
    ("Baker's Game by colours", "if self.code % 2 == 1 else not are_of_one_colour",
     "if self.code % 2 == 7 else not are_of_one_colour"),
    ("Baker's Game by one colour", "fits = suit(card) == suit(on) if", "fits = are_of_one_colour if"),
    ("Baker's Game with kings alone by colours", "if self.code % 2 == 1 else", "if self.code == 1 else"),
    ("a card stands on a lower one", "rank(on) == rank(card) + 1", "rank(on) == rank(card) - 1"),
    ("a card stands on any higher one", "rank(on) == rank(card) + 1", "rank(on) > rank(card)"),
    ("a card stands on the next one, up or down", "rank(on) == rank(card) + 1", "abs(rank(on) - rank(card)) == 1"),
    ("an ace stands on a king too", "rank(on) == rank(card) + 1", "(rank(on) - rank(card)) % 13 == 1"),
    ("a king stands on an ace too", "rank(on) == rank(card) + 1", "rank(on) in (rank(card) + 1, rank(card) - 12)"),
    ("every card goes to an empty column", "self.code < 2 or rank(card) == 13", "True"),
    ("no card goes to an empty column", "self.code < 2 or rank(card) == 13", "False"),
    ("kings alone in every game", "self.code < 2 or rank(card) == 13", "rank(card) == 13"),
    ("no card where it says kings alone", "self.code < 2 or rank(card) == 13", "self.code < 2"),
    ("kings alone in Baker's Game too", "self.code < 2 or rank(card) == 13", "self.code == 0 or rank(card) == 13"),
    ("kings alone in FreeCell only", "self.code < 2 or rank(card) == 13", "self.code != 2 or rank(card) == 13"),
    ("kings and queens", "self.code < 2 or rank(card) == 13", "self.code < 2 or rank(card) >= 12"),
    # Moves
    ("the deepest card is taken", "return self.columns[place][-1] if", "return self.columns[place][0] if"),
    ("a card alone moves to its own column", "source != to and game.may_stand(card, self.card_at(to))",
     "len(self.columns[to]) == 1 and source == to or source != to and game.may_stand(card, self.card_at(to))"),
    ("from cell to cell", "return source in COLUMNS and to - 8 < game.cells", "return to - 8 < game.cells"),
    ("cells that the game lacks", "to - 8 < game.cells and", ""),
    ("a cell less than the game has", "to - 8 < game.cells and", "to - 8 < game.cells - 1 and"),
    ("to a full cell", "game.cells and self.card_at(to) is None", "game.cells"),
    ("home in any order", "return self.is_next(card)\n", "return True\n"),
    ("home one too early", "return self.is_next(card)\n", "return rank(card) <= self.home[suit(card)] + 2\n"),
    ("no card goes home from a cell", "return self.is_next(card)\n", "return source in COLUMNS and self.is_next(card)\n"),
    ("no ace goes home", "return self.is_next(card)\n", "return rank(card) > 1 and self.is_next(card)\n"),
    ("what isn't there may move", "return False\n        if to == HOME", "return True\n        if to == HOME",
     "        card, cells, columns, home = self",
     "        if self.card_at(source) is None:\n            return self\n        card, cells, columns, home = self"),
    ("a cell keeps its card", "cells[source - 8] = EMPTY", "pass"),
    ("a column keeps its card", "columns[source] = columns[source][:-1]", "pass"),
    ("a moved card goes beneath the others", "(*columns[to], card)", "(card, *columns[to])"),
    # The home rule
    ("rule 1 like rule 0", "return rule > 0 and self.is_next(card)", "return rule > 1 and self.is_next(card)"),
    ("rule 2 like rule 0", "return rule > 0 and self.is_next(card)", "return rule == 1 and self.is_next(card)"),
    ("rule 2 like rule 1", "or rule == 2 and self.goes_home", "or rule == 3 and self.goes_home"),
    ("rule 1 like rule 2", "or rule == 2 and self.goes_home", "or rule >= 1 and self.goes_home"),
    ("rule 0 like rule 1", "return rule > 0 and self.is_next(card)", "return self.is_next(card)"),
    ("all that may go home goes", "self.is_next(card) and all(map(is_done, lower))", "self.is_next(card)"),
    ("free though it isn't next", "rule > 0 and self.is_next(card)", "rule > 0"),
    ("one such lower card is enough", "all(map(is_done, lower))", "(any(map(is_done, lower)) or rank(card) == 1)"),
    ("by rule 2 it is enough that the lower card is next", "rule == 2 and self.goes_home(game, rule, other)",
     "rule == 2 and self.is_next(other)"),
    ("by rule 2 one step alone", "rule == 2 and self.goes_home(game, rule, other)",
     "rule == 2 and self.goes_home(game, 1, other)"),
    ("by rule 2 the lower card has to be playable", "or rule == 2 and self.goes_home(game, rule, other)",
     "or rule == 2 and self.goes_home(game, rule, other) and any(self.card_at(it) == other for it in (*COLUMNS, *CELLS))"),
    ("lower cards of the other colour in every game", "if game.may_stand(other, card))", "if Game(0, 4).may_stand(other, card))"),
    ("lower cards of all suits", "if game.may_stand(other, card))", "if rank(other) == rank(card) - 1)"),
    ("of the lower cards those two ranks lower", "if game.may_stand(other, card))", "if game.may_stand(other + 4, card))"),
    ("twos go at once", "return rule > 0 and self.is_next(card) and all(map(is_done, lower))",
     "return rule > 0 and self.is_next(card) and (rank(card) <= 2 or all(map(is_done, lower)))"),
    ("aces don't go", "return rule > 0 and self.is_next(card)", "return rule > 0 and rank(card) > 1 and self.is_next(card)"),
    ("cards in cells stay", "for place in (*COLUMNS, *CELLS)]\n            goers", "for place in COLUMNS]\n            goers"),
    ("cards in columns stay", "for place in (*COLUMNS, *CELLS)]\n            goers", "for place in CELLS]\n            goers"),
    ("cards in the last cell stay", "for place in (*COLUMNS, *CELLS)]\n            goers",
     "for place in range(11)]\n            goers"),
    ("cards in the last column stay", "for place in (*COLUMNS, *CELLS)]\n            goers",
     "for place in (*range(7), *CELLS)]\n            goers"),
    ("one card alone settles", "if not goers:", "if not goers or moves == 1:"),
    ("settling costs nothing", "            moves += 1", "            moves += 0"),
    ("settling costs one", "            moves += 1", "            moves = 1"),
    # Keys
    ("columns by their length", "first = lambda column: column[0] if column else EMPTY", "first = lambda column: -len(column)"),
    ("columns by their last card", "column[0] if column else EMPTY", "column[-1] if column else EMPTY"),
    ("columns as they stand", "in sorted(self.columns, key=first)", "in self.columns"),
    ("empty columns first", "column[0] if column else EMPTY", "column[0] if column else -1"),
    ("columns by falling cards", "column[0] if column else EMPTY", "-column[0] if column else EMPTY"),
    ("cells as they stand", "bytes(sorted(self.cells))", "bytes(self.cells)"),
    ("empty cells first", "bytes(sorted(self.cells))", "bytes(sorted(self.cells, key=lambda card: (card != EMPTY, card)))"),
    ("keys in another order are taken", "if has_one_place and position.key() == key", "if has_one_place"),
    ("cards may stand twice", "has_one_place = sorted(away)", "has_one_place = sorted(set(away))"),
    ("cards may be missing", "has_one_place = sorted(away) == [card for card in range(52) if not position.is_home(card)]",
     "has_one_place = len(set(away)) == len(away) and all(card < 52 and not position.is_home(card) for card in away)"),
    ("cards may be home and away", "card in range(52) if not position.is_home(card)]",
     "card in range(52) if not position.is_home(card) or card in away]"),
    ("any byte is a card", "has_one_place = sorted(away)", "has_one_place = sorted(card for card in away if card < 52)"),
    ("an empty cell may stand in a column", "for column in columns for card in column]\n",
     "for column in columns for card in column if card != EMPTY]\n"),
    ("fourteen cards of a suit are thirteen", "if max(position.home) > 13:", "if max(position.home) > 14:"),
    ("thirteen cards of a suit are too many", "if max(position.home) > 13:", "if max(position.home) > 12:"),
    ("columns of at most nineteen cards", "if max(position.home) > 13:",
     "if max(position.home) > 13 or max(map(len, columns)) > 19:"),
    ("columns of at most thirteen cards", "if max(position.home) > 13:",
     "if max(position.home) > 13 or max(map(len, columns)) > 13:"),
    ("an extent of seven columns", "for _ in COLUMNS:\n            self.take", "for _ in range(7):\n            self.take",
     "    columns, rest = [], key[8:]\n    for _ in COLUMNS:", "    columns, rest = [], key[8:] + b'\\0'\n    for _ in COLUMNS:",
     "position.key() == key", "position.key()[:-1] == key", "settled.key()", "settled.key()[:-1]"),
    ("an extent to the end where it is short", "            self.take(self.take(1)[0])",
     "            self.take(min(self.take(1)[0], len(self.data) - self.at))"),
    ("a length byte of more than 52 is no key", "            self.take(self.take(1)[0])",
     "            count = self.take(1)[0]\n            ask(count <= 52, 'BadRecord(0)')\n            self.take(count)"),
    # The plain bound
    ("cards in cells aren't counted", "return 52 - sum(self.home)",
     "return 52 - sum(self.home) - sum(it != EMPTY for it in self.cells)"),
    ("no card is held", "return self.not_home() + len(self.held())", "return self.not_home()"),
    ("held above the next card alone", "it < card for it in below)}", "it < card for it in below[-1:])}"),
    ("held where the card beneath is of its suit", "suit(it) == suit(card) and it < card for it in below)}",
     "suit(it) == suit(card) for it in below[-1:])}"),
    ("held above the next lower card alone", "and it < card for it in below)}", "and it == card - 4 for it in below)}"),
    ("held above any lower card", "if any(suit(it) == suit(card) and it < card", "if any(it < card"),
    ("held above any card of its suit", "if any(suit(it) == suit(card) and it < card", "if any(suit(it) == suit(card)"),
    ("held above a higher card", "suit(it) == suit(card) and it < card for it in below)}",
     "suit(it) == suit(card) and it > card for it in below)}"),
    ("held beneath a higher card",
     "return {card for card, below in stand_on if any(suit(it) == suit(card) and it < card for it in below)}",
     "return {it for card, below in stand_on for it in below if suit(it) == suit(card) and it < card}"),
    ("held once for each lower card",
     "return {card for card, below in stand_on if any(suit(it) == suit(card) and it < card for it in below)}",
     "return [card for card, below in stand_on for it in below if suit(it) == suit(card) and it < card]"),
    ("held by one colour", "if any(suit(it) == suit(card) and it < card",
     "if any(suit(it) in (1, 2) == suit(card) in (1, 2) and it < card"),
    ("one card of a column is held",
     "return {card for card, below in stand_on if any(suit(it) == suit(card) and it < card for it in below)}",
     "return {below[0]: card for card, below in stand_on if any(suit(it) == suit(card) and it < card for it in below)}.values()"),
    ("held above the deepest card alone", "it < card for it in below)}", "it < card for it in below[:1])}"),
    ("spades aren't held", "if any(suit(it) == suit(card) and it < card", "if any(suit(it) == suit(card) != 3 and it < card"),
    ("hearts aren't held", "if any(suit(it) == suit(card) and it < card", "if any(suit(it) == suit(card) != 2 and it < card"),
    ("diamonds aren't held", "if any(suit(it) == suit(card) and it < card", "if any(suit(it) == suit(card) != 1 and it < card"),
    ("clubs aren't held", "if any(suit(it) == suit(card) and it < card", "if any(suit(it) == suit(card) != 0 and it < card"),
    ("cards of the last column aren't held", "for column in self.columns for i, card",
     "for column in self.columns[:7] for i, card"),
    # The clearing bound
    ("the plain bound alone", "return self.plain_bound() + self.payments()", "return self.plain_bound()"),
    ("the payments alone", "return self.plain_bound() + self.payments()", "return self.not_home() + self.payments()"),
    ("a payment more", "return self.plain_bound() + self.payments()", "return self.plain_bound() + self.payments() + 1"),
    ("one payment at most", "return self.plain_bound() + self.payments()", "return self.plain_bound() + min(self.payments(), 1)"),
    ("two payments at most", "return self.plain_bound() + self.payments()",
     "return self.plain_bound() + min(self.payments(), 2)"),
    ("by either bound", "return self.certificate.is_clearing and", "return"),
    ("the two bounds exchanged", "return self.certificate.is_clearing and", "return not self.certificate.is_clearing and"),
    ("held cards wait like others", "if card in held or not waits(card)]", "if not waits(card)]"),
    ("held cards alone leave at once", "if card in held or not waits(card)]", "if card in held]"),
    ("each last card leaves at once", "if card in held or not waits(card)]", "]"),
    ("cards wait in their own column alone", "for column, height in zip(self.columns, heights) for card in column[:height]]",
     "for card in ()]"),
    ("lower cards in cells are waited for", "waits = lambda card: any(suit(it) == suit(card) and it < card for it in left)",
     "waits = lambda card: any(suit(it) == suit(card) and it < card for it in (*left, *self.cells))"),
    ("all lower cards that aren't home are waited for",
     "waits = lambda card: any(suit(it) == suit(card) and it < card for it in left)",
     "waits = lambda card: rank(card) > self.home[suit(card)] + 1"),
    ("the next lower card alone is waited for", "waits = lambda card: any(suit(it) == suit(card) and it < card for it in left)",
     "waits = lambda card: card - 4 in left"),
    ("a higher card is waited for too", "waits = lambda card: any(suit(it) == suit(card) and it < card for it in left)",
     "waits = lambda card: any(suit(it) == suit(card) and it != card for it in left)"),
    ("lower cards that have left are waited for", "for column, height in zip(self.columns, heights) for card in column[:height]]",
     "for column, height in zip(self.columns, heights) for card in column]"),
    ("of a ring the first column alone", "for heights in kept for i in self.ring(heights)}",
     "for heights in kept for i in sorted(self.ring(heights))[:1]}"),
    ("of a ring the last column alone", "for heights in kept for i in self.ring(heights)}",
     "for heights in kept for i in sorted(self.ring(heights))[-1:]}"),
    ("of a ring the least card alone", "for heights in kept for i in self.ring(heights)}",
     "for heights in kept for i in sorted(self.ring(heights), key=lambda i: self.columns[i][heights[i] - 1])[:1]}"),
    ("of a ring the greatest card alone", "for heights in kept for i in self.ring(heights)}",
     "for heights in kept for i in sorted(self.ring(heights), key=lambda i: self.columns[i][heights[i] - 1])[-1:]}"),
    ("of a ring the highest column alone", "for heights in kept for i in self.ring(heights)}",
     "for heights in kept for i in sorted(self.ring(heights), key=lambda i: heights[i])[-1:]}"),
    ("of a ring the column where it is met alone", "for heights in kept for i in self.ring(heights)}",
     "for heights in kept for i in self.ring(heights)[:1]}"),
    ("where a walk begins instead of the ring", "return walk[walk.index(waits_for(walk[-1])):]", "return walk[:1]"),
    ("what leads to a ring instead of the ring", "return walk[walk.index(waits_for(walk[-1])):]",
     "return walk[:walk.index(waits_for(walk[-1]))] or walk"),
    ("rings of two alone", "            paid += 1\n",
     "            paid += any(len(self.ring(heights)) < 3 for heights in before)\n", "            kept = {without_last",
     "            before = kept\n            kept = {without_last"),
    ("rings of three at most", "            paid += 1\n",
     "            paid += any(len(self.ring(heights)) < 4 for heights in before)\n", "            kept = {without_last",
     "            before = kept\n            kept = {without_last"),
    ("all cards of a ring leave for one payment",
     "kept = {without_last(heights, i) for heights in kept for i in self.ring(heights)}",
     "kept = {self.without_loose(it - (i in self.ring(heights)) for i, it in enumerate(heights)) for heights in kept}"),
    ("the fewest kept alone", "            paid += 1\n",
     "            paid += 1\n            kept = {min(kept, key=lambda it: (sum(it), it))}\n"),
    ("the most kept alone", "            paid += 1\n",
     "            paid += 1\n            kept = {max(kept, key=lambda it: (sum(it), it))}\n"),
    ("the first kept alone", "            paid += 1\n", "            paid += 1\n            kept = {min(kept)}\n"),
    ("the last kept alone", "            paid += 1\n", "            paid += 1\n            kept = {max(kept)}\n"),
    ("until some column is empty", "while (0,) * 8 not in kept:",
     "while not any(0 in [h for h, c in zip(it, self.columns) if c] for it in kept) and (0,) * 8 not in kept:"),
    ("payments only where no card is loose at first", "kept, paid = {self.without_loose(map(len, self.columns))}, 0",
     "kept, paid = {self.without_loose(map(len, self.columns))}, 0\n        if sum(min(kept)) != sum(map(len, self.columns)):\n"
     "            return 0"),
    ("each last card that waits pays", "            paid += 1\n",
     "            paid += min(sum(it > 0 for it in heights) for heights in kept) or 1\n"),
    ("each card of a ring pays", "            paid += 1\n", "            paid += 1 + (0 if (0,) * 8 in kept else 1)\n"),
    ("held cards leave at once only where no other column has a lower one", "if card in held or not waits(card)]",
     "if not any(suit(it) == suit(card) and it < card for j in COLUMNS if j != i for it in self.columns[j][:heights[j]])]"),
    # The form
    ("any magic", 'ask(magic in (b"FCC1", b"FCC2", b"FCC3"), "BadMagic")',
     'magic = magic if magic in (b"FCC1", b"FCC2") else b"FCC3"'),
    ("any magic that begins with FCC", 'ask(magic in (b"FCC1", b"FCC2", b"FCC3"), "BadMagic")',
     'ask(magic[:3] == b"FCC", "BadMagic")\n    magic = min(magic, b"FCC3")'),
    ("a magic in small letters", "magic = fields.take(4)", "magic = fields.take(4).upper()"),
    ("no first form", 'in (b"FCC1", b"FCC2", b"FCC3")', 'in (b"FCC2", b"FCC3")'),
    ("no second form", 'in (b"FCC1", b"FCC2", b"FCC3")', 'in (b"FCC1", b"FCC3")'),
    ("no third form", 'in (b"FCC1", b"FCC2", b"FCC3")', 'in (b"FCC1", b"FCC2")'),
    ("bytes that aren't there are a bad magic", "magic = fields.take(4)",
     'ask(data[:3] == b"FCC"[:len(data)], "BadMagic")\n    magic = fields.take(4)'),
    ("four games alone", 'fields.byte(range(256), "")', 'fields.byte(range(4), "BadGame")'),
    ("five cells", 'fields.byte(range(5), "BadCells")', 'fields.byte(range(6), "BadCells")'),
    ("three cells at most", 'fields.byte(range(5), "BadCells")', 'fields.byte(range(4), "BadCells")'),
    ("one cell at least", 'fields.byte(range(5), "BadCells")', 'fields.byte(range(1, 5), "BadCells")'),
    ("the cells are looked at last", 'fields.byte(range(5), "BadCells")', 'fields.byte(range(256), "")', "bound = fields",
     'ask(cells < 5, "BadCells")\n    bound = fields'),
    ("rule 2 in the first form", "range(3) if form > 1 else range(2)", "range(3)"),
    ("no rule 2 in the second form", "range(3) if form > 1 else range(2)", "range(3) if form > 2 else range(2)"),
    ("rule 3", "range(3) if form > 1 else range(2)", "range(4) if form > 1 else range(2)"),
    ("no rule 2", "range(3) if form > 1 else range(2)", "range(2)"),
    ("any bound", 'fields.byte(range(2), "BadBound")', 'fields.byte(range(256), "BadBound")'),
    ("a bound in the second form", 'fields.byte(range(2), "BadBound") if form == 3',
     'fields.byte(range(2), "BadBound") if form >= 2'),
    ("a bound behind the kind", '    bound = fields.byte(range(2), "BadBound") if form == 3 else 0\n', "",
     "    floor = fields.number()",
     '    bound = fields.byte(range(2), "BadBound") if form == 3 else 0\n    floor = fields.number()'),
    ("kind 3 in the second form", "range(1, 4) if form == 3 else range(1, 3)", "range(1, 4) if form >= 2 else range(1, 3)"),
    ("kind 4", "range(1, 4) if form == 3", "range(1, 5) if form == 3", "level = {1: count", "level = {4: count, 1: count",
     "claim = {1:", "claim = {4: 'won', 1:"),
    ("kind 0", "else range(1, 3)", "else range(3)", "level = {1: count", "level = {0: count, 1: count", "claim = {1:",
     "claim = {0: 'won', 1:"),
    ("no kind 3", "range(1, 4) if form == 3 else range(1, 3)", "range(1, 3)"),
    ("the floor behind the moves' number", "    floor = fields.number() if kind == 3 else 0\n", "", "    ask(floor <= count",
     "    floor = fields.number() if kind == 3 else 0\n    ask(floor <= count"),
    ("any floor", '    ask(floor <= count, "BadFloor")\n', ""),
    ("a floor below the moves alone", "ask(floor <= count,", "ask(floor < count or kind != 3,"),
    ("no floor of 0", "ask(floor <= count,", "ask(floor <= count and (floor > 0 or kind != 3),"),
    ("a floor with a sign", "ask(floor <= count,", "ask(floor - (floor >> 31 << 32) <= count,"),
    ("a floor before the number of moves", "    count = fields.number() if kind != 2 else 0\n",
     "    ask(floor < 1 << 31, 'BadFloor')\n    count = fields.number() if kind != 2 else 0\n"),
    ("a number of moves in kind 2", "fields.number() if kind != 2 else 0", "fields.number()"),
    ("a floor in kind 1", "floor = fields.number() if kind == 3 else 0",
     "floor = fields.number() if kind != 2 and form == 3 else 0"),
    ("the lowest byte first", 'self.take(4), "big")', 'self.take(4), "little")'),
    ("numbers of one byte", 'int.from_bytes(self.take(4), "big")', "self.take(4)[3]"),
    ("numbers of two bytes", 'int.from_bytes(self.take(4), "big")', 'int.from_bytes(self.take(4)[2:], "big")'),
    ("numbers of three bytes", 'int.from_bytes(self.take(4), "big")', 'int.from_bytes(self.take(4)[1:], "big")'),
    ("numbers with a sign", 'self.take(4), "big")', 'self.take(4), "big", signed=True)'),
    ("moves are counted from 0", "BadMove({i + 1})", "BadMove({i})"),
    ("moves from home", 'SOURCES, DESTINATIONS = b"12345678abcd"', 'SOURCES, DESTINATIONS = b"12345678abcdh"',
     "        return None if self.cells[place - 8]", "        return None if place == HOME or self.cells[place - 8]"),
    ("moves in capitals", "source, to = self.take(2)\n", "source, to = self.take(2).lower()\n"),
    ("any source", "ask(source in SOURCES and to in DESTINATIONS, fault)",
     "ask(to in DESTINATIONS, fault)\n        source = source if source in SOURCES else 49"),
    ("any destination", "ask(source in SOURCES and to in DESTINATIONS, fault)",
     "ask(source in SOURCES, fault)\n        to = to if to in DESTINATIONS else 49"),
    ("all moves have to be there first", "moves = [fields.move(",
     "ask(fields.at + 2 * count <= len(data), 'Short')\n    moves = [fields.move("),
    ("a half of a move is looked at", "source, to = self.take(2)\n",
     "ask(self.data[self.at:self.at + 1] in [bytes([it]) for it in SOURCES] + [b''], fault)\n"
     "        source, to = self.take(2)\n"),
    ("all records have to be there first", "    records = []\n    for i in range(fields.number()):",
     "    records, count = [], fields.number()\n    ask(24 * count <= len(fields.data) - fields.at or count > 9, 'Short')\n"
     "    for i in range(count):"),
    ("what follows is passed over", '    ask(fields.at == len(data), "Trailing")\n', ""),
    ("a line end may follow", "ask(fields.at == len(data),", "ask(not data[fields.at:].strip(),"),
    # Records
    ("records are counted from 1", "BadRecord({i})", "BadRecord({i + 1})"),
    ("records out of order are counted from 1", "Order({i})", "Order({i + 1})"),
    ("costs are counted from 1", "Label({i})", "Label({i + 1})"),
    ("the first record's cost alone is looked at", "ask(kind != 2 or cost == 0,", "ask(kind != 2 or cost == 0 or i > 0,"),
    ("the cost comes behind the key", "cost, key = fields.number(), fields.extent()",
     "key, cost = fields.extent(), fields.number()"),
    ("any order", "not records or records[-1][1] < key", "True"),
    ("the same key twice", "records[-1][1] < key", "records[-1][1] <= key"),
    ("the first two keys' order alone", "not records or records[-1][1] < key", "len(records) != 1 or records[-1][1] < key"),
    ("keys with a sign", "records[-1][1] < key", "bytes(it ^ 128 for it in records[-1][1]) < bytes(it ^ 128 for it in key)"),
    ("keys by their length first", "records[-1][1] < key", "(len(records[-1][1]), records[-1][1]) < (len(key), key)"),
    ("costs of kind 2 are passed over", '        ask(kind != 2 or cost == 0, f"Label({i})")\n', ""),
    ("costs are 0 in all kinds", "ask(kind != 2 or cost == 0,", "ask(cost == 0,"),
    ("costs are 0 in kind 3", "ask(kind != 2 or cost == 0,", "ask(kind == 1 or cost == 0,"),
    ("the order before the key", "ask(position and sum(it",
     'ask(not records or records[-1][1] < key, f"Order({i})")\n        ask(position and sum(it'),
    ("the cost before the key", "ask(position and sum(it",
     'ask(kind != 2 or cost == 0, f"Label({i})")\n        ask(position and sum(it'),
    ("the cost before the order", "ask(not records or", 'ask(kind != 2 or cost == 0, f"Label({i})")\n        ask(not records or'),
    ("the cost before the extent", "cost, key = fields.number(), fields.extent()",
     'cost = fields.number()\n        ask(kind != 2 or cost == 0, f"Label({i})")\n        key = fields.extent()'),
    ("the key before the extent", "        self.take(8)\n        for _ in",
     "        ask(max(self.take(8)[:4]) <= 13, 'BadRecord(0)')\n        for _ in"),
    ("the costs behind all records", '        ask(kind != 2 or cost == 0, f"Label({i})")\n', "", "    return records\n",
     '    for i, (cost, _) in enumerate(records):\n        ask(kind != 2 or cost == 0, f"Label({i})")\n    return records\n'),
    ("full cells are not counted", "position and sum(it != EMPTY for it in position.cells) <= cells", "position"),
    ("a full cell more than cells", "!= EMPTY for it in position.cells) <= cells",
     "!= EMPTY for it in position.cells) <= cells + 1"),
    ("a full cell less than cells", "!= EMPTY for it in position.cells) <= cells",
     "!= EMPTY for it in position.cells) < max(cells, 1)"),
    # The game and the list
    ("any game", 'ask(self.certificate.game == game, "OtherGame")', "pass"),
    ("any number of cells", 'ask(self.certificate.game == game, "OtherGame")',
     'ask(self.certificate.game.code == game.code, "OtherGame")'),
    ("any code", 'ask(self.certificate.game == game, "OtherGame")',
     'ask(self.certificate.game.cells == game.cells, "OtherGame")'),
    ("kings alone or not", 'ask(self.certificate.game == game, "OtherGame")',
     'ask((self.certificate.game.code % 2, self.certificate.game.cells) == (game.code % 2, game.cells), "OtherGame")'),
    ("the game's code modulo 4", "return Certificate(Game(code, cells)", "return Certificate(Game(code % 4, cells)"),
    ("the game behind the moves", '        ask(self.certificate.game == game, "OtherGame")\n        self.check_moves(board)\n',
     '        self.check_moves(board)\n        ask(self.certificate.game == game, "OtherGame")\n'),
    ("the game before the form", "moves = [fields.move(",
     "ask(code < 4 and (form > 1 or len(data) != 18), 'OtherGame')\n    moves = [fields.move("),
    ("the list is passed over", "        self.check_moves(board)\n", ""),
    ("the list from the settled board", "        position = board\n",
     "        position = board.settled(self.certificate.game, self.certificate.rule)[0]\n"),
    ("the list settles after each move", "position = position.after(source, to)\n        ask(",
     "position = position.after(source, to).settled(self.certificate.game, self.certificate.rule)[0]\n        ask("),
    ("the list stops where all are home", "            ask(position.allows(self",
     "            if position.is_won():\n                return\n            ask(position.allows(self"),
    ("moves of the list are counted from 0", "NotAllowed({i + 1})", "NotAllowed({i})"),
    ("any end of the list", '        ask(self.certificate.level is None or position.is_won(), "NotHome")\n', ""),
    ("kings home are enough", 'position.is_won(), "NotHome")', 'max(position.home) == 13, "NotHome")'),
    ("most cards home are enough", 'position.is_won(), "NotHome")', 'sum(position.home) >= 51, "NotHome")'),
    ("moves that aren't allowed are passed over",
     'ask(position.allows(self.certificate.game, source, to), f"NotAllowed({i + 1})")',
     "if not position.allows(self.certificate.game, source, to):\n                continue"),
    # The start
    ("the level of kind 3 is the number of moves", "3: floor}[kind]", "3: count}[kind]"),
    ("the level is one less", "level = {1: count, 2: None, 3: floor}[kind]",
     "level = {1: count - 1, 2: None, 3: floor - 1}[kind]"),
    ("the start is passed over", '        ask(self.holds(board, 0), "StartOpen")\n', ""),
    ("the start is not settled", 'ask(self.holds(board, 0), "StartOpen")',
     "settled, self.certificate = self.certificate, self.certificate._replace(rule=0)\n"
     '        ask(self.holds(board, 0), "StartOpen")\n        self.certificate = settled'),
    ("the start at a cost of 1", 'ask(self.holds(board, 0), "StartOpen")', 'ask(self.holds(board, 1), "StartOpen")'),
    ("the start need not be listed where no list wins", 'ask(self.holds(board, 0), "StartOpen")',
     'ask(self.certificate.level is None or self.holds(board, 0), "StartOpen")'),
    ("the start has to be listed", 'ask(self.holds(board, 0), "StartOpen")',
     "ask(self.costs.get(board.settled(self.certificate.game, self.certificate.rule)[0].key()) is not None and "
     'self.holds(board, 0), "StartOpen")'),
    ("the start behind the records", '        ask(self.holds(board, 0), "StartOpen")\n', "",
     "        return self.certificate.claim\n",
     '        ask(self.holds(board, 0), "StartOpen")\n        return self.certificate.claim\n'),
    ("the start's bound by the settled board, at cost 0", "self.is_far(settled, cost + moves)", "self.is_far(settled, cost)"),
    ("what settles is listed at the cost before", "listed <= cost + moves or", "listed <= cost or"),
    # What is covered
    ("cost and bound have to be more than the level", "cost + position.plain_bound() >= level",
     "cost + position.plain_bound() > level", "cost + position.clearing_bound() >= level",
     "cost + position.clearing_bound() > level"),
    ("one below the level is enough", "cost + position.plain_bound() >= level", "cost + position.plain_bound() >= level - 1"),
    ("the bound alone reaches the level", "if cost + position.plain_bound() >= level", "if position.plain_bound() >= level"),
    ("the cost is left out by the clearing bound", "cost + position.clearing_bound() >= level",
     "position.clearing_bound() >= level"),
    ("the cost alone reaches the level", "if cost + position.plain_bound() >= level", "if cost >= level"),
    ("costs that wrap", "if cost + position.plain_bound() >= level", "if (cost + position.plain_bound()) % (1 << 32) >= level"),
    ("the clearing bound wraps",
     "if cost + position.plain_bound() >= level:\n            return True\n"
     "        return self.certificate.is_clearing and cost + position.clearing_bound() >= level",
     "bound = position.clearing_bound() if self.certificate.is_clearing else position.plain_bound()\n"
     "        return (cost + bound) % (1 << 32 if self.certificate.is_clearing else 1 << 64) >= level"),
    ("listed at any cost", "listed is not None and listed <= cost + moves or", "listed is not None or"),
    ("listed at a lower cost", "listed <= cost + moves", "listed < cost + moves"),
    ("listed at one more", "listed <= cost + moves", "listed <= cost + moves + 1"),
    ("listed at just the cost", "listed <= cost + moves", "listed == cost + moves"),
    ("listed at no lower cost", "listed <= cost + moves", "listed >= cost + moves"),
    ("listed alone", " or self.is_far(settled, cost + moves)", ""),
    ("the bound alone covers", "listed is not None and listed <= cost + moves or ", ""),
    ("a move costs nothing", "self.holds(position.after(source, to), cost + 1)", "self.holds(position.after(source, to), cost)"),
    ("a move costs two", "self.holds(position.after(source, to), cost + 1)", "self.holds(position.after(source, to), cost + 2)"),
    ("the first record isn't found", "for cost, key in certificate.records}",
     "for cost, key in certificate.records[1:] or certificate.records}"),
    ("the last record isn't found", "for cost, key in certificate.records}",
     "for cost, key in certificate.records[:-1] or certificate.records}"),
    ("the unsettled class has to be listed", "listed = self.costs.get(settled.key())", "listed = self.costs.get(position.key())"),
    ("a won class counts as listed", "if self.certificate.level is None:\n            return listed is not None",
     "if self.certificate.level is None:\n            return listed is not None or settled.is_won()"),
    # The records, each in turn
    ("won classes may be listed", '        ask(not position.is_won(), f"WonListed({i})")\n', ""),
    ("won classes are counted from 1", "WonListed({i})", "WonListed({i + 1})"),
    ("won classes may be listed where they reach the level",
     '        ask(not position.is_won(), f"WonListed({i})")\n        if self.is_far(position, cost):\n            return\n',
     '        if self.is_far(position, cost):\n            return\n        ask(not position.is_won(), f"WonListed({i})")\n'),
    ("won classes before all else", "        for i, (cost, key) in enumerate(self.certificate.records):\n",
     "        for i, (cost, key) in enumerate(self.certificate.records):\n"
     '            ask(not spelled(key).is_won(), f"WonListed({i})")\n'
     "        for i, (cost, key) in enumerate(self.certificate.records):\n"),
    ("open records are counted from 1", "Open({i})", "Open({i + 1})"),
    ("records need not be closed", "        for source in (*COLUMNS, *CELLS):\n            for to",
     "        for source in ():\n            for to"),
    ("the first record alone", "in enumerate(self.certificate.records):", "in enumerate(self.certificate.records[:1]):"),
    ("all but the last record", "in enumerate(self.certificate.records):",
     "in enumerate(self.certificate.records[:-1] or self.certificate.records):"),
    ("all but the first record", "in enumerate(self.certificate.records):",
     "in [*enumerate(self.certificate.records)][min(1, len(self.certificate.records) - 1):]:"),
    ("records that are far are asked by the level above", "        if self.is_far(position, cost):\n",
     "        if self.is_far(position, cost + 1):\n"),
    ("records are settled first", "        for source in (*COLUMNS, *CELLS):\n            for to",
     "        position = position.settled(self.certificate.game, self.certificate.rule)[0]\n"
     "        for source in (*COLUMNS, *CELLS):\n            for to"),
    ("what moves lead to isn't settled", "self.holds(position.after(source, to), cost + 1)",
     "Check(self.certificate._replace(rule=0)).holds(position.after(source, to), cost + 1)"),
    ("moves from cells are passed over", "        for source in (*COLUMNS, *CELLS):\n            for to",
     "        for source in COLUMNS:\n            for to"),
    ("moves from columns are passed over", "        for source in (*COLUMNS, *CELLS):\n            for to",
     "        for source in CELLS:\n            for to"),
    ("moves from the last column are passed over", "        for source in (*COLUMNS, *CELLS):\n            for to",
     "        for source in (*range(7), *CELLS):\n            for to"),
    ("moves from the last cell are passed over", "        for source in (*COLUMNS, *CELLS):\n            for to",
     "        for source in range(11):\n            for to"),
    ("moves from the first column are passed over", "        for source in (*COLUMNS, *CELLS):\n            for to",
     "        for source in range(1, 12):\n            for to"),
    ("moves home are passed over", "for to in (*COLUMNS, *CELLS, HOME):", "for to in (*COLUMNS, *CELLS):"),
    ("moves to cells are passed over", "for to in (*COLUMNS, *CELLS, HOME):", "for to in (*COLUMNS, HOME):"),
    ("moves to the first three cells alone", "for to in (*COLUMNS, *CELLS, HOME):", "for to in (*COLUMNS, *range(8, 11), HOME):"),
    ("moves to columns are passed over", "for to in (*COLUMNS, *CELLS, HOME):", "for to in (*CELLS, HOME):"),
    ("moves to the last column are passed over", "for to in (*COLUMNS, *CELLS, HOME):", "for to in (*range(7), *CELLS, HOME):"),
    ("moves to empty columns are passed over", "if position.allows(self.certificate.game, source, to):\n                    ask",
     "if position.allows(self.certificate.game, source, to) and (to >= 8 or position.card_at(to) is not None):\n"
     "                    ask"),
    ("moves onto last cards are passed over", "if position.allows(self.certificate.game, source, to):\n                    ask",
     "if position.allows(self.certificate.game, source, to) and (to >= 8 or position.card_at(to) is None):\n"
     "                    ask"),
    ("moves from a cell to an empty column are passed over",
     "if position.allows(self.certificate.game, source, to):\n                    ask",
     "if position.allows(self.certificate.game, source, to) and (source < 8 or to >= 8 or position.card_at(to) is not None):\n"
     "                    ask"),
    ("moves from a cell home are passed over", "if position.allows(self.certificate.game, source, to):\n                    ask",
     "if position.allows(self.certificate.game, source, to) and (source < 8 or to < 8):\n                    ask"),
    ("one move that holds is enough", '                    ask(self.holds(position.after(source, to), cost + 1), f"Open({i})")\n',
     "                    if self.holds(position.after(source, to), cost + 1):\n                        return\n"
     '        ask(False, f"Open({i})")\n'),
    ("where a card may go home no other move counts", "for to in (*COLUMNS, *CELLS, HOME):",
     "for to in ([HOME] if any(position.allows(self.certificate.game, it, HOME) for it in range(12)) else (*COLUMNS, "
     "*CELLS, HOME)):"),
    ("a card that came to a column stays", "if position.allows(self.certificate.game, source, to):\n                    ask",
     "if position.allows(self.certificate.game, source, to) and not (source < 8 and to < 12 and "
     "len(position.columns[source]) > 1 and self.certificate.game.may_stand(position.card_at(source), "
     "position.columns[source][-2])):\n                    ask"),
    # What is printed
    ("a floor is told as shortest", '3: f"won {count}, at least {floor}"', '3: f"shortest {count}"'),
    ("a shortest list is told with its floor", '1: f"shortest {count}"', '1: f"won {count}, at least {count}"'),
]

# Why it means the same; and the text that becomes another.
SAME = [
    ("a move makes cost and bound together no less, so from a record that reaches the level all moves lead to what is covered",
     "        if self.is_far(position, cost):\n            return\n", ""),
    ("a card that goes home is never above a lower one of its suit, so what settles has the same cost and bound together",
     "self.is_far(settled, cost + moves)", "self.is_far(position, cost)"),
    ("which card settles first makes no difference to the end: each other one may still go",
     "position.after(min(goers)[1], HOME)", "position.after(max(goers)[1], HOME)"),
    ("a card alone in a column that moves to an empty one leads to the class that it came from",
     "if position.allows(self.certificate.game, source, to):\n                    ask",
     "if position.allows(self.certificate.game, source, to) and not (source < 8 and to < 8 and "
     "len(position.columns[source]) == 1 and position.card_at(to) is None):\n                    ask"),
    ("cards that lead to a ring may be tried as well: that order is one of all orders",
     "return walk[walk.index(waits_for(walk[-1])):]", "return walk"),
    ("each last card may be tried as the one that pays: so all orders are", "return walk[walk.index(waits_for(walk[-1])):]",
     "return [i for i in COLUMNS if heights[i] > 0]"),
    ("any lower card of a last card's suit may be followed in place of the lowest",
     "for it in sorted(left) if suit(it) == suit(last(i)))",
     "for it in sorted(left, reverse=True) if suit(it) == suit(last(i)) and it < last(i))"),
    ("fewer payments than the level asks need no count",
     "return self.certificate.is_clearing and cost + position.clearing_bound() >= level",
     "return self.certificate.is_clearing and position.payments() >= level - cost - position.plain_bound()"),
    ("a card stands on none of its own rank, so on no last card of its own column where another card is the last",
     "return source != to and game", "return game"),
    ("of three cards that wait for one another by rule 2 the last one's other lower card is home, so no fourth one is free "
     "through it",
     "or rule == 2 and self.goes_home(game, rule, other)", "or rule > 1 and self.goes_home(game, {2: 3, 3: 1}[rule], other)"),
    ("lower cards that are all last ones leave before, at no cost", "for card in column[:height]]",
     "for card in column[:max(height - 1, 0)]]"),
    ("a record that reaches the level by its bound alone reaches it with its cost too, and each other one may be asked",
     "        if self.is_far(position, cost):\n", "        if self.is_far(position, 0):\n"),
]


def text_of(path):
    with open(path, encoding="ascii") as file:
        return file.read()


def module_of(path, source=None):
    """The module of a file, or of another text in its place."""
    made = types.ModuleType(os.path.basename(path))
    made.__file__ = path
    exec(compile(text_of(path) if source is None else source, path, "exec"), made.__dict__)
    return made


class Vector(NamedTuple):
    """A vector as a checker reads it."""

    name: str
    game: tuple
    board: tuple
    cert: bytes
    expect: str


def tell(checker, vector):
    """What a version says of a vector; a fault of its own is told by its name."""
    signal.setitimer(signal.ITIMER_VIRTUAL, SECONDS)
    try:
        return checker.said(checker.Game(*vector.game), checker.Position(*vector.board), vector.cert)
    except Exception as fault:  # whatever a wrong checker does
        return type(fault).__name__
    finally:
        signal.setitimer(signal.ITIMER_VIRTUAL, 0)


def stop(*_):
    raise TimeoutError


def changed(source, pairs):
    for old, new in zip(pairs[::2], pairs[1::2]):
        assert source.count(old) == 1, f"{source.count(old)} times: {old}"
        source = source.replace(old, new)
    return source


def main():
    signal.signal(signal.SIGVTALRM, stop)
    path = os.path.join(HERE, "checker.py")
    run, right, source = module_of(os.path.join(HERE, "run")), module_of(path), text_of(path)
    vectors = []
    for it in run.vectors():
        game, _ = right.game_of(it.get("game", "").split())
        vectors.append(Vector(it["vector"], game, right.board_of(it["board"]), run.bytes_of(it), it["expect"]))

    def tellers(*pairs):
        """The vectors that tell a version apart; the first alone where all aren't asked for."""
        checker = module_of(path, changed(source, pairs))
        told = (it for it in vectors if tell(checker, it) != it.expect)
        told = list(told if "--by" in sys.argv else itertools.islice(told, 1))
        # The next version is one of the same subject, and often told by the same vector.
        vectors.sort(key=lambda it: it not in told)
        return [it.name for it in told]

    for vector in tellers():
        print(f"the checker itself says something else of {vector}")
    told = 0
    for why, *pairs in WRONG:
        by = tellers(*pairs)
        told += bool(by)
        if not by:
            print(f"no vector tells apart: {why}")
        elif "--by" in sys.argv:
            print(f"{why}: {' '.join(by)}")
    same = 0
    for why, *pairs in SAME:
        by = tellers(*pairs)
        same += not by
        if by:
            print(f"told apart by {by[0]}: {why}")
    print(f"{told} of {len(WRONG)} wrong versions are told apart, {same} of {len(SAME)} that mean the same are not")
    return 0 if told == len(WRONG) and same == len(SAME) and not tellers() else 1


if __name__ == "__main__":
    sys.exit(main())
