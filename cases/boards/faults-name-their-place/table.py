"""Thirty-seven texts with one fault each: standard error says what is wrong, and then where and why."""
import os
import subprocess

DEAL_1 = [
    "JD KD 2S 4C 3S 6D 6S", "2D KC KS 5C TD 8S 9C", "9H 9S 9D TS 4S 8D 2H", "JC 5S QD QH TH QS 6H",
    "5D AD JS 4H 8H 6C", "7H QC AS AC 2C 3D", "7C KH AH 4D JH 8C", "5H 3H 3C 7S 7D TC",
]
CARD = "is no card: a card is its rank, A 2 to 9 T J Q K, and its suit, C D H S"
HOME = "is no foundation: each suit stands once, as in H-0 C-A D-7 S-T"
CELL = "stands past the last cell of the game"
COLUMN = "stands in a ninth column: a line is a column, an empty line an empty one"
SOLVER = "is a solver's: keep the lines of one board alone, and cut the others"
LABEL = "numbers a column out of order: they go 1: to 8:, or have no numbers"
DECK = "a board has 52 cards: in its columns, in its cells, or home on its foundations"
AGAIN = "a line above tells it already: keep one board alone"


def deal(number, column):
    """Deal 1 with another column in place of the one with this number, from 1."""
    return "\n".join([*DEAL_1[: number - 1], column, *DEAL_1[number:]]) + "\n"


ROWS = [
    # a token that is no card
    (deal(1, "JD KD 2S 4C 3S 6D 6X"), "line 1: not a card", f"line 1, word 7: '6X' {CARD}"),
    (deal(8, "5H 3H 3C 7S 7D 1C"), "line 8: not a card", f"line 8, word 6: '1C' {CARD}"),
    (deal(3, "9H 9S 9D TS 4S8D 2H"), "line 3: not a card", f"line 3, word 5: '4S8D' {CARD}"),
    (deal(3, "9H 9S 9D TS 4S; 8D 2H"), "line 3: not a card", f"line 3, word 5: '4S;' {CARD}"),
    (deal(2, "2D KC KS 5C S1 8S 9C"), "line 2: not a card", f"line 2, word 5: 'S1' {CARD}"),
    (deal(2, "2D KC KS - 5C TD 8S 9C"), "line 2: not a card", f"line 2, word 4: '-' {CARD}"),
    (deal(4, ": : JC 5S QD QH TH QS 6H"), "line 4: not a card", f"line 4, word 1: ':' {CARD}"),
    (deal(5, "5D AD JS 4H 8H 6\u2667\u2667"), "line 5: not a card", f"line 5, word 6: '6CC' {CARD}"),
    (deal(5, "5D AD JS 4H 8H 6\u2668"), "line 5: not a card", f"line 5, word 6: '6\\xe2\\x99\\xa8' {CARD}"),
    (deal(5, "5D AD JS 4H 8H 6C\x07"), "line 5: not a card", f"line 5, word 6: '6C\\x07' {CARD}"),
    (deal(6, "7H QC AS AC 2C 3D ; the sixth"), "line 6: not a card", f"line 6, word 7: ';' {CARD}"),
    (deal(7, "7C KH AH 4D JH JOKER"), "line 7: not a card", f"line 7, word 6: 'JOKER' {CARD}"),
    (deal(7, "7C KH AH 4D JH " + "8" * 30), "line 7: not a card", f"line 7, word 6: '{'8' * 24}..' {CARD}"),
    ("FC: - 7X\n", "line 1: not a card", f"line 1, word 2: '7X' {CARD}"),
    ("\r\n\r\nFreecells: KC QD jh 1s\r\n", "line 3: not a card", f"line 3, word 4: '1s' {CARD}"),
    # a foundation that is none
    ("Foundations: H-Z\n", "line 1: not a foundation", f"line 1, word 1: 'H-Z' {HOME}"),
    ("Foundations: H-0 C-1 D-0 S-0\n", "line 1: not a foundation", f"line 1, word 2: 'C-1' {HOME}"),
    ("KC\nFounds: H-2 h-3\n", "line 2: not a foundation", f"line 2, word 2: 'h-3' {HOME}"),
    ("Decks: H1\n", "line 1: not a foundation", f"line 1, word 1: 'H1' {HOME}"),
    ("Foundations: H-14\n", "line 1: not a foundation", f"line 1, word 1: 'H-14' {HOME}"),
    # too many cells, too many columns, a line told again
    ("Freecells: - - - - -\n", "line 1: too many cells", f"line 1, word 5: '-' {CELL}"),
    ("KC\nFC: KD KH KS QC QD QH\n", "line 2: too many cells", f"line 2, word 5: 'QD' {CELL}"),
    (deal(8, "5H 3H 3C 7S 7D\nTC"), "line 9: too many columns", f"line 9, word 1: 'TC' {COLUMN}"),
    ("\n" + deal(1, DEAL_1[0]), "line 9: too many columns", f"line 9, word 1: '5H' {COLUMN}"),
    ("FC: -\nFC: -\n", "line 2: repeated", f"line 2: {AGAIN}"),
    ("Foundations: H-0\nKC\nFoundations: H-0\n", "line 3: repeated", f"line 3: {AGAIN}"),
    # a card that stands twice, or nowhere
    (deal(8, "5H 3H 3C 7S 7D JD"), "card JD stands twice", "line 1, word 1, and line 8, word 6: 'JD' is one card"),
    (deal(8, "5H 3H 3C 7S 7D TC\nFC: 10c"), "card TC stands twice", "line 8, word 6, and line 9, word 1: 'TC' is one card"),
    ("Foundations: H-K C-K D-K S-K\nKS\n", "card KS stands twice", "line 2, word 1: 'KS' is home already, by its foundation"),
    (deal(8, "5H 3H 3C 7S 7D"), "card TC is missing", DECK),
    (deal(4, ""), "card 5S is missing", f"missing are 5S 6H TH JC QD QH QS\nfc_solve: {DECK}"),
    # in the middle of a game without its foundations
    ("KC QD JC TD\nKD QC JD TC\nKH QS JH TS\nKS QH JS TH\n9S 9H 9C\n8C\n", "card AC is missing",
     "with this line it is a board: Foundations: H-8 C-7 D-9 S-8\nfc_solve: --guess adds it"),
    # what solvers print beside boards, and columns that are numbered out of order
    ("-=-=-=-=-=-=-=-=-=-=-=-\n\nFoundations: H-0 C-0 D-0 S-0\n", "line 1: not a card", f"line 1, word 1: '-=-=-=-=-=-=-=-=-=-=-=-' {SOLVER}"),
    (deal(8, DEAL_1[7]) + "\n====================\n", "line 10: not a card", f"line 10, word 1: '====================' {SOLVER}"),
    (deal(8, DEAL_1[7]) + "Move a card from stack 7 to stack 2\n", "line 9: not a card", f"line 9, word 1: 'Move' {SOLVER}"),
    ("2: " + DEAL_1[1] + "\n1: " + DEAL_1[0] + "\n", "line 1: not a card", f"line 1, word 1: '2:' {LABEL}"),
    ("KC " * 1366, "too long", "a board's text has at most 4096 bytes: keep the lines of one board alone"),
]

failed = 0
for number, (text, fault, note) in enumerate(ROWS, 1):
    run = subprocess.run([os.environ["fc_solve"], "solve"], input=text.encode(), capture_output=True)
    wanted = f"fc_solve: board: {fault}\nfc_solve: {note}\n"
    if (run.returncode, run.stdout, run.stderr.decode()) != (3, b"", wanted):
        failed += 1
        print(f"text {number}: status {run.returncode}, {run.stdout!r}\n{run.stderr.decode()}in place of\n{wanted}")
print(f"{len(ROWS)} texts, {failed} failed")
