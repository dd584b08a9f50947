#!/usr/bin/env python3
"""Boards in the middle of games, drawn and then typed otherwise: none is read as another one without a word.

usage, at the top of the repository:  misread.py BOARDS SEED        (the program is $fc_solve, or crates/fc_solve/out/fc_solve)

Each board is one of a list that wins a deal; deals and places are drawn by the seed. It is drawn by `show` and typed in each form of FORMS.
Read with --rows and without, each text is the same board, or it is refused, or something is told on standard error; and a drawing
that was moved as a whole, or typed wider under its numbers, is read with --rows as the board.
"""
import collections
import os
import random
import re
import subprocess
import sys

PROGRAM = os.environ.get("fc_solve", "crates/fc_solve/out/fc_solve")
NUMBERS = "  1  2  3  4  5  6  7  8"


def run(words, text=""):
    """Status, standard output and standard error of the program."""
    done = subprocess.run([PROGRAM, *words], input=text.encode(), stdout=subprocess.PIPE, stderr=subprocess.PIPE, check=False)
    return done.returncode, done.stdout.decode(), done.stderr.decode()


def lines_by(change):
    """A form that changes each line."""
    return lambda text: "".join(change(line) + "\n" for line in text.splitlines())


def wide(text):
    """Four places an entry, and tens as players write them."""
    def line_of(line):
        entries = [line[at:at + 3].strip() for at in range(0, len(line), 3)]
        return "".join(re.sub("^T", "10", entry).rjust(4) for entry in entries).rstrip()
    return lines_by(line_of)(text)


def rows_of(text):
    """The rows alone, without what stands above them."""
    return text[text.index(NUMBERS) + len(NUMBERS) + 1:]


def head_of(text):
    """What stands above the rows but for the numbers of the columns."""
    return text[:text.index(NUMBERS)]


# (the first ones are read as the board with --rows)
WHOLE = {
    "as it is drawn": lambda text: text,
    "a blank less": lines_by(lambda line: line[1:] if line.startswith(" ") else line),
    "one blank in": lines_by(lambda line: " " + line),
    "two blanks in": lines_by(lambda line: "  " + line),
    "four blanks in": lines_by(lambda line: "    " + line),
    "a tab in": lines_by(lambda line: "\t" + line),
    "four wide": wide,
    "ends cut": lines_by(str.rstrip),
}
FORMS = {
    **WHOLE,
    "squeezed": lambda text: re.sub(" +", " ", text),
    "tens in letters": lambda text: text.replace("T", "10"),
    "without numbers": lambda text: head_of(text) + rows_of(text),
    "without numbers, a blank less": lambda text: lines_by(lambda line: line[1:])(head_of(text) + rows_of(text)),
    "without numbers, tens in letters": lambda text: (head_of(text) + rows_of(text)).replace("T", "10"),
    "rows alone": rows_of,
    "rows alone, squeezed": lambda text: re.sub(" +", " ", rows_of(text)),
    "rows alone, four wide": lambda text: wide(rows_of(text)),
}


def boards(count, draw):
    """So many boards of lists that win drawn deals, each as its text."""
    found = []
    while len(found) < count:
        deal = str(draw.randint(1, 32000))
        status, told, _ = run(["best", "--budget", "2000", deal])
        if status != 0:
            continue
        moves = " ".join(told.splitlines()[1:])
        length = len(moves.split())
        for at in draw.sample(range(1, length + 1), min(10, length, count - len(found))):
            board = subprocess.run([PROGRAM, "replay", "--board-at", str(at), deal, "-"], input=moves.encode(), stdout=subprocess.PIPE,
                                   stderr=subprocess.DEVNULL, check=False).stdout.decode()
            if board.startswith("Foundations:"):
                found.append((f"deal {deal} at {at}", "".join(board.splitlines(keepends=True)[:10])))
    return found


def judge(name, board, form, text, words, tally):
    """Whether a typed text is read as the board, refused or told; what is wrong is printed."""
    status, told, said = run(["show", "--plain", *words], text)
    how = "refused" if status == 3 else "itself" if told == board else "told" if said else "another"
    tally[how] += 1
    wants_itself = bool(words) and form in WHOLE
    if how == "another" or status not in (0, 3) or (wants_itself and how != "itself"):
        print(f"{name}, {form}, {' '.join(words) or 'in columns'}: {how}\n{text}{said}{told}")
        return False
    return True


def main():
    count, seed = int(sys.argv[1]), sys.argv[2]
    tally, all_right = collections.Counter(), True
    for name, board in boards(count, random.Random(seed)):
        drawn = run(["show"], board)[1]
        for form, typed in FORMS.items():
            for words in ([], ["--rows"]):
                all_right &= judge(name, board, form, typed(drawn), words, tally)
    if not all_right or not tally["itself"]:
        print(f"seed {seed}: {dict(tally)}")
    else:
        print(f"{count} boards in {len(FORMS)} forms: each is read as itself, refused or told")


main()
