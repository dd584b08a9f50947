#!/usr/bin/env python3
"""Solves boards in the middle of lists that win, each by a process of the built program, and counts what is answered.

usage, at the top of the repository:  middle.py STEP [the words of a search]     with fc_solve in the environment

Every STEP-th board of each list of tests/lists/ is solved; none may be answered 'can't be won'.
"""
import collections
import os
import subprocess
import sys
from concurrent.futures import ThreadPoolExecutor

PROGRAM = os.environ["fc_solve"]
LINES_A_BOARD = 10


def boards_of(form, number):
    """The boards after each one-card move of a list."""
    words = [PROGRAM, "replay", "--sequences", str(number), f"tests/lists/{form}/{number}.txt"]
    lines = subprocess.run(words, stdout=subprocess.PIPE, stderr=subprocess.DEVNULL, check=True).stdout.splitlines(True)
    return [b"".join(lines[at : at + LINES_A_BOARD]) for at in range(0, len(lines), LINES_A_BOARD)]


def answer_of(board, words):
    """The first word of the answer."""
    ran = subprocess.run([PROGRAM, "solve", *words, "-"], input=board, stdout=subprocess.PIPE, check=False)
    return ran.stdout.decode().split("\n")[0].split(" ")[0] or f"status {ran.returncode}"


def main(step, *words):
    boards = [board for form in ("sn", "snx") for number in range(1, 31) for board in boards_of(form, number)[:: int(step)]]
    with ThreadPoolExecutor(os.cpu_count()) as pool:
        told = collections.Counter(pool.map(lambda board: answer_of(board, words), boards))
    print(f"boards: {len(boards)}", *(f"{word}: {count}" for word, count in sorted(told.items())), sep="\n", file=sys.stderr)
    print("no board can't be won" if set(told) <= {"shortest", "won", "gave"} else "some board is refused")


if __name__ == "__main__":
    main(*sys.argv[1:])
