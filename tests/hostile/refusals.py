"""The program with one allocation refused, each in turn: it ends with its ample answer, or with want of memory.

usage:  refusals.py answers    solve, best, hint, check, replay, review, show and batch, on small boards and on deal 941
        refusals.py pages      solve --boards

After want of memory nothing stands on standard output, nor in the certificate, whose file is empty, or as it was where it wasn't
made yet. A batch may in place tell want of memory on one line, or in one row of its table. The library ../refused.c refuses the
allocation with a number, and says so on standard error.
"""
import os
import sys

import runs
from certificates import made, read_file

# What stands in a certificate's file before a run.
BEFORE = b"what stood here before\n"

# The options of a replay.
REPLAYS = [], ["--numbered"], ["--drawn"], ["--sequences"], ["--must-win"], ["--expanded"], ["--board-at", "2"], ["--sequences", "--drawn"]

# What is told of the boards, and of lists of two kings: one that wins, one that leaves out what wins, and none.
TELLINGS = ["best", "--stats"], ["best", "--json"], ["solve", "--sequences", "--words"], ["hint"], ["hint", "--json"]
REVIEWS = ["review", "-", "/dev/fd/3"], ["review", "--json", "-", "/dev/fd/3"]
LISTS = b"1a 1h 2h 2h ah\n", b"1a\n", b""


def judge(words, ample, ran):
    """What is wrong with a run in which an allocation was refused, or None."""
    same = (ran.status, ran.out, ran.files) == (ample.status, ample.out, ample.files)
    if same:
        return None
    is_left = ran.files in ([BEFORE], [b""]) if "--cert" in words else ran.files == ample.files
    if ran.status == 4 and ran.err.endswith(b"fc_solve: want of memory\n") and ran.out == b"" and is_left:
        return None
    if (words[0] == "batch" or "--lists" in words) and ran.status == 4 and is_one_line_less(ample.out, ran.out):
        return None
    return f"{words}: {ran}, in place of {ample}"


def is_one_line_less(ample, out):
    """Whether one line, or row of a table, tells want of memory, and the others are the same."""
    others = [(old, new) for old, new in zip(ample.splitlines(), out.splitlines()) if old != new]
    if len(others) != 1 or ample.count(b"\n") != out.count(b"\n"):
        return False
    old, new = others[0]
    return new == old.split()[0] + b" want of memory" or new.startswith(old.split()[0] + b"\twant of memory\t\t")


def sweep(task):
    """How many refusals a run met, and what was wrong."""
    words, given, files = task
    program, number, failed = runs.program(), 0, []
    ample = program.run(words, given, files)
    while True:
        number += 1
        ran = program.run(words, given, files, {"LD_PRELOAD": LIBRARY, "REFUSE": str(number)})
        told = judge(words, ample, ran)
        if told:
            failed.append(f"allocation {number}: {told}")
        if b"refused\n" not in ran.err:
            if ran.out != ample.out:
                failed.append(f"{words}: nothing refused: {ran}, in place of {ample}")
            return number - 1, failed


def tasks_of(what):
    """What is run: words, standard input, and files."""
    boards = {name: read_file("boards", name + ".txt") for name in ("one-king", "two-kings", "locked")}
    if what == "pages":
        return [(["solve", "--boards"], boards["two-kings"], [])]
    certs = {name: read_file("boards", name + ".cert") for name in ("two-kings", "locked")}
    program = runs.program()
    deal = program.run(["deal", "941"]).out
    moves = program.run(["solve"], deal).out
    solve, check, replay = ["solve", "--cert", "/dev/fd/3"], ["check", "-", "/dev/fd/3"], ["replay", "-", "/dev/fd/3"]
    tasks = [(["solve"], boards["one-king"], [])] + [(solve, board, [BEFORE]) for board in boards.values()]
    tasks += [([*solve, "--within", "2", "--bound", "clearing"], boards["two-kings"], [BEFORE])]
    tasks += [(check, boards[name], [certs[name]]) for name in certs]
    tasks += [([*replay, *flags], boards["two-kings"], [b"1a 1h 2h 2h ah\n"]) for flags in REPLAYS]
    tasks += [(["show"], boards["two-kings"], [])]
    tasks += [(words, board, []) for words in TELLINGS for board in boards.values()]
    tasks += [(words, boards["two-kings"], [moves]) for words in REVIEWS for moves in LISTS]
    tasks += [(["review", "--lists", "-"], b"boards/two-kings.txt: 1a\n", [])]
    batches = ("1 1 --budget 1", "24 24 --budget 1", "24 26 --budget 50", "24 26 --budget 50 --table")
    tasks += [(["batch", *words.split()], b"", []) for words in batches]
    tasks += [(solve, deal, [BEFORE]), (check, deal, [made(program, deal, [], [])]), (replay, deal, [moves])]
    return tasks + [(["batch", "941", "941"], b"", [])]


def main():
    failed, tasks = [], tasks_of(sys.argv[1])
    if os.environ.get("few"):
        tasks = tasks[::3]
    for (words, *_), (met, told) in zip(tasks, runs.side_by_side(sweep, tasks)):
        failed += told
        if met < 2:
            failed.append(f"{words} met {met} refusals")
        if os.environ.get("COUNTS"):
            print(met, *words, file=sys.stderr)
    print(f"runs of {len(tasks)} commands, each allocation refused in turn, {'not all ' if failed else ''}end as promised")
    runs.end(failed)


if __name__ == "__main__":
    runs.high_memory()
    KEPT, LIBRARY = runs.library("../refused.c")
    main()
