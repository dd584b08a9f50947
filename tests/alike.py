#!/usr/bin/env python3
"""Whether two built programs say the same bytes: on standard output, on standard error, as a status and in the files that they write.

usage, at the top of the repository:  alike.py PROGRAM OTHER

Asked are each row of tests/rows/ by each of its commands, and the forms below, of boards that take a moment, through pipes and at a
terminal. It prints each command that differs and how many don't, and ends with 1 where one differs. It is for changes that are to
change no byte; what a row must say is tests/rows.py's to tell.
"""
import glob
import itertools
import os
import pty
import subprocess
import sys
import tempfile
from concurrent.futures import ThreadPoolExecutor

sys.dont_write_bytecode = True
import rows

# A board in the middle of a game, one that has a fault, and lists as people and programs write them.
FILES = {
    "mid.txt": b"Foundations: H-0 C-2 D-0 S-0\nFreecells: QD 9S\n7D AD 9D JD JH AH AS\n4S 4H KS TS JS 8H 2H\n5H QS 7S TC KH 8D 6D\n"
    b"QC 4D QH KC 3C 3S\n6H 6S 5D 7H 3D 2S 5C\n6C 8C 9C 4C TH\n3H TD 5S KD 7C\n9H 8S JC 2D\n",
    "bad.txt": b"# a comment\n7D AD 9D JD JH AH AS\n4S 4H KS TX JS 8H 2H\n",
    "twice.txt": b"7D AD 9D JD JH AH AS\n7D\n",
    "few.txt": b"2a 83 8b 83 8c 8d 8h\n",
    "said.txt": b"1. 2a\n83 8-b\n8->3 8c\n",
    "words.txt": b"1. 7H from column 2 to cell a\n2. 2 cards, 8S to 7H, from column 8 to the 9H on column 3\n",
}
BOARDS = ["617", "941", "11982", "mid.txt", "bad.txt", "twice.txt", "nowhere.txt", "0", "1000001"]
ASKED = ["--budget", "20k"]
# Words before a board, and those behind it.
FORMS = [
    *([name, *ASKED, *words] for name in ("best", "solve") for words in (
        [], ["--words"], ["--boards"], ["--sequences"], ["--sequences", "--words"], ["--sequences", "--boards", "--color", "always"],
        ["--json"], ["--json", "--stats"], ["--stats"], ["--link"], ["--cert", "made.cert"], ["--quiet"], ["--game", "bakers"],
        ["--kings", "--cells", "3"], ["--rows"], ["--guess"],
    )),
    *(["best", *ASKED, "--each", *words] for words in ([], ["--json"], ["--words"], ["--cert", "made.cert"])),
    *(["hint", *ASKED, *words] for words in ([], ["--json"], ["--more", "3"], ["--link"])),
    ["show"], ["show", "--plain"], ["show", "--color", "always"],
]
LISTS = [
    *(["replay", *words] for words in (
        [], ["--numbered"], ["--drawn"], ["--sequences"], ["--sequences", "--drawn"], ["--json"], ["--expanded"], ["--board-at", "2"],
        ["--must-win"], ["--link"], ["--board-at", "2", "--link"], ["--board-at", "99"],
    )),
    *(["review", *ASKED, *words] for words in ([], ["--json"], ["--all"], ["--link"], ["--sequences"], ["--certs", "."], ["--cert", "made.cert"])),
]
WHOLE = [
    ["batch", *ASKED, "1", "4"], ["batch", *ASKED, "--table", "1", "4"], ["batch", *ASKED, "--json", "1", "4"],
    ["batch", *ASKED, "--best", "--table", "--totals", "1", "4"], ["batch", *ASKED, "--boards", "mid.txt", "bad.txt", "nowhere.txt"],
    ["batch", *ASKED, "--best", "--json", "--boards", "mid.txt"], ["batch", *ASKED, "--certs", "made", "--table", "1", "3"],
    ["batch", "4", "1"], ["batch", "1", "99"], ["batch", "--budget", "0", "1", "2"], ["deal", "617"], ["deal", "0"], [], ["--help"], ["--version"],
    *([name, "--help"] for name in ("deal", "show", "best", "hint", "solve", "check", "replay", "review", "batch")),
    ["review", *ASKED, "--lists", "lists.txt"], ["review", *ASKED, "--json", "--lists", "lists.txt"], ["fetch"], ["best"], ["best", "--budget", "0", "617"],
]
FILES["lists.txt"] = b"617 2a 83 8b 83 8c 8d 8h\n# none\nmid.txt: 1a\nnowhere 12\nbad.txt 12\n617\n"


def commands():
    """The words of each command."""
    yield from ([*form, board] for form in FORMS for board in BOARDS)
    yield from ([*form, board, moves] for form in LISTS for board in ("617", "mid.txt", "bad.txt") for moves in ("few.txt", "said.txt", "words.txt", "none.txt"))
    yield from WHOLE


def held(folder):
    """What stands in a folder: the bytes of each file, by its path there."""
    paths = sorted(glob.glob(f"{folder}/**", recursive=True))
    return {os.path.relpath(path, folder): rows.read(path) for path in paths if os.path.isfile(path)}


def through_pipes(program, words, folder, given):
    ran = subprocess.run([program, *words], input=given, capture_output=True, cwd=folder, check=False)
    return ran.returncode, ran.stdout, ran.stderr


def at_a_terminal(program, words, folder, _given):
    """The same with all that it says on one terminal of 80 columns."""
    master, slave = pty.openpty()
    with subprocess.Popen([program, *words], stdin=subprocess.DEVNULL, stdout=slave, stderr=slave, cwd=folder) as ran:
        os.close(slave)
        said = b""
        while True:
            try:
                more = os.read(master, 65536)
            except OSError:
                break
            if not more:
                break
            said += more
    os.close(master)
    return ran.returncode, said


def said(program, words, files, given, how):
    """What a program says and leaves, that is given these files in a folder of its own."""
    with tempfile.TemporaryDirectory() as folder:
        for name, data in files.items():
            with open(f"{folder}/{name}", "wb") as it:
                it.write(data)
        return how(program, words, folder, given), held(folder)


def questions():
    """Each command's words, files and standard input, and how it is asked."""
    for words in commands():
        yield words, FILES, b"", through_pipes
        yield words, FILES, b"", at_a_terminal
    for path in sorted(glob.glob("tests/rows/*.tsv")):
        for _, lines, row in rows.rows_of(path):
            for line in lines:
                with tempfile.TemporaryDirectory() as folder:
                    trial = rows.Trial(line, row, folder)
                    asked = [[*trial.words_of(command)] for command in trial.commands]
                    files = held(folder)
                # (of several commands each is asked by itself)
                yield from ((words, files, row.get("in", b""), through_pipes) for words in asked)


def main(words):
    if len(words) != 2:
        print("usage: alike.py PROGRAM OTHER", file=sys.stderr)
        return 2
    programs = [os.path.abspath(it) for it in words]
    with ThreadPoolExecutor(int(os.environ.get("JOBS", os.cpu_count()))) as pool:
        def differs(question):
            asked, files, given, how = question
            one, other = (said(it, asked, files, given, how) for it in programs)
            return None if one == other else (asked, how.__name__, one, other)

        told = list(pool.map(differs, questions()))
    different = [it for it in told if it]
    for asked, how, one, other in itertools.islice(different, 40):
        print(f"{how}: {' '.join(asked)}\n  {one[0]}\n  {other[0]}" + ("" if one[1] == other[1] else "\n  other files"))
    print(f"{len(told) - len(different)} of {len(told)} alike")
    return 1 if different else 0


if __name__ == "__main__":
    sys.exit(main(sys.argv[1:]))
