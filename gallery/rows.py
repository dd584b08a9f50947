"""The gallery's rows: how one is written, how they stand in files, and who may write those.

A folder of rows has deals/01.tsv with deals 1 to 1000, deals/02.tsv with 1001 to 2000 and so on, boards.tsv for boards of files, and
certificates/. While it is written it has .making/, too.
"""
import contextlib
import fcntl
import os
import re
import shutil
import socket
import sys
import time
import urllib.parse
from typing import NamedTuple

HERE = os.path.dirname(os.path.abspath(__file__))
COLUMNS = ("deal", "answer", "moves", "floor", "budget", "stored", "bytes", "sha256", "list")
HEAD = "\t".join(COLUMNS) + "\n"
# How many deals stand in a file.
OF_A_FILE = 1000
# What is kept of certificates: none is made; those of at most so many bytes, as they are; or all of them, compressed.
NONE, SMALL, ALL = "none", "small", "all"
GREATEST_KEPT = 4096
GREATEST_BUDGET = 16_000_000
# What is made meanwhile, in a folder of rows.
ROOM = ".making"
# The answers from the worst on.
ANSWERS = ("gave up", "won", "shortest", "can't be won")


class Row(NamedTuple):
    """What is told of a deal. Every cell is a text, as it stands in the file."""

    deal: str  # its number, or FILE:PLACE of another board
    answer: str
    moves: str
    floor: str
    budget: str
    stored: str
    bytes: str
    sha256: str
    list: str

    def line(self) -> str:
        return "\t".join(self) + "\n"

    def claim(self) -> str:
        """The first line of the answer, which the checkers tell of its certificate."""
        return {"shortest": f"shortest {self.moves}", "won": f"won {self.moves}, at least {self.floor}"}.get(self.answer, self.answer)

    def moves_list(self) -> str:
        """The list as the program prints it."""
        return " ".join(self.list[at : at + 2] for at in range(0, len(self.list), 2))

    def is_done(self) -> bool:
        """Whether no greater budget can tell more."""
        return self.answer in ("shortest", "can't be won")

    def is_no_worse(self, other: "Row") -> bool:
        """Whether nothing of the other is lost where this row takes its place: no shorter list and no greater floor."""
        if self.answer != other.answer:
            return ANSWERS.index(self.answer) > ANSWERS.index(other.answer)
        return self.answer != "won" or (int(self.moves) <= int(other.moves) and int(self.floor) >= int(other.floor))


def row_of(line: str) -> Row:
    cells = line.rstrip("\n").split("\t")
    if len(cells) != len(COLUMNS):
        raise ValueError(f"it isn't a row: {line!r}")
    return Row(*cells)


def classes_of(word: str) -> int:
    """How many classes a budget is, which is told as the program takes it."""
    told = re.fullmatch(r"([0-9][0-9_]*)(?:([kKmM])|[eE]\+?([0-9]{1,2}))?", "4M" if word == "max" else word)
    digits, unit, zeros = told.groups() if told else ("0", None, None)
    number = int(digits.replace("_", "")) * {"k": 1000, "m": 1_000_000}.get((unit or "").lower(), 10 ** int(zeros or 0))
    if not 1 <= number <= GREATEST_BUDGET:
        raise ValueError(f"{word!r} is no budget, which is a number from 1 to 16M, such as 500k")
    return number


def budget_of(word: str) -> str:
    """The one word that a row has for a budget."""
    number = classes_of(word)
    for unit, sign in ((1_000_000, "M"), (1000, "k")):
        if number % unit == 0:
            return f"{number // unit}{sign}"
    return str(number)


def order(name: str):
    """Where a row stands among others: deals by their numbers, boards by their files and places."""
    path, _, place = name.rpartition(":")
    return ("", int(name)) if name.isdigit() else (path, int(place))


def file_of(name: str) -> str:
    """The file of a folder that has the row of this name."""
    return os.path.join("deals", f"{(int(name) - 1) // OF_A_FILE + 1:02}.tsv") if name.isdigit() else "boards.tsv"


def certificate_of(name: str, kept: str) -> str:
    """The file of a folder that has the certificate of this name, where it is kept."""
    return os.path.join("certificates", urllib.parse.quote(name, safe="") + (".cert.zst" if kept == ALL else ".cert"))


class Folder:
    """A folder of rows, which are read once."""

    def __init__(self, path: str = HERE):
        self.path, self.files, self.rows = path, {}, {}
        deals = os.path.join(path, "deals")
        names = [os.path.join("deals", it) for it in sorted(os.listdir(deals)) if it.endswith(".tsv")] if os.path.isdir(deals) else []
        for name in [*names, *["boards.tsv"] * os.path.exists(self.at("boards.tsv"))]:
            with open(self.at(name), encoding="utf-8") as it:
                head, *lines = it
            if head.replace("\tclasses\t", "\tstored\t") != HEAD:  # (an older folder's, which gets this one with its next row)
                raise ValueError(f"{self.at(name)} has another head")
            self.files[name] = {row.deal: row for row in map(row_of, lines)}
            self.rows.update(self.files[name])

    def at(self, name: str) -> str:
        return os.path.join(self.path, name)

    def lacks(self, row: Row, keep: str) -> bool:
        """Whether a row hasn't the certificate that is asked for. Giving up has none."""
        if keep == NONE or row.answer == "gave up":
            return False
        return not row.sha256 or (keep == ALL and not os.path.exists(self.at(certificate_of(row.deal, ALL))))

    def is_left(self, name: str, budget: str, keep: str) -> bool:
        """Whether a deal is still to be asked within a budget."""
        row = self.rows.get(name)
        if row is None:
            return True
        if self.lacks(row, keep):
            return classes_of(row.budget) <= classes_of(budget)
        return not row.is_done() and classes_of(row.budget) < classes_of(budget)

    def put(self, row: Row, certificate: str | None, kept: str) -> bool:
        """Writes a row, unless the one that stands there tells more. The certificate, a file, goes before it: a row that isn't written
        yet is asked for again."""
        old = self.rows.get(row.deal)
        if old and not row.is_no_worse(old):
            return False
        wanted = certificate_of(row.deal, kept) if certificate else None
        for name in {certificate_of(row.deal, it) for it in (SMALL, ALL)} - {wanted}:
            if os.path.exists(self.at(name)):
                os.remove(self.at(name))
        if wanted:
            os.makedirs(self.at("certificates"), exist_ok=True)
            os.replace(certificate, self.at(wanted))
        self.rows[row.deal] = row
        rows = self.files.setdefault(file_of(row.deal), {})
        rows[row.deal] = row
        self.write(file_of(row.deal), HEAD + "".join(rows[it].line() for it in sorted(rows, key=order)))
        return True

    def write(self, name: str, text: str):
        """Puts a file in place as a whole."""
        new = self.at(os.path.join(ROOM, "new"))
        with open(new, "w", encoding="utf-8") as it:
            it.write(text)
        os.makedirs(os.path.dirname(self.at(name)), exist_ok=True)
        os.replace(new, self.at(name))


class Held:
    """The right to write a folder, which one process has at a time; and .making/, which has what is made meanwhile."""

    def __init__(self, path: str):
        self.room = os.path.join(path, ROOM)
        self.lock = os.path.join(self.room, "lock")

    def __enter__(self):
        while True:
            os.makedirs(self.room, exist_ok=True)
            try:
                self.file = open(self.lock, "a+", encoding="utf-8")
                fcntl.flock(self.file, fcntl.LOCK_EX | fcntl.LOCK_NB)
                if os.path.samestat(os.fstat(self.file.fileno()), os.stat(self.lock)):
                    break
            except FileNotFoundError:  # who had it has just ended
                continue
            except BlockingIOError:
                self.file.seek(0)
                sys.exit(f"gallery/make: {os.path.dirname(self.room)} is being written by {self.file.read().strip() or 'another process'}")
        self.file.truncate(0)
        self.file.write(f"process {os.getpid()} on {socket.gethostname()}, since {time.strftime('%Y-%m-%d %H:%M:%S')}\n")
        self.file.flush()
        self.clear()
        return self.room

    def clear(self):
        """Removes what a process left that was killed."""
        for name in os.listdir(self.room):
            path = os.path.join(self.room, name)
            if os.path.isdir(path):
                shutil.rmtree(path, ignore_errors=True)
            elif path != self.lock:
                with contextlib.suppress(FileNotFoundError):  # a search that outlived its call ends
                    os.remove(path)

    def __exit__(self, *_):
        self.clear()
        os.remove(self.lock)
        with contextlib.suppress(OSError):  # the next one is at the door
            os.rmdir(self.room)
        self.file.close()
