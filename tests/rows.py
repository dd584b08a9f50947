#!/usr/bin/env python3
"""Runs the built program on the rows of tables: each row is one expectation.

usage, at the top of the repository:  rows.py TABLE..        (the program is $fc_solve, or crates/fc_solve/out/fc_solve)

A table is a file of lines, parted by tabs:
  # ...                    a comment
  let NAME VALUE           names a value, for cells that say @NAME, or @NAME*COUNT, or several of these, parted by +
  use TABLE                names the values that a table in the same folder names
  run WORD..               the command of the rows that follow: {NAME} is a file that holds the row's cell of that column, <NAME> the
                           words of the cell; the cell of the column `in` is standard input; [NAME] is a file that the program makes,
                           which has the bytes of the row's cell of that column in the end, if there is such a column; of commands that
                           are parted by a cell `;` it is asked how the last one ends
  also WORD..              one command more that each of these rows is tried by
  columns NAME..           the columns of the rows that follow
  anything else            a row; the cells that it lacks at its end are empty
Cells and values have Python's escapes (\\n, \\x00, \\u2665); in a column named NAME:hex they are hexadecimal digits and blanks, and in
one named NAME:re a regular expression that all of the text matches. What is wanted stands in the columns
  status                   0 where there is none
  stdout, stderr           nothing where there is none
  says                     in place of stderr: what its first line says behind `fc_solve: `
  moves                    then stdout is the first line alone, and after it come so many moves (`told`: as many as that line tells), which
                           win from the file of the column board, or from the deal of the column deal, in the game of the column game
  claim                    what `check` accepts of the certificate that a command with --cert or --certs writes; where there is none, no
                           certificate is written; its records are so many as the column classes says, or one at no cost, with the key
                           of the column key
Prints what differs, and for each table how many of its rows are as they should be.
"""
import itertools
import os
import re
import subprocess
import sys
import tempfile


def read(path):
    """The bytes of a file; a file that isn't there has none."""
    if not os.path.exists(path):
        return b""
    with open(path, "rb") as it:
        return it.read()


def text_of(cell, named):
    """The bytes of a cell."""
    if cell.startswith("@"):
        parts = [part.partition("*") for part in cell[1:].split("+")]
        return b"".join(named[name] * int(count or 1) for name, _, count in parts)
    return cell.encode("raw_unicode_escape").decode("unicode_escape").encode()


def value_of(cell, kind, named):
    """What a cell of a column of this kind says."""
    if kind == "re":
        return re.compile(cell.encode(), re.DOTALL)
    return bytes.fromhex(cell) if kind == "hex" and not cell.startswith("@") else text_of(cell, named)


def is_wanted(told, wanted):
    """Whether a text is what is wanted, or matches that."""
    return wanted.fullmatch(told) is not None if isinstance(wanted, re.Pattern) else told == wanted


def records_of(cert):
    """The records of a certificate in its second or third form, with their number before them."""
    at = 7 + (cert[:4] == b"FCC3")
    kind = cert[at]
    at += 1 + 4 * (kind == 3)
    if kind != 2:
        at += 4 + 2 * int.from_bytes(cert[at : at + 4], "big")
    return cert[at:]


class Trial:
    """A row that is tried by a line of commands, in a folder of its own."""

    def __init__(self, line, row, folder):
        self.row, self.folder = row, folder
        self.commands = [list(words) for is_end, words in itertools.groupby(line, lambda it: it == ";") if not is_end]
        self.made = [word[1:-1] for word in line if re.fullmatch(r"\[\w+\]", word)]

    def fc_solve(self, words, given=b""):
        program = os.path.abspath(os.environ.get("fc_solve", "crates/fc_solve/out/fc_solve"))
        return subprocess.run([program, *words], input=given, capture_output=True, cwd=self.folder, check=False)

    def put(self, name, data):
        with open(f"{self.folder}/{name}", "wb") as it:
            it.write(data)

    def words_of(self, command):
        """The words of a command; the files that it reads are made."""
        for word in command:
            name = word[1:-1]
            if re.fullmatch(r"<\w+>", word):
                yield from self.row[name].decode().split()
            elif re.fullmatch(r"\[\w+\]", word):
                yield name
            elif re.fullmatch(r"\{\w+\}", word):
                self.put(name, self.row[name])
                yield name
            else:
                yield word

    def game(self):
        return self.row.get("game", b"").decode().split()

    def check_moves(self, first, moves):
        """What is wrong with the moves that are printed behind a line, or None."""
        count = int(re.search(rb"[0-9]+", first)[0] if self.row["moves"] == b"told" else self.row["moves"])
        self.put("moves", moves)
        start = "board" if "board" in self.row else self.row["deal"].decode()
        told = self.fc_solve(["replay", *self.game(), start, "moves"])
        end = b"won in 1 move\n" if count == 1 else b"won in %d moves\n" % count
        return None if told.returncode == 0 and told.stderr.endswith(end) else f"{moves} don't win: {told.stderr}"

    def check_ending(self, ran):
        """What is wrong with the status and the texts of a command, or None."""
        row, out, err, wanted_err = self.row, ran.stdout, ran.stderr, self.row.get("stderr", b"")
        if row.get("moves"):
            first, _, moves = out.partition(b"\n")
            out = first + b"\n"
            wrong = self.check_moves(first, moves)
            if wrong:
                return wrong
        if "says" in row:
            wanted_err, err = b"fc_solve: " + row["says"], err.partition(b"\n")[0]
        status, wanted = int(row.get("status") or 0), row.get("stdout", b"")
        is_well = ran.returncode == status and is_wanted(out, wanted) and is_wanted(err, wanted_err)
        return None if is_well else f"told {(ran.returncode, out, err)}, wanted {(status, wanted, wanted_err)}"

    def check_files(self):
        """The first of the files that the program made which hasn't the bytes of the row, or None."""
        for name in self.made:
            held = read(f"{self.folder}/{name}")
            if held != self.row.get(name, held):
                return f"made {name}: {held}"
        return None

    def check_certificate(self):
        """What is wrong with the certificate that was written, or None."""
        path = next((it for it in ("cert", "certs/board:1.cert") if read(f"{self.folder}/{it}")), None)
        claim = self.row.get("claim")
        if not path or not claim:
            return f"wanted {claim}, and there is {path}" if path or claim else None
        told = self.fc_solve(["check", *self.game(), "board", path])
        if told.stdout != b"accepted: " + claim + b"\n":
            return f"another certificate: {told.stdout}, {told.stderr}"
        records = records_of(read(f"{self.folder}/{path}"))
        if self.row.get("classes") and int(self.row["classes"]) != int.from_bytes(records[:4], "big"):
            return f"another number of records: {records[:4].hex()}"
        if self.row.get("key") and records != bytes([0, 0, 0, 1, 0, 0, 0, 0]) + self.row["key"]:
            return f"other records: {records.hex()}"
        return None

    def differs(self):
        """What of the row is not as it should be, or None."""
        for command in self.commands:
            words = [*self.words_of(command)]
            ran = self.fc_solve(words, self.row.get("in", b""))
        wrong = self.check_ending(ran) or self.check_files()
        if not wrong and {"--cert", "--certs"} & set(words) and "claim" in self.row:
            wrong = self.check_certificate()
        return f"{' '.join(words)}: {wrong}" if wrong else None


def tried(line, row):
    with tempfile.TemporaryDirectory() as folder:
        return Trial(line, row, folder).differs()


def lines_of(path):
    """The number of each line that says something, and its cells."""
    with open(path, encoding="utf-8") as it:
        for number, line in enumerate(it, 1):
            if line.strip() and not line.startswith("#"):
                yield number, line.rstrip("\n").split("\t")


def names_of(path):
    """The values that a table names."""
    named = {}
    for _, (head, *cells) in lines_of(path):
        if head == "let":
            named[cells[0]] = text_of(cells[1], named)
    return named


def rows_of(path):
    """The number of each row's line, the lines of commands that it is tried by, and its cells by their columns."""
    named, commands, columns = {}, [], []
    for number, (head, *cells) in lines_of(path):
        if head == "let":
            named[cells[0]] = text_of(cells[1], named)
        elif head == "use":
            named.update(names_of(os.path.join(os.path.dirname(path), cells[0])))
        elif head == "run":
            commands = [cells]
        elif head == "also":
            commands = [*commands, cells]
        elif head == "columns":
            columns = [(name, kind) for name, _, kind in (it.partition(":") for it in cells)]
        elif len(cells) >= len(columns):
            sys.exit(f"{path}:{number}: more cells than columns")
        else:
            row = itertools.zip_longest(columns, [head, *cells], fillvalue="")
            yield number, commands, {name: value_of(cell, kind, named) for (name, kind), cell in row}


def main(paths):
    failed = 0
    for path in paths:
        good = 0
        for number, commands, row in rows_of(path):
            wrong = next(filter(None, (tried(line, row) for line in commands)), None)
            if wrong:
                print(f"{path}:{number}: {wrong}")
            failed += bool(wrong)
            good += not wrong
        print(f"{path}: {good} rows")
    return 1 if failed else 0


if __name__ == "__main__":
    sys.exit(main(sys.argv[1:]))
