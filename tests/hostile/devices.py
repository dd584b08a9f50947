"""Files and streams that fail, at each place in turn, and ones that are full, closed, folders, growing, slow or endless.

usage:  devices.py sweep    one read or one write fails, each in turn, or a file grows before a read, each in turn
        devices.py table    other bad files
        devices.py closed   standard files that are closed

In a sweep each read and each write moves one byte, so that there are as many places as bytes. The library failing.c spoils the
reads and writes; reading a file takes as many reads as it has bytes, and one more that finds its end.
"""
import os
import pty
import re
import subprocess
import sys
import tempfile
import threading

import runs

TWO_KINGS = b"Foundations: H-J C-K D-K S-J\nQS KH\nQH KS\n"
# The certificate of two kings that docs/CERTIFICATE-FORMAT.md tells byte by byte.
CERTIFICATE = bytes.fromhex("46434331 00 01 00000005 3161 3168 3268 3268 6168 00000001"
                            "00000000 0D0D0B0B FFFFFFFF 022E33 022F32 000000000000")
MOVES = b"1a 1h 2h 2h ah\n"
FIVE_BOARDS = b"".join(
    b"Foundations: %b\nFreecells: %b - - -\n:%b\n:%b\n:\n:\n:\n:\n:\n:\n" % it
    for it in [(b"H-J C-K D-K S-J", b"KH", b" QS", b" QH KS"), (b"H-J C-K D-K S-Q", b"KH", b"", b" QH KS"),
               (b"H-J C-K D-K S-K", b"KH", b"", b" QH"), (b"H-Q C-K D-K S-K", b"KH", b"", b""), (b"H-K C-K D-K S-K", b"-", b"", b"")])
TWO_KINGS_PRINTED = b"Foundations: H-J C-K D-K S-J\nFreecells: - - - -\n: QS KH\n: QH KS\n:\n:\n:\n:\n:\n:\n"
DEAL_1 = (b"JD KD 2S 4C 3S 6D 6S\n2D KC KS 5C TD 8S 9C\n9H 9S 9D TS 4S 8D 2H\nJC 5S QD QH TH QS 6H\n5D AD JS 4H 8H 6C\n7H QC AS AC 2C 3D\n"
          b"7C KH AH 4D JH 8C\n5H 3H 3C 7S 7D TC\n")
SECOND_BOARD = FIVE_BOARDS[: FIVE_BOARDS.index(b"Foundations", 1)]

# How a write fails, and how many ways that are; a share of the sweep has one.
WAYS, WORD = (("EIO",), "one way") if os.environ.get("few") else (("EIO", "ENOSPC", "0"), "three ways")

CHECK = ["check", "-", "/dev/fd/3"]
SOLVE = ["solve", "--cert", "/dev/fd/3"]
REPLAY = ["replay", "-", "/dev/fd/3"]
SEQUENCES = ["replay", "--sequences", "-", "/dev/fd/3"]
EXPANDED = ["replay", "--expanded", "-", "/dev/fd/3"]
BOARD_AT = ["replay", "--board-at", "2", "-", "/dev/fd/3"]
BATCH = ["batch", "24", "25", "--budget", "1"]
BEST = ["best", "--cert", "/dev/fd/3"]
# A locked board, and what is written of it by home rule 1.
LOCKED = (b"Foundations: H-7 C-7 D-7 S-7\nFreecells: KC KD KH KS\n8C 9C\n8D 9D\n8H 9H\n8S 9S\nTC QC JC\nTD QD JD\nTH QH JH\nTS QS JS\n")
LOCKED_CERT = bytes.fromhex("46434332 00 04 01 02 00000001 00000000 07070707 30313233 021C20 021D21 021E22 021F23 03242C28 03252D29 03262E2A 03272F2B")
SOLVE_LOCKED = ["solve", "--rule", "1", "--cert", "/dev/fd/3"]
# Two columns of two cards that lie on each other, and a list of one entry that moves two of them.
PAIRS, ENTRY = b"Foundations: H-J C-K D-K S-J\nKS QH\nKH QS\n", b"13v2"
ENTRY_EXPANDED = ["replay", "--sequences", "--expanded", "-", "/dev/fd/3"]
ENTRY_BOARD_AT = ["replay", "--sequences", "--board-at", "1", "-", "/dev/fd/3"]
# The first deal and the last of tables.
TABLES = [(1, 1), (24, 24), (1000000, 1000000), (24, 26), (1, 33), (968000, 1000000), (1, 1000000)]


def expect(holds, told):
    if not holds:
        FAILED.append(told)


FAILED = []


# Sweeps


class Sweep:
    """Runs of the program by some words, in each of which something fails at another place."""

    def __init__(self, words, given, files):
        self.words, self.given, self.files = words, given, files
        self.ample, plain = self.run({}), PROGRAM.run(words, given, files)
        expect(self.ample._replace(seconds=0) == plain._replace(seconds=0), f"{words} by bytes: {self.ample}, in place of {plain}")

    def run(self, environment):
        return PROGRAM.run(self.words, self.given, self.files, {"LD_PRELOAD": LIBRARY, "ONE_BYTE": "1", **environment})

    def each(self, name, **others):
        """The runs in which the first, the second, .. call of this kind fails, with its number, up to one in which none does."""
        number = 0
        while True:
            number += 1
            ran = self.run({name: str(number), **others})
            if not ran.err.startswith(b"failed\n"):
                same = (ran.status, ran.out, ran.files) == (self.ample.status, self.ample.out, self.ample.files)
                expect(same, f"{self.words}: without a failure {ran}")
                return
            yield number, ran._replace(err=ran.err[len(b"failed\n"):])

    def check(self, fault, number, ran, out, files):
        """The run ended by a fault of a device, with a front of this on standard output, and left such files."""
        told = f"{self.words}: call {number}: {ran}"
        expect(ran.status == 5 and ran.fault() == f"fc_solve: cannot {fault}", told)
        expect(out.startswith(ran.out) and ran.files == files, told)


def sweep_reads(words, given, files, inputs):
    """Each read fails in turn: those of the inputs, in order, which have such names and so many bytes."""
    sweep, faults = Sweep(words, given, files), [name for name, size in inputs for _ in range(size + 1)]
    count = 0
    for number, ran in sweep.each("FAIL_READ"):
        count += 1
        sweep.check(f"read the {faults[min(number, len(faults)) - 1]}", number, ran, b"", files)
    expect(count == len(faults), f"{words}: {count} reads, {len(faults)} expected")
    return count


def sweep_writes(words, given, files, out_size, with_what):
    """Each write fails in turn: those of the certificate, if one is written, and those of the answer, of so many bytes if that is
    known."""
    sweep = Sweep(words, given, files)
    whole, count, cert = sweep.ample, 0, b""
    if words in (SOLVE, BEST, SOLVE_LOCKED):
        cert = whole.files[0]
        expect(words != SOLVE_LOCKED or cert == LOCKED_CERT, f"{words}: {cert}")
    out_size = out_size or len(whole.out)
    expect(whole.status in (0, 1, 2) and len(whole.out) == out_size, f"{words}: {whole}")
    for number, ran in sweep.each("FAIL_WRITE", FAIL_WITH=with_what):
        count += 1
        if number <= len(cert):
            sweep.check("write the certificate", number, ran, b"", [cert[: number - 1]])
        else:
            sweep.check("write the answer", number, ran, whole.out, whole.files)
            expect(len(ran.out) == number - 1 - len(cert), f"{words}: write {number}: {ran}")
            if cert:
                accepted = PROGRAM.run(CHECK, given, ran.files)
                expect((accepted.status, accepted.out) == (0, b"accepted: " + whole.out.split(b"\n")[0] + b"\n"), f"write {number}: {accepted}")
    expect(count == len(cert) + out_size, f"{words}: {count} writes, {len(cert)} and {out_size} expected")
    return count


def cut_tables():
    """The fourth write of a table's head fails, however many deals the table has."""
    for first, last in TABLES:
        words = ["batch", "--table", "--budget", "1", str(first), str(last)]
        ran = PROGRAM.run(words, b"", [], {"LD_PRELOAD": LIBRARY, "ONE_BYTE": "1", "FAIL_WRITE": "4"})
        expect((ran.status, ran.out) == (5, b"dea") and b"fc_solve: cannot write the answer\n" in ran.err, f"{words}: {ran}")
    return len(TABLES)


def sweep_growth(words, given, files, file, reads, grown):
    """Before each read in turn, up to that which finds the end, a file grows by a byte: what is read is the longer file."""
    for number in range(1, reads + 1):
        ran = PROGRAM.run(words, given, files, {"LD_PRELOAD": LIBRARY, "ONE_BYTE": "1", "GROW": file, "GROW_AT": str(number)})
        expect((ran.status, ran.fault(), ran.out) == grown, f"{words}: {file} grows at read {number}: {ran}")
    later = PROGRAM.run(words, given, files, {"LD_PRELOAD": LIBRARY, "ONE_BYTE": "1", "GROW": file, "GROW_AT": str(reads + 1)})
    expect((later.status, later.out) != (grown[0], grown[2]), f"{words}: {file} grows later: {later}")
    return reads


def name_of(words):
    return " ".join(word for word in words if re.fullmatch(r"(--)?[a-z-]*[a-z]", word) and word != "--budget")


def sweep_all():
    board, cert, moves = (("board", len(TWO_KINGS)), ("certificate", len(CERTIFICATE)), ("moves", len(MOVES)))
    for words, files, inputs in [(CHECK, [CERTIFICATE], [board, cert]), (SOLVE, [b"before"], [board]), (REPLAY, [MOVES], [board, moves]),
                                 (SEQUENCES, [MOVES], [board, moves]), (EXPANDED, [MOVES], [board, moves]),
                                 (BOARD_AT, [MOVES], [board, moves]), (["show"], [], [board])]:
        print(f"{name_of(words)}: each of {sweep_reads(words, TWO_KINGS, files, inputs)} reads failed")
    entry = [("board", len(PAIRS)), ("moves", len(ENTRY))]
    for words in (ENTRY_EXPANDED, ENTRY_BOARD_AT):
        print(f"{name_of(words)}: each of {sweep_reads(words, PAIRS, [ENTRY], entry)} reads failed")
    for words, files, out in [(CHECK, [CERTIFICATE], b"accepted: shortest 5\n"), (SOLVE, [b""], b"shortest 5\n1a 1h 2h 2h ah\n"),
                              (REPLAY, [MOVES], FIVE_BOARDS), (SEQUENCES, [MOVES], FIVE_BOARDS), (EXPANDED, [MOVES], MOVES),
                              (BOARD_AT, [MOVES], SECOND_BOARD), (BATCH, [], b"24 gave up 1\n25 gave up 1\n"),
                              (BEST, [b""], b"shortest 5\n13 1h 2h 2h 3h\n"), (["show", "--plain"], [], TWO_KINGS_PRINTED), (["deal", "1"], [], DEAL_1),
                              (["solve", "--boards"], [], b""), (["solve", "--sequences", "--boards"], [], b""),
                              (["replay", "--drawn", "-", "/dev/fd/3"], [MOVES], b""), (["hint"], [], b""), (["review", "-", "/dev/fd/3"], [MOVES], b""),
                              ([*BATCH, "--table"], [], b"")]:
        counts = [sweep_writes(words, TWO_KINGS, files, len(out), with_what) for with_what in WAYS]
        print(f"{name_of(words)}: each {f'of {counts[0]} writes' if out else 'write'} failed, in {WORD}")
    for words, given, file, size in ((ENTRY_EXPANDED, PAIRS, ENTRY, 9), (ENTRY_BOARD_AT, PAIRS, ENTRY, 76), (SOLVE_LOCKED, LOCKED, b"", 13)):
        counts = [sweep_writes(words, given, [file], size, with_what) for with_what in WAYS]
        print(f"{name_of(words)}: each of {counts[0]} writes failed, in {WORD}")
    print(f"batch --table: {cut_tables()} tables were cut in their head")
    sixth = "fc_solve: step 6: not a move"
    for words, files, file, inputs, grown in [
            (CHECK, [CERTIFICATE], "/dev/fd/0", [board], (3, "fc_solve: board: line 4: not a card", b"")),
            (CHECK, [CERTIFICATE], "/dev/fd/3", [board, cert], (3, "fc_solve: certificate refused: Trailing", b"")),
            (REPLAY, [MOVES], "/dev/fd/3", [board, moves], (3, sixth, FIVE_BOARDS)),
            # (a list whose entries may move sequences is read whole before a board is printed)
            (SEQUENCES, [MOVES], "/dev/fd/3", [board, moves], (3, sixth, b"")), (EXPANDED, [MOVES], "/dev/fd/3", [board, moves], (3, sixth, b""))]:
        reads = sweep_growth(words, TWO_KINGS, files, file, sum(size + 1 for _, size in inputs), grown)
        print(f"{name_of(words)}: the {inputs[-1][0]} grew before each of {reads} reads")


# Other bad files


def run(words, **files):
    """What the shell's words end with: the status, the output, and the first line on standard error."""
    shell = subprocess.run(["sh", "-c", words], stdin=subprocess.DEVNULL, capture_output=True, timeout=runs.LONGEST, **files)
    return shell.returncode, shell.stdout.decode(), shell.stderr.decode().split("\n")[0]


TABLE = [
    # a full disk, of each output
    ("solve board >/dev/full", 5, "cannot write the answer"),
    ("solve --cert cert board >/dev/full", 5, "cannot write the answer"),
    ("solve --cert /dev/full board", 5, "cannot write the certificate"),
    ("check board cert >/dev/full", 5, "cannot write the answer"),
    ("solve --boards board >/dev/full", 5, "cannot write the answer"),
    ("replay board moves >/dev/full", 5, "cannot write the answer"),
    ("replay --sequences board moves >/dev/full", 5, "cannot write the answer"),
    ("replay --must-win board moves >/dev/full", 5, "cannot write the answer"),
    ("replay --expanded board moves >/dev/full", 5, "cannot write the answer"),
    ("replay --board-at 2 board moves >/dev/full", 5, "cannot write the answer"),
    ("batch 24 24 --budget 1 >/dev/full", 5, "cannot write the answer"),
    ("batch 24 24 --budget 1 --table >/dev/full", 5, "cannot write the answer"),
    ("deal 1 >/dev/full", 5, "cannot write the answer"),
    ("show 1 >/dev/full", 5, "cannot write the answer"),
    # a folder in place of each file
    ("solve folder", 5, "cannot read the board"),
    ("solve <folder", 5, "cannot read the board"),
    ("solve --cert folder board", 5, "cannot write the certificate"),
    ("check folder cert", 5, "cannot read the board"),
    ("check board folder", 5, "cannot read the certificate"),
    ("replay folder moves", 5, "cannot read the board"),
    ("replay board folder", 5, "cannot read the moves"),
    ("replay --expanded board folder", 5, "cannot read the moves"),
    ("replay --board-at 2 board folder", 5, "cannot read the moves"),
    ("show folder", 5, "cannot read the board"),
    # no such file, and one that may not be opened
    ("check none cert", 5, "cannot read the board"),
    ("check board none", 5, "cannot read the certificate"),
    ("replay board none", 5, "cannot read the moves"),
    ("solve --cert none/cert board", 5, "cannot write the certificate"),
    ("solve board/board", 5, "cannot read the board"),
    # a reader that never ends
    ("solve /dev/zero", 3, "board: too long"),
    ("solve --cert new /dev/zero", 3, "board: too long"),
    ("show </dev/zero", 3, "board: too long"),
    ("check /dev/zero cert", 3, "board: too long"),
    ("replay /dev/zero moves", 3, "board: too long"),
    ("replay board /dev/zero", 3, "moves: too long"),
    ("yes | {} solve", 3, "board: too long"),
    ("yes 1a | {} replay board -", 3, "moves: too long"),
    ("yes 1a | {} replay --sequences board -", 3, "moves: too long"),
    ("yes 1a | {} replay --expanded board -", 3, "moves: too long"),
    ("yes 1a | {} replay --board-at 2 board -", 3, "moves: too long"),
]

# Standard files that are closed: no file that is opened takes their place.
CLOSED = [
    ("solve <&-", 5, "cannot read the board"),
    ("show <&-", 5, "cannot read the board"),
    ("check - cert <&-", 5, "cannot read the board"),
    ("replay board - <&-", 5, "cannot read the moves"),
    ("replay - moves <&-", 5, "cannot read the board"),
    ("solve --cert new <&-", 5, "cannot read the board"),
    ("solve board >&-", 5, "cannot write the answer"),
    ("solve --cert new board >&-", 5, "cannot write the answer"),
    ("solve --cert new 11982 >&-", 5, "cannot write the answer"),
    ("solve --cert new board <&- >&-", 5, "cannot write the answer"),
    ("solve --cert new 11982 <&- >&-", 5, "cannot write the answer"),
    ("check board cert >&-", 5, "cannot write the answer"),
    ("replay board moves >&-", 5, "cannot write the answer"),
    ("replay --expanded board moves >&-", 5, "cannot write the answer"),
    ("replay --board-at 2 board moves >&-", 5, "cannot write the answer"),
    ("batch 24 24 --budget 1 >&-", 5, "cannot write the answer"),
    ("deal 1 >&-", 5, "cannot write the answer"),
    ("show 1 >&-", 5, "cannot write the answer"),
]

# The status is the same where nobody hears what is wrong.
UNHEARD = ["solve none", "solve </dev/zero", "check board moves", "replay board cert", "solve --budget 0 board", "deal 0",
           "solve board >/dev/full", "solve --cert none/cert board", "solve --no-such-word", "batch 2 1"]


def check_table(folder, table):
    for words, status, fault in table:
        text = words.replace("{}", '"$fc_solve"') if "{}" in words else f'"$fc_solve" {words}'
        told = run(text, cwd=folder)
        expect(told == (status, "", f"fc_solve: {fault}"), f"{words}: {told}")
        check_files(folder, words)
    print(len(table), "bad files")


def check_unheard(folder):
    for words in UNHEARD:
        heard, *unheard = (run(f'"$fc_solve" {words} {where}', cwd=folder)[:2] for where in ("", "2>/dev/full", "2>&-"))
        expect(unheard == [heard, heard], f"{words}: {heard} {unheard}")
        check_files(folder, words)
    print(len(UNHEARD), "faults that nobody hears")


# The files that are there before a run of the table.
FILES = {"board": TWO_KINGS, "cert": CERTIFICATE, "moves": MOVES}


def check_files(folder, words):
    """What is read is left as it was; a certificate that was to be written is whole or empty."""
    for name, content in FILES.items():
        left = read_file(os.path.join(folder, name))
        if "--cert " + name in words:
            accepted = run('"$fc_solve" check board cert', cwd=folder)
            expect(accepted[:2] == (0, "accepted: shortest 5\n"), f"{words}: {accepted}")
            write_file(os.path.join(folder, name), content)
        else:
            expect(left == content, f"{words}: {name} is {left!r}")
    made = os.path.join(folder, "new")
    if os.path.exists(made):
        left = read_file(made)
        board = next((word for word in ("board", "11982") if f"new {word}" in words), None)
        if board and "/dev/zero" not in words:
            accepted = run(f'"$fc_solve" check {board} new', cwd=folder)
            expect(accepted[0] == 0, f"{words}: the certificate: {accepted}, {left[-30:]!r}")
        else:
            expect(left == b"", f"{words}: {left!r}")
        os.remove(made)


def read_file(path):
    with open(path, "rb") as file:
        return file.read()


def write_file(path, content):
    with open(path, "wb") as file:
        file.write(content)


def check_typed(folder):
    """A board is typed at a terminal while standard error is closed: what is said to who types it isn't written elsewhere."""
    board = b"found: h-k c-k d-k s-q\nks\n"
    terminal, end = pty.openpty()
    child = subprocess.Popen(["sh", "-c", '"$fc_solve" solve --cert new 2>&-'], stdin=end, stdout=subprocess.PIPE, cwd=folder)
    os.close(end)
    os.write(terminal, board + b"\x04")
    out, _ = child.communicate(timeout=runs.LONGEST)
    os.close(terminal)
    expect((child.returncode, out) == (0, b"shortest 1\n1h\n"), f"typed: {child.returncode} {out!r}")
    cert = os.path.join(folder, "new")
    write_file(os.path.join(folder, "typed"), board)
    accepted = run('"$fc_solve" check typed new', cwd=folder)
    expect(accepted[:2] == (0, "accepted: shortest 1\n"), f"typed: {accepted} {read_file(cert)!r}")
    os.remove(cert)
    print("a board typed with standard error closed")


def check_closed_pipes(folder):
    """Nobody reads what is printed: the command ends, and nothing is said."""
    all_words = ["solve board", "solve --cert cert board", "check board cert", "replay board moves", "batch 24 24 --budget 1", "deal 1", "show 1"]
    for words in all_words:
        reading, writing = os.pipe()
        os.close(reading)
        ran = subprocess.run([runs.PROGRAM, *words.split()], stdin=subprocess.DEVNULL, stdout=writing, stderr=subprocess.PIPE, cwd=folder)
        os.close(writing)
        expect((ran.returncode, ran.stderr) == (5, b""), f"{words} to a closed pipe: {ran}")
        check_files(folder, words)
    print(len(all_words), "closed pipes")


def check_slow_readers(folder):
    """A pipe gives one byte a read."""
    cases = [("solve", TWO_KINGS, b"shortest 5\n"), ("check - cert", TWO_KINGS, b"accepted: shortest 5\n"), ("replay board -", MOVES, FIVE_BOARDS)]
    for words, text, front in cases:
        pipe = subprocess.PIPE
        child = subprocess.Popen([runs.PROGRAM, *words.split()], stdin=pipe, stdout=pipe, stderr=subprocess.DEVNULL, cwd=folder, bufsize=0)
        feeder = threading.Thread(target=feed, args=(child.stdin, text))
        feeder.start()
        out = child.stdout.read()
        feeder.join()
        expect(child.wait() == 0 and out.startswith(front), f"{words} by bytes: {out!r}")
    print(len(cases), "slow readers")


def feed(pipe, text):
    for byte in text:
        pipe.write(bytes([byte]))
    pipe.close()


if __name__ == "__main__":
    runs.high_memory()
    if sys.argv[1:] == ["sweep"]:
        KEPT, LIBRARY = runs.library("failing.c")
        PROGRAM = runs.program()
        sweep_all()
    else:
        with tempfile.TemporaryDirectory(prefix="hostile-") as folder:
            for name, content in FILES.items():
                write_file(os.path.join(folder, name), content)
            os.mkdir(os.path.join(folder, "folder"))
            if sys.argv[1:] == ["closed"]:
                check_table(folder, CLOSED)
                check_typed(folder)
            else:
                check_table(folder, TABLE)
                check_unheard(folder)
                check_closed_pipes(folder)
                check_slow_readers(folder)
    runs.end(FAILED)
