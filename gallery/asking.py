"""What the program tells of a deal or a board, as a row of the gallery, and what both checkers say of its certificate."""
import contextlib
import fcntl
import hashlib
import json
import os
import re
import subprocess
import tempfile
import threading
import time
from typing import NamedTuple

from rows import ALL, GREATEST_KEPT, HERE, NONE, SMALL, Row

TOP = os.path.dirname(HERE)
PROGRAM = os.path.abspath(os.environ.get("fc_solve") or os.path.join(TOP, "crates", "fc_solve", "out", "fc_solve"))
CHECKER = os.path.join(TOP, "checker", "checker.rs")
RULE = re.compile(r"\s*-{3,}\s*")


class Fault(Exception):
    """Why there is no row: the program failed, or what it told wasn't accepted."""


class Answer(NamedTuple):
    """A row, and the file of its certificate where that is to be kept."""

    row: Row
    certificate: str | None


# The processes that run, each with what ends it, or nothing once all are to end.
running: dict | None = {}
guard = threading.RLock()


@contextlib.contextmanager
def started(words, environment: dict, end, folder: str | None = None):
    """A program that runs. It isn't in the terminal's group: Ctrl-C is for this process alone, which stops all."""
    with guard:
        if running is None:
            raise Fault("it was stopped")
        pipes = {it: subprocess.PIPE for it in ("stdin", "stdout", "stderr") if it != "stderr" or end is not end_parallel}
        it = subprocess.Popen(words, env=environment, text=True, start_new_session=True, cwd=folder, **pipes)
        running[it] = end
    try:
        with it:
            yield it
    finally:
        with guard:
            if running is not None:
                running.pop(it, None)


def run(*words: str, text: str = "") -> subprocess.CompletedProcess:
    """Runs a program to its end, where no file has the name of a deal."""
    with started(words, os.environ, subprocess.Popen.kill, "/") as it:
        out, errors = it.communicate(text)
    return subprocess.CompletedProcess(words, it.returncode, out, errors)


def end_parallel(it: subprocess.Popen):
    """The first signal lets GNU parallel begin nothing more, the second one ends what it runs."""
    it.terminate()
    time.sleep(0.5)
    it.terminate()


def stop():
    """Ends all that runs, and lets nothing more begin."""
    global running
    with guard:
        ended, running = running or {}, None
    for it, end in ended.items():
        end(it)


def is_stopped() -> bool:
    return running is None


def boards_in(path: str) -> list[str]:
    """The texts of a file's boards, which lines of three dashes or more part, as `batch --boards` counts them."""
    with open(path, encoding="utf-8", errors="surrogateescape") as it:
        lines = it.read().split("\n")
    boards = [[]]
    for line in lines:
        if RULE.fullmatch(line):
            boards.append([])
        else:
            boards[-1].append(line + "\n")
    return [text for text in map("".join, boards) if text.strip()]


def second_checker(room: str) -> str:
    """The second checker, built once in a folder."""
    with open(CHECKER, "rb") as it:
        built = os.path.join(os.path.abspath(room), f"checker-{hashlib.sha256(it.read()).hexdigest()[:16]}")
    with open(built + ".lock", "w", encoding="ascii") as it:
        fcntl.flock(it, fcntl.LOCK_EX)
        if not os.path.exists(built):
            made = run("rustc", "-O", CHECKER, "-o", built + ".new")
            if made.returncode:
                raise Fault(f"the second checker isn't built: {made.stderr}")
            os.replace(built + ".new", built)
    return built


def board_words(name: str, folder: str) -> tuple[list[str], list[str]]:
    """How the program is told of a board, and how the second checker is, which reads plain texts alone."""
    if name.isdigit():
        return [name], ["--deal", name]
    path, _, place = name.rpartition(":")
    board, plain = os.path.join(folder, "board.txt"), os.path.join(folder, "plain.txt")
    with open(board, "w", encoding="utf-8", errors="surrogateescape") as it:
        it.write(boards_in(path)[int(place) - 1])
    with open(plain, "w", encoding="utf-8") as it:
        it.write(run(PROGRAM, "show", "--plain", board).stdout)
    return [board], [plain]


def row_told(name: str, budget: str, board: list[str], certificate: str | None) -> Row:
    """What `best` tells, with no check yet."""
    ran = run(PROGRAM, "best", "--quiet", "--json", "--budget", budget, *(["--cert", certificate] if certificate else []), *board)
    if ran.returncode not in (0, 1, 2):
        raise Fault(ran.stderr.strip() or f"the program ended with {ran.returncode}")
    told = json.loads(ran.stdout)
    numbers = [str(told.get(it, "")) for it in ("moves", "floor")]
    return Row(name, told["answer"], *numbers, budget, str(told["stored"]), "", "", told.get("list", "").replace(" ", ""))


def wrong_list(row: Row, board: list[str]) -> str | None:
    """What is wrong with a row's list, which the program replays."""
    if not row.list:
        return f"{row.answer}, and no list" if row.moves else None
    said = run(PROGRAM, "replay", "--expanded", "--must-win", *board, "-", text=row.moves_list() + "\n").stderr
    return None if said == f"fc_solve: won in {row.moves} moves\n" and len(row.list) == 2 * int(row.moves) else f"its list: {said!r}"


def wrong_certificate(row: Row, certificate: str, board: list[str], plain: list[str], second: str | None) -> str | None:
    """What is wrong with a row's certificate: both checkers read it, side by side where there are two."""
    words = [(PROGRAM, "check", *board, certificate)] + ([(second, *plain, certificate)] if second else [])
    said = [""] * len(words)

    def check(at):
        try:
            said[at] = run(*words[at]).stdout
        except Fault as fault:
            said[at] = str(fault)

    threads = [threading.Thread(target=check, args=(at,)) for at in range(len(words))]
    for it in threads:
        it.start()
    for it in threads:
        it.join()
    return None if set(said) == {f"accepted: {row.claim()}\n"} else f"{row.claim()!r}, and the checkers say {said}"


def certified(row: Row, certificate: str, words: tuple, second: str, keep: str) -> Answer:
    """A row with the size and digest of its certificate, which both checkers accepted, and that as it is to be kept."""
    wrong = wrong_certificate(row, certificate, *words, second)
    if wrong:
        raise Fault(wrong)
    with open(certificate, "rb") as it:
        digest = hashlib.file_digest(it, "sha256").hexdigest()
    size = os.path.getsize(certificate)
    row = row._replace(bytes=str(size), sha256=digest)
    if keep == ALL:
        packed = run("zstd", "-3", "-q", "--rm", certificate, "-o", certificate + ".zst")
        if packed.returncode:
            raise Fault(f"zstd: {packed.stderr}")
        return Answer(row, certificate + ".zst")
    return Answer(row, certificate if size <= GREATEST_KEPT else None)


def told_of(name: str, budget: str, keep: str, room: str, second: str | None) -> Answer:
    """The row of a deal or a board, after all checks; what is made of it stands in a new folder of the room, if it is to be kept."""
    if is_stopped():
        raise Fault("it was stopped")
    folder = os.path.abspath(tempfile.mkdtemp(dir=room))
    certificate = os.path.join(folder, "cert") if keep != NONE else None
    answer = None
    try:
        words = board_words(name, folder)
        row = row_told(name, budget, words[0], certificate)
        wrong = wrong_list(row, words[0])
        if wrong:
            raise Fault(wrong)
        is_certified = certificate and row.answer != "gave up"
        answer = certified(row, certificate, words, second, keep) if is_certified else Answer(row, None)
        return answer
    except (OSError, ValueError, KeyError, IndexError) as fault:
        raise Fault(f"{type(fault).__name__}: {fault}") from fault
    finally:
        kept = answer and answer.certificate
        for it in os.listdir(folder):
            if os.path.join(folder, it) != kept:
                os.remove(os.path.join(folder, it))
        if not kept:
            os.rmdir(folder)
