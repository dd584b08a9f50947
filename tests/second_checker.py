"""The second checker, checker/checker.rs, beside `check`: both say the same of certificates and of damaged copies of them.

usage:  second_checker.py COUNT SEED   the certificates that are told below, and so many damaged copies by this seed

The same is: the claim, or the fault, and the status. The environment names the built program as fc_solve. Needs rustc. COUNTS in the environment tells how many copies got which fault.
"""
import collections
import itertools
import os
import random
import re
import subprocess
import sys
import tempfile
from typing import NamedTuple

TOP = os.path.dirname(os.path.dirname(os.path.abspath(__file__)))
sys.path.insert(0, os.path.join(TOP, "tests", "hostile"))
import certificates

PROGRAM = os.path.abspath(os.environ["fc_solve"])
LOST = [11982, 146692, 186216, 455889, 495505, 512118, 517776, 781948]
WON = [941, 493, 360]
GAMES = [[], ["--kings"], ["--game", "bakers"], ["--game", "bakers", "--kings"]]
BOUNDS = [[], ["--bound", "clearing"]]
WITHIN = [[], ["--within", "2"]]
# Boards whose certificates have more records.
MORE = [certificates.THIRTY, certificates.THREE_KINGS, certificates.CLASSES_495]
# Deals have greater certificates: most copies are of worked boards, and none of a certificate that is greater than this.
GREATEST = 150000


class Source(NamedTuple):
    """A certificate that the program wrote, or that stands in boards/."""

    board: str  # a file, or the number of a deal
    words: list  # of the game
    bytes: bytes
    places: list  # where the records begin, and where the last one ends


def source_of(board, words, cert):
    return Source(board, words, cert, certificates.places_of(cert))


def solved(board, words, options):
    """The certificate that the program writes of a board; none where it reads no such board."""
    ran = subprocess.run([PROGRAM, "solve", "--cert", CERT, *words, *options, board], capture_output=True, check=False)
    if ran.returncode > 1:
        return []
    with open(CERT, "rb") as file:
        return [source_of(board, words, file.read())]


def worked():
    """Certificates of the boards of boards/, in each game with some numbers of cells, by each rule and bound; and of MORE."""
    boards = sorted(f"boards/{it}" for it in os.listdir("boards") if it.endswith(".txt"))
    rules = [["--rule", rule] for rule in "012"]
    for board, game, cells, rule, bound, within in itertools.product(boards, GAMES, "410", rules, BOUNDS, WITHIN):
        yield from solved(board, [*game, "--cells", cells], [*rule, *bound, *within])
    for number, (text, words, _fewest) in enumerate(MORE):
        board = os.path.join(os.path.dirname(CERT), f"board-{number}")
        with open(board, "wb") as file:
            file.write(text)
        for rule, bound in itertools.product(rules, BOUNDS):
            yield from solved(board, words, [*rule, *bound])
    for name in ("locked", "two-kings"):
        with open(f"boards/{name}.cert", "rb") as file:
            yield source_of(f"boards/{name}.txt", [], file.read())


def deals():
    """Certificates of deals: lost ones, shortest lists by both bounds, and lists with a floor."""
    for number in LOST:
        yield from solved(str(number), [], [])
    for number, bound in itertools.product(WON, BOUNDS):
        yield from solved(str(number), [], bound)
    for number in range(1, 11):
        yield from solved(str(number), [], ["--within", "2", "--bound", "clearing"])


def said(words):
    """The status of a checker and its claim, or its fault: what else `check` says of the board or the fault isn't compared."""
    ran = subprocess.run(words, capture_output=True, text=True, check=False)
    fault = re.search(r": (certificate refused: .*)", ran.stderr)
    return ran.returncode, ran.stdout + (fault[1] if fault else "")


def compare(source, cert):
    """What both checkers say of these bytes as a certificate of the board; and whether it is the same."""
    with open(CERT, "wb") as file:
        file.write(cert)
    words = [source.board, *source.words, CERT]
    first, second = said([PROGRAM, "check", *words]), said([SECOND, *words])
    if first != second or first[0] not in (0, 3):
        print(f"{source.board} {source.words} {cert[:100].hex()} ({len(cert)} bytes): check {first}, the second checker {second}")
    return first, first == second and first[0] in (0, 3)


def damaged_within_the_form(numbers, source):
    """A copy that still has the form, or nearly: the list has a move less, a won class is listed, or a cost or the floor is
    another one."""
    cert, first, last = source.bytes, source.places[0], source.places[-1]
    kind_at = {1: 5, 2: 7, 3: 8}[cert[3] - ord("0")]
    number_at = {1: kind_at + 1, 2: None, 3: kind_at + 5}[cert[kind_at]]
    way = numbers.choice(["move", "won", "cost", "cost", "floor"])
    if way == "move" and number_at is not None and first - 4 > number_at + 4:
        cert = cert[:number_at] + plus(cert[number_at:number_at + 4], -1) + cert[number_at + 4:first - 6] + cert[first - 4:]
    elif way == "floor" and cert[kind_at] == 3:
        cert = cert[:kind_at + 1] + plus(cert[kind_at + 1:kind_at + 5], numbers.choice([-1, 1])) + cert[kind_at + 5:]
    elif way == "cost" and len(source.places) > 1:
        at = numbers.choice(source.places[:-1])
        cert = cert[:at] + plus(cert[at:at + 4], numbers.choice([-2, -1, 1, 2, 9])) + cert[at + 4:]
    else:
        won = bytes(4) + bytes([13] * 4 + [255] * 4 + [0] * 8)
        cert = cert[:first - 4] + plus(cert[first - 4:first], 1) + cert[first:last] + won
    return cert


def plus(number, more):
    return ((int.from_bytes(number, "big") + more) % (1 << 32)).to_bytes(4, "big")


def try_damaged(small, great, count, seed):
    """Whether both say the same of so many damaged copies."""
    numbers, found, same = random.Random(seed), collections.Counter(), 0
    with_records = [it for it in small if len(it.places) > 1]
    for _ in range(count):
        source = numbers.choice(numbers.choices([with_records, small, great], [6, 3, 1])[0])
        cert = (damaged_within_the_form if numbers.random() < 0.3 else certificates.other_than)(numbers, source)
        (status, text), is_same = compare(source, cert)
        found["accepted" if status == 0 else re.sub(r".*: |\(.*", "", text)] += 1
        same += is_same
    print(f"seed {seed}: {same} of {count} damaged copies get the same claim or the same fault")
    if os.environ.get("COUNTS"):
        print(found.most_common(), file=sys.stderr)
    return same == count


def main():
    small, great = list(worked()), list(deals())
    same = {name: sum(compare(it, it.bytes)[1] for it in sources) for name, sources in (("worked boards", small), ("deals", great))}
    print(f"worked boards: {same['worked boards']} of {len(small)} certificates are told alike")
    print(f"deals: {same['deals']} of {len(great)} certificates are told alike")
    short = [it for it in great if len(it.bytes) <= GREATEST]
    is_right = try_damaged(small, short, int(sys.argv[1]), sys.argv[2])
    sys.exit(0 if is_right and sum(same.values()) == len(small) + len(great) else 1)


if __name__ == "__main__":
    os.chdir(TOP)
    with tempfile.TemporaryDirectory() as room:
        CERT, SECOND = os.path.join(room, "certificate"), os.path.join(room, "checker")
        subprocess.run(["rustc", "-O", "checker/checker.rs", "-o", SECOND], check=True)
        main()
