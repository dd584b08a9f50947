"""Certificates, damaged: each is refused with a named fault, or the claim that is accepted is the old one.

usage:  certificates.py fronts              each front of four certificates is Short, and the whole is accepted
        certificates.py changes             each front, and each byte changed to each other value, of two certificates
        certificates.py random COUNT SEED   so many made from real ones: 1 to 4 bytes changed, records swapped, doubled or left
                                            out, ends cut off or added

Of a certificate that claims a list and a floor, another floor may be accepted, where it is true too.
"""
import os
import random
import re
import sys
from typing import NamedTuple

import runs

TOP = os.path.join(runs.HERE, "..", "..")
FAULT = re.compile(r"fc_solve: certificate refused: (Short|BadMagic|BadCells|BadRule|BadBound|BadKind|BadFloor|Trailing|OtherGame|NotHome|StartOpen"
                   r"|(BadMove|BadRecord|Order|Label|NotAllowed|WonListed|Open)\(\d+\))")
CLAIM = re.compile(r"accepted: (?:shortest (\d+)|won (\d+), at least (\d+)|(can't be won))\n")


class Source(NamedTuple):
    """A certificate that the program wrote, or that docs/CERTIFICATE-FORMAT.md tells."""

    board: bytes  # what stands on standard input
    words: list  # of the game
    bytes: bytes
    claim: str  # what check prints of it
    fewest: int  # the moves of a shortest list, None where none wins
    places: list  # where the records begin, and where the last one ends


# Real certificates


def read_file(*path):
    with open(os.path.join(TOP, *path), "rb") as file:
        return file.read()


def places_of(cert):
    """Where each record of a certificate begins, and where the last one ends."""
    form = cert[3] - ord("0")
    at = {1: 5, 2: 7, 3: 8}[form]
    kind = cert[at]
    at += 5 if kind == 3 else 1
    if kind != 2:
        at += 4 + 2 * int.from_bytes(cert[at:at + 4], "big")
    at, places = at + 4, []
    while at < len(cert):
        places.append(at)
        at += 12
        for _ in range(8):
            at += 1 + cert[at]
    return places + [at]


def made(program, board, words, options):
    """The certificate that the program writes of a board."""
    solved = program.run(["solve", *words, *options, "--cert", "/dev/fd/3"], board, [b""])
    if solved.status not in (0, 1):
        sys.exit(f"{board!r} {words} {options}: {solved}")
    return solved.files[0]


def source_of(program, board, words, cert, fewest):
    """The certificate with what check says of it, which is right."""
    claim = program.run(["check", *words, "-", "/dev/fd/3"], board, [cert]).out.decode()
    if not is_true(claim, fewest):
        sys.exit(f"{board!r} {words}: {claim!r}, in place of {fewest}")
    return Source(board, words, cert, claim, fewest, places_of(cert))


def is_true(claim, fewest):
    """Whether what check accepts is true of a board."""
    told = CLAIM.fullmatch(claim)
    if not told:
        return False
    shortest, count, floor, lost = told.groups()
    if shortest:
        return int(shortest) == fewest
    return lost is not None if fewest is None else count is not None and int(floor) <= fewest <= int(count)


# Boards that were worked out by hand, the words of a game, and how many moves a shortest list has.
SMALL = [("two-kings.txt", [], 5), ("one-king.txt", [], 1), ("queen-under-king.txt", [], 3), ("locked.txt", [], None),
         ("three-spades.txt", ["--cells", "0"], 4), ("three-spades.txt", ["--cells", "0", "--kings"], None),
         ("three-spades.txt", ["--cells", "1", "--kings"], 4)]
THIRTY = (b"Foundations: H-6 C-7 D-7 S-8\nFreecells: 9C KC KD KH\n9H 9S\n7H 8H\n8D 9D\n8C JC\nQH TH JH\nQS TS JS\nQD TD JD\n"
          b"QC TC KS\n", [], 30)
THREE_KINGS = (b"Foundations: H-Q C-K D-Q S-J\nQS KS\nKD KH\n", [], 5)
# Nothing goes home or on a column: a class says how many of the last cards of each column stand in cells, which makes 495 classes.
CLASSES_495 = (b"AC QC 3C 5C 4C 2C KC\nTC 8C 7C 6C 9C JC\nAD QD 3D 5D 4D 2D KD\nTD 8D 7D 6D 9D JD\nAH QH 3H 5H 4H 2H KH\nTH 8H 7H 6H 9H JH\n"
               b"AS QS 3S 5S 4S 2S KS\nTS 8S 7S 6S 9S JS\n", [], None)
# Deals that other programs answered too: 941 is won in 68 moves and no fewer, 781948 is lost.
DEALS = [(941, 68), (781948, None)]


def small_sources(program):
    boards = [(read_file("boards", name), words, fewest) for name, words, fewest in SMALL] + [THIRTY, THREE_KINGS, CLASSES_495]
    found = []
    for board, words, fewest in boards:
        for rule in ("0", "1", "2"):
            for options in ([], ["--bound", "clearing"], ["--within", "2"]):
                cert = made(program, board, words, ["--rule", rule, *options])
                found.append(source_of(program, board, words, cert, fewest))
    for name in ("two-kings", "locked"):
        board = read_file("boards", name + ".txt")
        found.append(source_of(program, board, [], read_file("boards", name + ".cert"), 5 if name == "two-kings" else None))
    return found


def deal_sources(program):
    found = []
    for number, fewest in DEALS:
        board = program.run(["deal", str(number)]).out
        for options in ([], ["--bound", "clearing"], ["--within", "2"]):
            found.append(source_of(program, board, [], made(program, board, [], options), fewest))
    return found


# Damage


def changed(numbers, cert, places):
    """The certificate with 1 to 4 bytes changed, the first ones more often, and those of a few records."""
    cert = bytearray(cert)
    for _ in range(numbers.choice([1, 1, 2, 3, 4])):
        inside = numbers.choice(places) + numbers.randrange(40)
        at = numbers.choice([numbers.randrange(len(cert)), numbers.randrange(min(len(cert), 60)), min(inside, len(cert) - 1)])
        cert[at] = numbers.choice([numbers.randrange(256), (cert[at] + 1) % 256, (cert[at] - 1) % 256, cert[numbers.randrange(len(cert))]])
    return bytes(cert)


def with_records(numbers, cert, places):
    """The certificate with records swapped, doubled or left out; their count says so, or doesn't."""
    spans = list(zip(places, places[1:]))
    some = numbers.sample(range(len(spans)), min(2, len(spans)))
    way = numbers.choice(["swap", "double", "leave out", "cut"]) if len(some) == 2 else numbers.choice(["double", "leave out"])
    count = len(spans)
    if way == "swap":
        (a, b), (c, d) = sorted(spans[number] for number in (some if numbers.random() < 0.5 else [some[0], (some[0] + 1) % len(spans)]))
        cert = cert[:a] + cert[c:d] + cert[b:c] + cert[a:b] + cert[d:]
    elif way == "double":
        a, b = spans[some[0]]
        where = numbers.choice([a, b, places[0], places[-1]])
        cert, count = cert[:where] + cert[a:b] + cert[where:], count + 1
    elif way == "leave out":
        a, b = spans[some[0]]
        cert, count = cert[:a] + cert[b:], count - 1
    else:
        cert, count = cert[: spans[max(some)][0]], max(some)
    if numbers.random() < 0.8:
        cert = cert[: places[0] - 4] + count.to_bytes(4, "big") + cert[places[0]:]
    return cert


def other_than(numbers, source):
    """A damaged certificate that isn't the old one again."""
    while True:
        cert = damaged(numbers, source)
        if cert != source.bytes:
            return cert


def damaged(numbers, source):
    cert = source.bytes
    way = numbers.random()
    if len(source.places) > 1 and way < 0.5:
        cert = with_records(numbers, cert, source.places)
    elif way < 0.55:
        cert = cert[: numbers.randrange(len(cert))] + (b"" if way < 0.52 else bytes(numbers.randrange(256) for _ in range(numbers.randint(1, 60))))
    if way >= 0.55 or numbers.random() < 0.1:
        cert = changed(numbers, cert or b"\0", source.places)
    return cert


# Trying


def told_wrong(program, source, cert):
    """Whether the certificate was accepted, and what is wrong with what check said, or None."""
    ran = program.run(["check", *source.words, "-", "/dev/fd/3"], source.board, [cert])
    claim = ran.out.decode("latin-1")
    is_refused = ran.status == 3 and not claim and FAULT.fullmatch(ran.fault()) is not None and ran.err.count(b"\n") == 2
    is_accepted = ran.status == 0 and not ran.err and (claim == source.claim or is_other_floor(source, claim))
    if ran.seconds < 1 and (is_refused or is_accepted):
        return is_accepted, None
    told = f"{ran.status} {claim!r} {ran.err!r} {ran.seconds:.2f} s"
    return is_accepted, f"{source.claim!r} {source.words} {cert[:200].hex()} ({len(cert)} bytes): {told}"


def is_other_floor(source, claim):
    """Whether a list and a floor were claimed, and the claim is a true one of a list and a floor."""
    return source.claim.startswith("accepted: won") and claim.startswith("accepted: won") and is_true(claim, source.fewest)


def try_all(task):
    source, certs = task
    program = runs.program()
    told = [told_wrong(program, source, cert) for cert in certs]
    return len(certs), sum(it[0] for it in told), [it[1] for it in told if it[1]]


def try_random(task):
    first, last, seed = task
    numbers, program, told = random.Random(seed), runs.program(), []
    for _ in range(first, last):
        source = numbers.choice(SOURCES[1] if numbers.random() < 0.1 else SOURCES[0])
        told.append(told_wrong(program, source, other_than(numbers, source)))
    return last - first, sum(it[0] for it in told), [it[1] for it in told if it[1]]


SOURCES = []


def tell(name, results):
    count, accepted = (sum(it[number] for it in results) for number in (0, 1))
    failed = [told for it in results for told in it[2]]
    print(f"{name}: {count} certificates, {'not all ' if failed else ''}refused, or accepted with a claim that is true")
    if os.environ.get("COUNTS"):
        print(accepted, "accepted", file=sys.stderr)
    return failed


def changes_of(cert):
    """The fronts of a certificate, and for each byte the certificate with each other value of it."""
    yield [cert[:size] for size in range(len(cert))]
    for place in range(len(cert)):
        yield [cert[:place] + bytes([value]) + cert[place + 1:] for value in range(256) if value != cert[place]]


def fronts(program):
    """How many fronts of certificates are Short, and what else is said of one."""
    failed, first, locked = [], read_file("boards", "two-kings.cert"), read_file("boards", "locked.cert")
    rest = first[10:20] + bytes(4)  # the moves, and no record
    for name, cert, claim in (("two-kings", first, "shortest 5"), ("locked", locked, "can't be won"),
                              ("two-kings", b"FCC3\0\4\0\1\1\0\0\0\5" + rest, "shortest 5"),
                              ("two-kings", b"FCC3\0\4\0\0\3\0\0\0\4\0\0\0\5" + rest, "won 5, at least 4")):
        board, count = read_file("boards", name + ".txt"), 0
        for size in range(len(cert) + 1):
            ran = program.run(["check", "-", "/dev/fd/3"], board, [cert[:size]])
            is_short = (ran.status, ran.out, ran.fault()) == (3, b"", "fc_solve: certificate refused: Short")
            is_whole = (ran.status, ran.out.decode(), ran.err) == (0, f"accepted: {claim}\n", b"")
            if not (is_short if size < len(cert) else is_whole):
                failed.append(f"{name}, {size} bytes: {ran}")
            count += is_short
        print(f"{name}, {claim}: {count} fronts are short")
    return failed


def main():
    program = runs.program()
    if sys.argv[1] == "fronts":
        failed = fronts(program)
    elif sys.argv[1] == "changes":
        failed = []
        for name, fewest in (("two-kings", 5), ("locked", None)):
            cert = read_file("boards", name + ".cert")
            source = source_of(program, read_file("boards", name + ".txt"), [], cert, fewest)
            failed += tell(name, runs.side_by_side(try_all, [(source, certs) for certs in changes_of(cert)]))
    else:
        SOURCES.extend([small_sources(program), deal_sources(program)])
        count, seed = int(sys.argv[2]), sys.argv[3]
        failed = tell(f"seed {seed}", runs.side_by_side(try_random, runs.slices(count, seed)))
    runs.end(failed)


if __name__ == "__main__":
    runs.high_memory()
    main()
