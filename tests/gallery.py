"""The gallery's rows: they are well formed and without holes, their lists win, and rows drawn by a seed are told again.

usage:  gallery.py SEED        Each row is looked at, each list replayed by the built program, which the environment names as
                               fc_solve, each kept certificate checked, and rows drawn by the seed, any word, are asked anew
        gallery.py --lost      The certificate of each deal that can't be won is made, and accepted by both checkers
"""
import concurrent.futures
import hashlib
import importlib.machinery
import importlib.util
import os
import random
import re
import sys
import tempfile

sys.dont_write_bytecode = True
TOP = os.path.dirname(os.path.dirname(os.path.abspath(__file__)))
sys.path.insert(0, os.path.join(TOP, "gallery"))
import asking
import rows as gallery

# How many rows are asked anew: of those without digests, and of those with them, where an answer within 1M takes ten times as long as one
# within 100k; and of how many rows one list is played.
FEW = bool(os.environ.get("few"))
DRAWN = {"500k": 4, "4M": 1} if FEW else {"500k": 40, "4M": 2}
CERTIFIED_DRAWN = {"100k": 2} if FEW else {"100k": 16, "1M": 4}
PLAYED = 10 if FEW else 1
NUMBER = re.compile("[1-9][0-9]*")


def module(name):
    """A script of the gallery, as a module."""
    loader = importlib.machinery.SourceFileLoader(name, os.path.join(TOP, "gallery", name))
    made = importlib.util.module_from_spec(importlib.util.spec_from_loader(name, loader))
    loader.exec_module(made)
    return made


def wrong_files():
    """The deals that have no row, two rows, or one in the wrong place."""
    wrong, told = [], []
    for name in sorted(os.listdir(os.path.join(gallery.HERE, "deals")), key=lambda it: int(it.split(".")[0])):
        with open(os.path.join(gallery.HERE, "deals", name), encoding="ascii") as it:
            deals = [line.split("\t")[0] for line in it][1:]
        wrong += [f"deal {it} stands in {name}" for it in deals if gallery.file_of(it) != f"deals/{name}"]
        told += map(int, deals)
    wrong += [f"deal {it} has no row" for it in sorted({*range(1, max(told) + 1)} - {*told})]
    return wrong + [f"deal {then} stands behind {it}" for it, then in zip(told, told[1:]) if it >= then]


def wrong_row(row):
    """What is wrong with a row by itself, or with the certificate that is kept."""
    has_list, has_digest = row.answer in ("shortest", "won"), row.sha256 != ""
    numbers = [row.moves, row.floor, *[row.stored] * (row.stored != ""), *[row.bytes] * has_digest]
    if row.answer not in gallery.ANSWERS or not all(map(NUMBER.fullmatch, numbers if has_list else numbers[2:])):
        return f"it isn't a row: {row}"
    if [row.moves != "", row.floor != "", len(row.list)] != [has_list, has_list, 2 * int(row.moves) if has_list else 0]:
        return f"moves, floor and list don't agree: {row}"
    if has_list and (int(row.floor) > int(row.moves) or (row.answer == "shortest") != (row.floor == row.moves)):
        return f"the floor {row.floor} beside {row.moves} moves, {row.answer}"
    if row.budget != gallery.budget_of(row.budget) or (row.stored == "" and not has_digest):
        return "another budget, or it isn't told how many classes were stored"
    if has_digest and (not re.fullmatch("[0-9a-f]{64}", row.sha256) or row.answer == "gave up") or (row.bytes != "") != has_digest:
        return "it has no size and digest, or one of them alone"
    is_kept = os.path.exists(os.path.join(gallery.HERE, gallery.certificate_of(row.deal, gallery.SMALL)))
    if is_kept != (has_digest and int(row.bytes) <= gallery.GREATEST_KEPT):
        return "its certificate is kept and isn't to be, or the other way round"
    return None


def wrong_list(row):
    return asking.wrong_list(row, [row.deal])


def wrong_kept(row):
    """What is wrong with a kept certificate."""
    path = os.path.join(gallery.HERE, gallery.certificate_of(row.deal, gallery.SMALL))
    with open(path, "rb") as it:
        content = it.read()
    if (str(len(content)), hashlib.sha256(content).hexdigest()) != (row.bytes, row.sha256):
        return "its certificate isn't the one that its row tells of"
    return asking.wrong_certificate(row, path, [row.deal], [], None)


def wrong_loss(row):
    """What is wrong with the certificate of a deal that can't be won, made anew, which both checkers read."""
    with tempfile.TemporaryDirectory() as room:
        told = asking.told_of(row.deal, row.budget, gallery.SMALL, room, asking.second_checker(room)).row
    return None if told.answer == row.answer and row.sha256 else f"{told.answer}; its row: {row}"


def drawn(rows, seed):
    """Some rows that the seed picks."""
    numbers = random.Random(seed)
    sets = [([it for it in rows if not it.sha256 and it.budget == budget], count) for budget, count in DRAWN.items()]
    sets += [([it for it in rows if it.sha256 and it.budget == budget and it.answer != "can't be won"], count) for budget, count in CERTIFIED_DRAWN.items()]
    return [it for some, count in sets for it in sorted(numbers.sample(some, min(count, len(some))))]


def found(test, rows, pool):
    """The rows of which the test says something, with what it says."""
    return [f"deal {row.deal}: {it}" for row, it in zip(rows, pool.map(test, rows, chunksize=16)) if it]


def report(what, wrong, more=""):
    """Says whether all is well."""
    print(f"{what}: {'all' if not wrong else 'NOT ALL' + more}", flush=True)
    for line in wrong[:20]:
        print(line)
    return not wrong


def main(seed):
    rows = [*gallery.Folder().rows.values()]
    lost = [it for it in rows if it.answer == "can't be won"]
    with concurrent.futures.ProcessPoolExecutor(os.cpu_count()) as pool:
        if seed == "--lost":
            return 0 if report("the certificate of each lost deal is made and accepted by both checkers", found(wrong_loss, lost, pool)) else 1
        kept = [int(it.removesuffix(".cert")) for it in os.listdir(os.path.join(gallery.HERE, "certificates")) if it.endswith(".cert")]
        has_kept = [it for it in rows if it.deal.isdigit() and int(it.deal) in kept]
        told = [*module("check").differences(drawn(rows, seed), os.cpu_count())]
        is_well = [
            report("each deal up to the last has a row, and one", wrong_files()),
            report("each row is one, with its list and its certificate", [f"deal {it.deal}: {wrong_row(it)}" for it in rows if wrong_row(it)]),
            report("each list wins in as many moves as its row says", found(wrong_list, rows[::PLAYED], pool)),
            report("each kept certificate is accepted", found(wrong_kept, has_kept[::PLAYED], pool) + ["one has no row"] * (len(kept) > len(has_kept))),
            report("rows that the commit draws are told again", [f"deal {row.deal}: {it}" for row, it in told if it], f", seed {seed}"),
            report("the pages tell the rows' figures", module("figures").differences()),
        ]
    return 0 if all(is_well) else 1


if __name__ == "__main__":
    sys.exit(main(sys.argv[1]))
