"""gallery/make, stopped and gone on with: what it writes is the same as of a call that nobody stopped, and nothing is written unchecked.

usage:  gallery_made.py stopped [WORDS]    killed in the middle of either pass, with these words of gallery/make, such as --jobs 4
        gallery_made.py unchecked          a replay or either checker refuses: there is no row
        gallery_made.py worse              a greater budget tells less: the old row stays
        gallery_made.py boards             rows of boards
        gallery_made.py kept               certificates that are kept, compressed
        gallery_made.py checked            gallery/check says what differs
        gallery_made.py held               one process writes a folder at a time
        gallery_made.py progress           what a terminal shows

The environment names the built program as fc_solve.
"""
import os
import pty
import re
import signal
import subprocess
import sys
import tempfile

sys.dont_write_bytecode = True
TOP = os.path.dirname(os.path.dirname(os.path.abspath(__file__)))
sys.path.insert(0, os.path.join(TOP, "gallery"))
import rows as gallery

MAKE, CHECK = (os.path.join(TOP, "gallery", it) for it in ("make", "check"))
PROGRAM = os.environ["fc_solve"]
BUDGETS = ["--budgets", "5k,40k"]
DEALS = ["1-3", "33", "46", "852", "941", "11982"]
# Where it is ended, and how: in the middle of the first pass, and of the second.
ENDS = [(r"5k 2/", signal.SIGKILL), (r"5k 1/", signal.SIGTERM), (r"40k 1/", signal.SIGKILL), (r"40k 1/", signal.SIGINT)]
if os.environ.get("few"):
    DEALS, ENDS = ["2", "33", "941", "11982"], ENDS[2:3]


def made(out, *words, program=PROGRAM, path=""):
    """Calls gallery/make to its end. Returns its status and what it said."""
    environment = {**os.environ, "fc_solve": program, "PATH": path + os.environ["PATH"]}
    ran = subprocess.run([MAKE, "--out", out, *words], stdin=subprocess.DEVNULL, capture_output=True, text=True, env=environment, check=False)
    return ran.returncode, ran.stdout, ran.stderr


def stopped(out, words, line, how):
    """Calls it, and ends it once such a line is told. Returns the deals that were told by then."""
    told = []
    with subprocess.Popen([MAKE, "--out", out, *words], stdin=subprocess.DEVNULL, stdout=subprocess.PIPE, stderr=subprocess.DEVNULL, text=True) as it:
        for said in it.stdout:
            told += re.findall(r" deal=(\d+) ", said)
            if re.match(line, said):
                it.send_signal(how)
                break
        else:
            sys.exit(f"it ended before {line} was told")
        told += re.findall(r" deal=(\d+) ", it.stdout.read())
    return told


def contents(folder):
    """All files of a folder, but for what a killed call left behind and the next one clears."""
    found = {}
    for at, _, names in os.walk(folder):
        for name in names:
            if gallery.ROOM not in at.split(os.sep):
                with open(os.path.join(at, name), "rb") as it:
                    found[os.path.relpath(os.path.join(at, name), folder)] = it.read()
    return found


def rows_in(folder):
    """The rows of a folder, which must be whole, and none doubled."""
    rows = []
    for name, content in contents(folder).items():
        if name.endswith(".tsv"):
            head, *lines = content.decode().splitlines(keepends=True)
            assert head == gallery.HEAD and all(it.endswith("\n") for it in lines), (name, head)
            rows += map(gallery.row_of, lines)
    assert len({it.deal for it in rows}) == len(rows), rows
    return {it.deal: it for it in rows}


def try_stopped(room, words):
    whole, broken = os.path.join(room, "whole"), os.path.join(room, "broken")
    assert made(whole, *BUDGETS, *DEALS)[0] == 0
    before = {}
    for line, how in ENDS:
        told, rows = stopped(broken, [*words, *BUDGETS, *DEALS], line, how), rows_in(broken)
        assert {*told, *before} <= {*rows}, (told, before, rows)
        assert all(it.sha256 or it.answer == "gave up" for it in rows.values()), rows
        assert all(rows[it].is_no_worse(row) for it, row in before.items()), (before, rows)
        before = rows
    assert len({it.budget for it in before.values()}) == 2, before
    status, _, errors = made(broken, *words, *BUDGETS, *DEALS)
    assert (status, errors, contents(broken)) == (0, "", contents(whole)), (status, errors, rows_in(broken), rows_in(whole))
    assert sorted(os.listdir(broken)) == sorted(os.listdir(whole)) == ["certificates", "deals"], os.listdir(broken)
    print(f"stopped {'once' if len(ENDS) == 1 else 'four times'}, and the same in the end; nothing was lost, doubled or unchecked")
    status, out, _ = made(broken, *words, *BUDGETS, *DEALS)
    assert (status, out.count("\n"), contents(broken)) == (0, 1, contents(whole)), out
    print("then there is nothing to be asked")


def script(path, text):
    with open(path, "w", encoding="ascii") as it:
        it.write("#!/bin/sh\n" + text)
    os.chmod(path, 0o755)
    return path


def try_unchecked(room, _):
    refusing = {word: script(os.path.join(room, word), f'[ "$1" = {word} ] && {{ echo refused; exit 3; }}\nexec "{PROGRAM}" "$@"\n') for word in ("replay", "check", "nothing")}
    other = os.path.join(room, "path")
    os.mkdir(other)
    # What builds the second checker makes one that accepts another claim.
    script(os.path.join(other, "rustc"), "printf '#!/bin/sh\\necho accepted: shortest 1\\n' >\"$4\"; chmod +x \"$4\"\n")
    for what, words, program, path in (
        ("a replay that fails, without certificates", ["--no-certs"], refusing["replay"], ""),
        ("a replay that fails", [], refusing["replay"], ""),
        ("a checker that refuses", [], refusing["check"], ""),
        ("a second checker that tells another claim", [], PROGRAM, other + ":"),
        ("nothing of it", [], refusing["nothing"], ""),
    ):
        out = os.path.join(room, what)
        status, _, errors = made(out, *words, "--budgets", "40k", "941", program=program, path=path)
        print(f"{what}: status {status}, {len(rows_in(out))} rows, {errors.count('941')} faults told")


def try_worse(room, _):
    out, before = os.path.join(room, "out"), {}
    # Within 40k it tells what it does within 2k.
    less = script(os.path.join(room, "less"), f'[ "$1 $5" = "best 40k" ] && exec "{PROGRAM}" best --json --budget 2k "$6"\nexec "{PROGRAM}" "$@"\n')
    for budgets, program in (("5k", PROGRAM), ("5k,40k", less), ("5k,40k", PROGRAM)):
        status, told, _ = made(out, "--no-certs", "--budgets", budgets, "2", program=program)
        row = rows_in(out)["2"]
        print(status, told.count("which tells less"), row.budget, "as before" if row == before else "anew")
        before = row


def try_boards(room, _):
    boards = os.path.join(room, "two.txt")
    with open(boards, "w", encoding="ascii") as it:
        for name in ("two-kings", "locked"):
            with open(os.path.join(TOP, "boards", f"{name}.txt"), encoding="ascii") as one:
                it.write(one.read() + "---\n")
        it.write("no board\n")
    out = os.path.join(room, "out")
    status, _, errors = made(out, "--budgets", "5k", boards)
    print(f"status {status}, {errors.count(boards + ':3: ')} fault of the third", *sorted(os.listdir(out)))
    for name, row in rows_in(out).items():
        kept = gallery.certificate_of(name, gallery.SMALL).replace(os.path.basename(room), "ROOM")
        print(os.path.basename(name), row.claim(), row.moves_list(), os.path.basename(kept).split("%2F")[-1])
    assert len(os.listdir(os.path.join(out, "certificates"))) == 2


def try_kept(room, _):
    out = os.path.join(room, "out")
    status, *_ = made(out, "--certs", "--budgets", "40k", "33", "941")
    for deal in ("33", "941"):
        row, path = rows_in(out)[deal], os.path.join(out, gallery.certificate_of(deal, gallery.ALL))
        whole = os.path.join(room, "cert")
        subprocess.run(["zstd", "-d", "-q", "-f", path, "-o", whole], check=True)
        said = subprocess.run([PROGRAM, "check", deal, whole], capture_output=True, text=True, check=False).stdout
        assert said == f"accepted: {row.claim()}\n" and os.path.getsize(whole) == int(row.bytes), (said, row)
        print(os.path.basename(path), said, end="")
    # A row whose certificate isn't there is asked again, and so is one without a digest.
    os.remove(path)
    made(out, "--no-certs", "--budgets", "40k", "852")
    status, told, _ = made(out, "--certs", "--budgets", "40k", "33", "852", "941")
    print(status, sorted(re.findall(r" deal=(\d+) ", told)), sorted(os.listdir(os.path.join(out, "certificates"))))


def try_checked(room, _):
    out = os.path.join(room, "out")
    made(out, "--no-certs", "--budgets", "5k", "1-4")
    made(out, "--budgets", "40k", "5")

    def check(*words):
        ran = subprocess.run([CHECK, "--in", out, *words], capture_output=True, text=True, check=False)
        print(ran.returncode, ran.stdout.splitlines()[-1], re.findall(r"^deal \d+", ran.stdout, re.M))

    check("1", "5")
    check("1", "6")
    path = os.path.join(out, "deals", "01.tsv")
    with open(path, encoding="ascii") as it:
        text = it.read()
    rows = rows_in(out)
    wrong = rows["2"]._replace(stored=str(int(rows["2"].stored) + 1)), rows["3"]._replace(answer="can't be won"), rows["5"]._replace(moves="1")
    for it in wrong:
        text = text.replace(rows[it.deal].line(), it.line())
    with open(path, "w", encoding="ascii") as it:
        it.write(text)
    check("1", "5")


def try_held(room, _):
    out = os.path.join(room, "out")
    with gallery.Held(out):
        status, told, errors = made(out, "--no-certs", "--budgets", "1", "1")
    print(status, told, re.sub(r"\d+ on .*", "N", errors).replace(room, "ROOM"), end="")
    print(made(out, "--no-certs", "--budgets", "1", "1")[0], sorted(os.listdir(out)))


def try_progress(room, _):
    reader, writer = pty.openpty()
    words = [MAKE, "--out", os.path.join(room, "out"), "--no-certs", "--jobs", "1", "--budgets", "1k,2k,5k", "852", "941", "11982"]
    with subprocess.Popen(words, stdin=subprocess.DEVNULL, stdout=writer) as it:
        os.close(writer)
        shown = b""
        try:
            while part := os.read(reader, 4096):
                shown += part
        except OSError:  # nobody writes any more
            pass
    print(it.returncode, *re.findall(r"within \S+: \d+ done, \d+ left, \d+ shortest, \d+ s left", shown.decode()), sep="\n")
    print(shown.decode().split("\n")[-2].strip())


if __name__ == "__main__":
    what, *more = sys.argv[1:]
    with tempfile.TemporaryDirectory() as folder:
        globals()[f"try_{what}"](folder, more)
