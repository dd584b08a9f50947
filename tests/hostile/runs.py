"""The built program, run many times and quickly: what each run says, and the runs of a sweep side by side.

The program is the one that the environment names as fc_solve. Inputs and outputs are files in memory, which are used again.
"""
import multiprocessing
import os
import signal
import sys
import tempfile
from typing import NamedTuple

HERE = os.path.dirname(os.path.abspath(__file__))
PROGRAM = os.path.abspath(os.environ["fc_solve"])

# A run that takes more seconds than this is one that doesn't end.
LONGEST = 100


class Endless(Exception):
    """A run doesn't end."""


def tell_endless(_number, _frame):
    raise Endless


signal.signal(signal.SIGALRM, tell_endless)


class Ran(NamedTuple):
    status: int  # its exit status, or the signal that ended it, negative
    out: bytes
    err: bytes
    files: list  # the files that were handed in, as they are afterwards
    seconds: float  # of processor time

    def fault(self):
        """The first line on standard error."""
        return self.err.split(b"\n", 1)[0].decode("utf-8", "backslashreplace")


class Program:
    """A way to run the program. What is handed in as files it finds as /dev/fd/3, /dev/fd/4 and so on."""

    def __init__(self):
        self.memory = [os.memfd_create(f"hostile-{number}") for number in range(6)]

    def fill(self, number, content):
        memory = self.memory[number]
        os.ftruncate(memory, 0)
        os.lseek(memory, 0, os.SEEK_SET)
        view = memoryview(content)
        while view:
            view = view[os.write(memory, view):]
        os.lseek(memory, 0, os.SEEK_SET)

    def held(self, number):
        memory = self.memory[number]
        size, parts, at = os.fstat(memory).st_size, [], 0
        while at < size:
            parts.append(os.pread(memory, size - at, at))
            at += len(parts[-1])
        return b"".join(parts)

    def run(self, words, given=b"", files=(), environment=None):
        """What the program says to these words, the bytes on standard input and the files."""
        for number, content in enumerate([given, b"", b"", *files]):
            self.fill(number, content)
        count = 3 + len(files)
        # (from high numbers, so that no file lies where another is to be put)
        actions = [(os.POSIX_SPAWN_DUP2, self.memory[number], number) for number in range(count)]
        child = os.posix_spawn(PROGRAM, ["fc_solve", *words], {**os.environ, **(environment or {})}, file_actions=actions)
        signal.alarm(LONGEST)
        try:
            _, status, used = os.wait4(child, 0)
        except Endless:
            os.kill(child, signal.SIGKILL)
            raise
        finally:
            signal.alarm(0)
        return Ran(os.waitstatus_to_exitcode(status), self.held(1), self.held(2), [self.held(3 + i) for i in range(len(files))],
                   used.ru_utime + used.ru_stime)


OWN = {}


def program():
    """This process's way to run the program."""
    if os.getpid() not in OWN:
        OWN[os.getpid()] = Program()
    return OWN[os.getpid()]


def high_memory():
    """Puts the first numbers of files out of the way, so that those of a Program are above the ones that it hands on."""
    for _ in range(12):
        os.open("/dev/null", os.O_RDONLY)


def library(name):
    """A library to be loaded before the C library, built from the source of this name, in a folder that goes with this process."""
    folder = tempfile.TemporaryDirectory(prefix="hostile-")
    built = os.path.join(folder.name, "built.so")
    if os.spawnlp(os.P_WAIT, "cc", "cc", "-shared", "-fPIC", "-O1", "-o", built, os.path.join(HERE, name), "-ldl"):
        sys.exit(f"{name} can't be built")
    return folder, built


def start_worker():
    signal.signal(signal.SIGINT, signal.SIG_IGN)
    high_memory()


def side_by_side(work, tasks):
    """What `work` says to each task, in order, on as many processors as there are."""
    with multiprocessing.Pool(len(os.sched_getaffinity(0)), start_worker) as pool:
        return pool.map(work, tasks, chunksize=1)


def slices(count, seed, size=250):
    """A count of tries as slices: the numbers of each, and the seed of its random numbers."""
    return [(first, min(first + size, count), f"{seed}/{first}") for first in range(0, count, size)]


def end(failures):
    """Tells the first failures and ends the script."""
    for told in failures[:10]:
        print(told)
    if failures:
        print(f"{len(failures)} failed")
    sys.exit(1 if failures else 0)
