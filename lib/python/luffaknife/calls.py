"""The calls of luffaknife.h as ctypes has them: structs, and the library with what each call answers."""
import ctypes
import os


class Game(ctypes.Structure):
    _fields_ = [("code", ctypes.c_uint8), ("cells", ctypes.c_uint8)]


class Method(ctypes.Structure):
    _fields_ = [(name, ctypes.c_uint8) for name in ("rule", "bound", "tenths", "expansion")] + [("budget", ctypes.c_uint32)]


class Figures(ctypes.Structure):
    _fields_ = [(name, ctypes.c_uint32) for name in ("kind", "moves", "floor", "budget")]


class Call(ctypes.Structure):
    """How a call ended."""

    _fields_ = [("status", ctypes.c_uint32), ("place", ctypes.c_uint32), ("figures", Figures), ("text_len", ctypes.c_size_t),
                ("certificate_len", ctypes.c_size_t)]


class Bytes(ctypes.Structure):
    """Bytes that a call left behind: a block of malloc's, if there are any."""

    _fields_ = [("bytes", ctypes.c_void_p), ("len", ctypes.c_size_t)]

    @classmethod
    def none(cls):
        return cls(ctypes.cast(ctypes.c_char_p(b""), ctypes.c_void_p), 0)

    def take(self) -> bytes:
        """A copy of them, which are freed."""
        made = ctypes.string_at(self.bytes, self.len)
        if self.len:
            free(self.bytes)
        return made


# The released library lies beside this file; LUFFAKNIFE_LIBRARY names another one.
library = ctypes.CDLL(os.environ.get("LUFFAKNIFE_LIBRARY") or os.path.join(os.path.dirname(__file__), "libluffaknife.so"))
free = ctypes.CDLL(None).free
free.argtypes = [ctypes.c_void_p]
free.restype = None

library.luffaknife_version.restype = ctypes.c_uint32
for name in ("deal", "best", "best_certified", "keep_best", "keep_best_certified", "solve", "solve_certified", "keep_solve",
             "keep_solve_certified", "check", "replay", "replay_sequences", "review", "keep_review"):
    getattr(library, f"luffaknife_{name}").restype = Call


def call(name: str, *words) -> Call:
    return getattr(library, f"luffaknife_{name}")(*words)


def handed(data: bytes):
    """Bytes as they are handed in."""
    return data, ctypes.c_size_t(len(data))
