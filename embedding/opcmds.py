"""Policy questions, answered by the proved code of opcmds, by ctypes over libopcmds.so.

    import opcmds
    answer = opcmds.ask(policy, "explain", "--user", "ANNA", "--command", "C PAYROLL", "--why")
    print(answer.status, answer.output)
    print(opcmds.ask(old, "diff", "old.csv", "new.csv", new=new).output)
    with opcmds.Kept(policy) as kept:  # is asked many times
        print(kept.ask("explain", "--user", "ANNA", "--command", "C PAYROLL").status)

The policies are the bytes of policy files. The library is looked for as the system does; OPCMDS_LIBRARY names another
one. Threads may ask side by side; those that ask a policy that is kept wait for each other."""
import ctypes
import functools
import os
import threading
from typing import Callable, NamedTuple

ROOM = 1 << 14
NO_MEMORY = 3
SIZE, BYTES = ctypes.c_size_t, ctypes.c_char_p


class Answer(NamedTuple):
    """What the program would end with and write."""
    status: int
    output: str
    errors: str


class _Lengths(ctypes.Structure):
    _fields_ = [("output", SIZE), ("errors", SIZE)]


class _Kept(ctypes.Structure):
    _fields_ = [("at", ctypes.c_void_p)]


def _loaded() -> ctypes.CDLL:
    library = ctypes.CDLL(os.environ.get("OPCMDS_LIBRARY", "libopcmds.so"))
    lengths, kept = ctypes.POINTER(_Lengths), ctypes.POINTER(_Kept)
    library.opcmds_ask.argtypes = [*[BYTES, SIZE] * 5, lengths]
    library.opcmds_keep.argtypes = [BYTES, SIZE, kept]
    library.opcmds_ask_kept.argtypes = [kept, *[BYTES, SIZE] * 4, lengths]
    library.opcmds_free.argtypes = [kept]
    library.opcmds_ask.restype = library.opcmds_keep.restype = library.opcmds_ask_kept.restype = ctypes.c_uint32
    library.opcmds_free.restype = None
    return library


_LIBRARY = _loaded()


def _text(room: "ctypes.Array[ctypes.c_char]", length: int) -> str:
    return room.raw[:length].decode("utf-8", "replace")


def _question(words: tuple[str, ...]) -> bytes:
    if any("\0" in word for word in words):
        raise ValueError("a word has a NUL in it")
    return "\0".join(words).encode("utf-8", "surrogateescape")


def _answered(call: Callable[..., int], *texts: bytes) -> Answer:
    """Calls with these texts and with rooms, and again if the answer is longer than its room."""
    passed = [part for text in texts for part in (text, len(text))]
    room = ROOM
    while True:
        output, errors, lengths = ctypes.create_string_buffer(room), ctypes.create_string_buffer(room), _Lengths()
        status = call(*passed, output, room, errors, room, ctypes.byref(lengths))
        most = max(lengths.output, lengths.errors)
        if most <= room:
            return Answer(status, _text(output, lengths.output), _text(errors, lengths.errors))
        room = most


def ask(policy: bytes, *words: str, new: bytes = b"") -> Answer:
    """The program's answer to these words by the bytes of a policy file; `new` are those of the new one of `diff`."""
    return _answered(_LIBRARY.opcmds_ask, policy, new, _question(words))


class Kept:
    """A policy that is kept: `explain` and `who` are answered without reading it anew."""

    def __init__(self, policy: bytes) -> None:
        self._kept, self._lock = _Kept(), threading.Lock()
        if _LIBRARY.opcmds_keep(policy, len(policy), ctypes.byref(self._kept)) == NO_MEMORY:
            raise MemoryError

    def ask(self, *words: str, new: bytes = b"") -> Answer:
        """What the function `ask` answers by this policy."""
        with self._lock:
            if not self._kept.at:
                raise ValueError("the policy was closed")
            call = functools.partial(_LIBRARY.opcmds_ask_kept, ctypes.byref(self._kept))
            return _answered(call, new, _question(words))

    def close(self) -> None:
        with self._lock:
            _LIBRARY.opcmds_free(ctypes.byref(self._kept))

    def __enter__(self) -> "Kept":
        return self

    def __exit__(self, *_: object) -> None:
        self.close()

    def __del__(self) -> None:
        if hasattr(self, "_lock"):
            self.close()
