"""The shared library: where it is looked for, its version, and the types of its calls."""
from __future__ import annotations

import ctypes
import ctypes.util
import os
from pathlib import Path
from typing import Any, Callable, Iterator

MAJOR, MINOR = 3, 0

U16, U32, U64, I64, SIZE = ctypes.c_uint16, ctypes.c_uint32, ctypes.c_uint64, ctypes.c_int64, ctypes.c_size_t
MOST_WORKERS = 64

DONE, REFUSED, OTHER_CELLS, OUT_OF_EFFORT, CLOSED, OUT_OF_FUEL, NOT_ENDED, NO_RULE, NOT_FOUND, FOREIGN = range(10)
BAD_ARGUMENTS, BAD_WORKERS, OUT_OF_MEMORY, STOPPED, BAD_SCHEDULE, LONG_SCHEDULE = 801, 802, 803, 804, 901, 902


class Verdict(ctypes.Structure):
    _fields_ = [("status", U32), ("rule", U16), ("line", U32), ("budget", U64), ("depth", U64), ("cells", U64)]


class Outcome(ctypes.Structure):
    _fields_ = [("status", U32), ("rule", U16), ("line", U32), ("requirement", U64), ("result", I64), ("instructions", U64), ("peak", U64)]


class Handle(ctypes.Structure):
    """A module, a stop, a board or a worker: all zeroes are nothing."""

    _fields_ = [("live", ctypes.c_bool), ("at", ctypes.c_void_p)]


class Crew(ctypes.Structure):
    _fields_ = [("board", Handle), ("count", SIZE), ("workers", Handle * MOST_WORKERS)]


class Range(ctypes.Structure):
    _fields_ = [("has_low", ctypes.c_bool), ("has_high", ctypes.c_bool), ("low", I64), ("high", I64)]


_of = ctypes.POINTER
_HANDLE, _NUMBERS, _BYTES = _of(Handle), _of(I64), _of(ctypes.c_uint8)
_TEXT = [ctypes.c_char_p, SIZE, U64, U64, U64]
_ROW = [_NUMBERS, SIZE, _NUMBERS, SIZE]
_WORDS = [_BYTES, SIZE, _of(SIZE)]
_RUN = [_HANDLE, U64, _HANDLE, *_ROW, _of(Outcome)]
_CREW = [_HANDLE, SIZE, U64, _HANDLE, *_ROW, _of(Outcome)]
_CALLS = {
    "tapirvm_open": (None, [*_TEXT, _of(Verdict), _HANDLE]),
    "tapirvm_share": (U32, [_HANDLE, _HANDLE]),
    "tapirvm_close": (None, [_HANDLE]),
    "tapirvm_run": (None, _RUN),
    "tapirvm_rows": (None, [_HANDLE, U64, _HANDLE, SIZE, _NUMBERS, SIZE, SIZE, _NUMBERS, SIZE, _of(Outcome), SIZE]),
    "tapirvm_replay": (None, [_HANDLE, *_ROW, SIZE, ctypes.c_char_p, SIZE, _of(Outcome)]),
    "tapirvm_stop_open": (U32, [_HANDLE]),
    "tapirvm_stop_share": (U32, [_HANDLE, _HANDLE]),
    "tapirvm_stop_set": (U32, [_HANDLE]),
    "tapirvm_stop_clear": (U32, [_HANDLE]),
    "tapirvm_stop_is_set": (ctypes.c_bool, [_HANDLE]),
    "tapirvm_stop_close": (None, [_HANDLE]),
    "tapirvm_run_threads": (None, _CREW),
    "tapirvm_crew_open": (None, [*_CREW, _of(Crew)]),
    "tapirvm_crew_run": (U32, [_of(Crew)]),
    "tapirvm_crew_close": (None, [_of(Crew)]),
    "tapirvm_board_fuel": (U32, [_HANDLE, U64]),
    "tapirvm_board_schedule": (U32, [_HANDLE, *_WORDS]),
    "tapirvm_board_finish": (None, [_HANDLE, _NUMBERS, SIZE, _of(Outcome)]),
    "tapirvm_globals": (SIZE, [_HANDLE]),
    "tapirvm_arguments": (SIZE, [_HANDLE]),
    "tapirvm_frame_cells": (U64, [_HANDLE]),
    "tapirvm_global_at": (U32, [_HANDLE, SIZE, *_WORDS, _of(U64), _of(U64)]),
    "tapirvm_argument_at": (U32, [_HANDLE, SIZE, *_WORDS, _of(Range)]),
    "tapirvm_version": (None, _WORDS),
    "tapirvm_words": (U32, [U32, *_WORDS]),
    "tapirvm_rule": (U32, [U16, *_WORDS]),
    "tapirvm_explain": (U32, [*_TEXT, *_WORDS]),
}


class LibraryNotFound(ImportError):
    """There is no shared library, or one of another version: then the package is not imported.

    >>> from tapirvm import LibraryNotFound
    >>> issubclass(LibraryNotFound, ImportError)
    True
    """

    __module__ = "tapirvm"


def _paths() -> Iterator[str]:
    """Where the library may lie, the likeliest first: what TAPIRVM_LIBRARY names, each `lib` folder that this file is below or beside, where the system
    looks, and where `tools/install` is usually told to put it."""
    name = f"libtapirvm.so.{MAJOR}"
    named = os.environ.get("TAPIRVM_LIBRARY")
    if named:
        yield named
        return
    for folder in Path(__file__).resolve().parents:
        yield from (str(path) for path in (folder / name, folder / "lib" / name) if path.is_file())
    yield name
    found = ctypes.util.find_library("tapirvm")
    if found:
        yield found
    yield from (str(path) for path in (Path.home() / ".local/lib" / name, Path("/usr/local/lib") / name) if path.is_file())


def _fault(found: ctypes.CDLL) -> str | None:
    """What is wrong with a library that was found. Its version is asked for before any other call is looked up."""
    try:
        major = int(found.tapirvm_abi())
    except AttributeError:
        return "it has no tapirvm_abi"
    if major != MAJOR:
        return f"it has version {major}, and this package is for version {MAJOR}.{MINOR} and above in {MAJOR}"
    minor = int(found.tapirvm_minor())
    return None if minor >= MINOR else f"it has version {major}.{minor}, and this package needs {MAJOR}.{MINOR}"


def _load() -> ctypes.CDLL:
    """The library, with the types of its calls."""
    why = []
    for path in _paths():
        try:
            found = ctypes.CDLL(path)
        except OSError as error:
            why.append(f"  {error}")
            continue
        fault = _fault(found)
        if fault is None:
            for name, (result, arguments) in _CALLS.items():
                call = getattr(found, name)
                call.restype, call.argtypes = result, arguments
            return found
        why.append(f"  {path}: {fault}")
    tried = "\n".join(dict.fromkeys(why))
    raise LibraryNotFound(f"no fitting libtapirvm.so.{MAJOR} was found: `tools/install ~/.local` installs it; TAPIRVM_LIBRARY may name its path\n{tried}")


library = _load()


def written(call: Callable[..., Any], *before: object, after: tuple[object, ...] = (), room: int = 1 << 12) -> tuple[int, bytes]:
    """The status and the bytes of a call that writes bytes, which is asked again with as much room as it needs."""
    while True:
        out, needed = (ctypes.c_uint8 * room)(), SIZE(0)
        status = call(*before, out, room, ctypes.byref(needed), *after)
        if needed.value <= room:
            return status, bytes(out[: needed.value])
        room = needed.value


def version() -> str:
    """The version of the library that was found.

    >>> from tapirvm import version
    >>> version().split(".")[0]
    '3'
    """
    return written(library.tapirvm_version)[1].decode()


def sentence(status: int) -> str:
    """What a status means: the library's sentence, as the words of an exception."""
    words = written(library.tapirvm_words, status)[1].decode()
    return words[:1].lower() + words[1:].rstrip(".")
