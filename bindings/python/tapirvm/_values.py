"""What a caller passes, looked at before any call is made: texts, numbers that fit, and cells that are taken without a copy."""
from __future__ import annotations

import array
import ctypes
import math
import operator
import os
import threading
from contextlib import contextmanager
from typing import Any, Iterator, SupportsIndex, Union

from ._faults import BadWorkers, CellsInUse
from ._library import I64, MOST_WORKERS

UNBOUNDED = 2**64 - 1

#: A text, or its bytes.
Text = Union[str, bytes, bytearray, memoryview]

#: Numbers of 64 bits: any iterable of whole numbers, or a buffer of them such as an `array.array("q")`, a `memoryview` or an array of NumPy. Arguments in a
#: buffer that cannot be written are copied; for cells such a buffer is a TypeError.
Numbers = Any


def text_of(text: Text) -> bytes:
    """The bytes of a text."""
    if isinstance(text, str):
        return text.encode()
    if isinstance(text, (bytes, bytearray, memoryview)):
        return bytes(text)
    raise TypeError(f"a text is a str or bytes, not {type(text).__name__}")


def unsigned(value: SupportsIndex, name: str) -> int:
    """A number that fits 64 bits without a sign."""
    number = operator.index(value)
    if not 0 <= number <= UNBOUNDED:
        raise OverflowError(f"{name} is from 0 to {UNBOUNDED}, not {number}")
    return number


def seconds(timeout: float | None) -> float | None:
    """A time in seconds that a thread can wait for, or None for ever."""
    if timeout is None or timeout == math.inf:
        return None
    if math.isnan(timeout):
        raise ValueError("timeout is a number of seconds")
    return min(max(float(timeout), 0.0), threading.TIMEOUT_MAX)


def crew_of(workers: SupportsIndex) -> int:
    """A number of workers."""
    number = operator.index(workers)
    if not 1 <= number <= MOST_WORKERS:
        raise BadWorkers(f"there are from 1 to {MOST_WORKERS} workers, not {number}")
    return number


def seed() -> tuple[int, int]:
    """128 bits that whoever wrote a text does not know."""
    drawn = int.from_bytes(os.urandom(16), "little")
    return drawn & UNBOUNDED, drawn >> 64


def copied(values: Numbers) -> array.array[int]:
    """An array of its own with these numbers."""
    try:
        return array.array("q", values)
    except OverflowError:
        raise OverflowError("a number does not fit 64 bits") from None


def flat(values: Any) -> memoryview:
    """The 64-bit integers of a buffer in one row. Raises TypeError of another buffer, and of what is none."""
    view = memoryview(values)
    if view.format not in ("q", "l", "@q", "@l", "=q") or view.itemsize != 8:
        raise TypeError(f"a buffer of numbers has 64-bit integers ('q'), not '{view.format}' of {view.itemsize} bytes")
    if not view.c_contiguous:
        raise TypeError("a buffer of numbers is in one piece")
    return view.cast("B").cast("q") if view.nbytes else memoryview(array.array("q"))


def _is_buffer(values: Any) -> bool:
    try:
        memoryview(values).release()
    except TypeError:
        return False
    return True


class Row:
    """Numbers where a call can read or write them: `at` is the place of the first one, and `count` how many there are. While it lives, its buffer cannot
    change its size."""

    def __init__(self, numbers: memoryview | array.array[int]) -> None:
        self.count = len(numbers)
        # (No pointer may be null, so no numbers have a place of their own too.)
        space = I64 * max(self.count, 1)
        self.at = space.from_buffer(numbers) if self.count else space()
        self.first = ctypes.addressof(self.at)
        self.last = self.first + 8 * self.count


def read(values: Numbers) -> Row:
    """Numbers that a call reads. A buffer that can be written is taken as it is; what else there is is copied."""
    view = flat(values) if _is_buffer(values) else None
    return Row(copied(values if view is None else view) if view is None or view.readonly else view)


def written(values: Numbers, given: Row) -> tuple[Row, Any]:
    """Numbers that a call changes in place, with the object that holds them: the value itself where it is a buffer, else a new array. They do not overlap
    the arguments that are given."""
    if not _is_buffer(values):
        fresh = copied(values)
        return Row(fresh), fresh
    view = flat(values)
    if view.readonly:
        raise TypeError("the cells are a buffer that cannot be written")
    row = Row(view)
    if _overlap(row, given):
        raise ValueError("the cells and the arguments overlap")
    return row, values


def table(rows: Any) -> tuple[memoryview, int, int]:
    """The numbers of all rows, one row after the other, how many each has, and how many rows there are."""
    if _is_buffer(rows):
        shape = memoryview(rows).shape or ()
        if len(shape) != 2:
            raise TypeError("a buffer of arguments has two dimensions: the rows, and the arguments of each")
        return flat(rows), shape[1], shape[0]
    lists = [copied(row) for row in rows]
    each = len(lists[0]) if lists else 0
    if any(len(row) != each for row in lists):
        raise ValueError("the rows have different numbers of arguments")
    return memoryview(array.array("q", [value for row in lists for value in row])), each, len(lists)


class _InUse:
    """The memory that runs of all threads write and read now."""

    def __init__(self) -> None:
        self._lock = threading.Lock()
        self._rows: list[tuple[Row, bool]] = []

    @contextmanager
    def claim(self, writes: Row | None = None, reads: Row | None = None) -> Iterator[None]:
        """For the time of a run. Raises CellsInUse where another one writes to one of them, or reads what this one is to write."""
        own = [(row, is_written) for row, is_written in ((writes, True), (reads, False)) if row is not None]
        with self._lock:
            if any((is_written or other_is) and _overlap(row, other) for row, is_written in own for other, other_is in self._rows):
                raise CellsInUse("another run is over these cells")
            self._rows += own
        try:
            yield
        finally:
            with self._lock:
                self._rows = [it for it in self._rows if it not in own]


def _overlap(one: Row, other: Row) -> bool:
    return one.first < other.last and other.first < one.last


in_use = _InUse()
