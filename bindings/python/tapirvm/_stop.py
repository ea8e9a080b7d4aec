"""Runs that may take long: stopped from other threads, after a time, or by Ctrl-C."""
from __future__ import annotations

import ctypes
import threading
from contextlib import contextmanager, nullcontext
from typing import Callable, Iterator

from ._faults import Stopped, late, plain
from ._library import DONE, STOPPED, Handle, library

#: A thread waits for its run at most so many seconds longer than it is to, after the run was told to stop.
PATIENCE = 1.0

#: A run that waits for its kernel looks so often, in seconds, whether it was told to stop.
_LOOK = 0.02


class Word:
    """The stop of one run: `handle` is for the run, and `set` for all other threads."""

    def __init__(self) -> None:
        # (A handler of a signal may set it while its thread does.)
        self.handle, self._own, self._lock = Handle(), Handle(), threading.RLock()
        status = library.tapirvm_stop_open(ctypes.byref(self._own))
        status = status or library.tapirvm_stop_share(ctypes.byref(self._own), ctypes.byref(self.handle))
        if status != DONE:
            raise plain(status)

    def set(self) -> None:
        with self._lock:
            library.tapirvm_stop_set(ctypes.byref(self._own))

    def clear(self) -> None:
        with self._lock:
            library.tapirvm_stop_clear(ctypes.byref(self._own))

    def is_set(self) -> bool:
        with self._lock:
            return bool(library.tapirvm_stop_is_set(ctypes.byref(self._own)))

    def close(self) -> None:
        """Where no run looks at it any more. (What a signal raises in `__del__` would be lost.)"""
        with self._lock:
            library.tapirvm_stop_close(ctypes.byref(self.handle))
            library.tapirvm_stop_close(ctypes.byref(self._own))

    def __del__(self) -> None:
        if library is not None and self._own.live:
            self.close()


@contextmanager
def held(lock: threading.Lock, word: Word | None = None) -> Iterator[None]:
    """Has a lock, for which it waits until the word is set. Raises Stopped then."""
    while not lock.acquire(timeout=-1 if word is None else _LOOK):
        if word is not None and word.is_set():
            raise plain(STOPPED)
    try:
        yield
    finally:
        lock.release()


class Stop:
    """Stops runs from another thread, or from a handler of a signal: those that it is passed to, now and later, until it is cleared.

    >>> from tapirvm import EXAMPLE, Kernel, Stop, Stopped
    >>> kernel, stop = Kernel(EXAMPLE), Stop()
    >>> stop.set()
    >>> try:
    ...     kernel.run([7], stop=stop)
    ... except Stopped as error:
    ...     print(error)
    the run was told to stop
    >>> stop.clear()
    >>> kernel.run([7], stop=stop).result
    7
    """

    def __init__(self) -> None:
        self._lock, self._is_set = threading.RLock(), False
        self._words: set[Word] = set()

    def set(self) -> None:
        """Stops the runs: each ends within some milliseconds, and raises Stopped.

        >>> from tapirvm import Stop
        >>> stop = Stop()
        >>> stop.set()
        >>> stop.is_set()
        True
        """
        with self._lock:
            self._is_set = True
            for word in self._words:
                word.set()

    def clear(self) -> None:
        """Stops no run from now on.

        >>> from tapirvm import Stop
        >>> stop = Stop()
        >>> stop.set()
        >>> stop.clear()
        >>> stop.is_set()
        False
        """
        with self._lock:
            self._is_set = False

    def is_set(self) -> bool:
        """Whether it is set.

        >>> from tapirvm import Stop
        >>> Stop().is_set()
        False
        """
        return self._is_set

    @contextmanager
    def _told_by(self, word: Word) -> Iterator[None]:
        """Sets the word too, meanwhile."""
        with self._lock:
            self._words.add(word)
            if self._is_set:
                word.set()
        try:
            yield
        finally:
            with self._lock:
                self._words.discard(word)


def watched(call: Callable[[], None], word: Word, stop: Stop | None, timeout: float | None) -> bool:
    """Makes a call that looks at the word, and answers whether the time was over before it had ended. Where this thread is to hear signals or to look at
    the time, the call has a thread of its own: what a handler raises, as KeyboardInterrupt, stops the call, and is raised here once it has ended."""
    with stop._told_by(word) if stop is not None else nullcontext():
        if timeout is None and threading.current_thread() is not threading.main_thread():
            call()
            return False
        return _beside(call, word, timeout)


def _beside(call: Callable[[], None], word: Word, timeout: float | None) -> bool:
    """The same by another thread."""
    faults: list[BaseException] = []
    ended = threading.Event()

    def body() -> None:
        try:
            call()
        except BaseException as fault:
            faults.append(fault)
        finally:
            ended.set()

    is_in_time = True
    try:
        threading.Thread(target=body, name="tapirvm", daemon=True).start()
        is_in_time = ended.wait(timeout)
        if not is_in_time:
            word.set()
            ended.wait()
    except BaseException:
        word.set()
        _wait_for(ended)
        raise
    if faults:
        raise faults[0] if is_in_time or not isinstance(faults[0], Stopped) else late()
    return not is_in_time


def _wait_for(ended: threading.Event) -> None:
    """Waits for a call that was told to stop, also where another signal comes meanwhile; but not for ever, as it may not have begun."""
    for _ in range(3):
        try:
            ended.wait(PATIENCE)
            return
        except BaseException:
            continue
