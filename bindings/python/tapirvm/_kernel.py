"""Kernels and their runs."""
from __future__ import annotations

import array
import collections
import ctypes
import threading
from contextlib import ExitStack, contextmanager
from dataclasses import dataclass, field
from typing import Any, Callable, Iterator

from . import _library
from ._faults import OtherCells, Refused, TapirError, late, of_outcome, plain
from ._library import DONE, STOPPED, Crew, Handle, Range, Verdict, library
from ._library import Outcome as Answer
from ._stop import Stop, Word, held, watched
from ._values import UNBOUNDED, Numbers, Row, Text, copied, crew_of, flat, in_use, read, seconds, seed, table, text_of, unsigned, written
from ._words import EFFORT, explain, rule

#: The instructions that a run may do, where the caller does not say: some two to ten seconds on one processor.
FUEL = 1_000_000_000

#: A run of at most so many instructions ends before anybody would stop it, so it gets no thread of its own.
_QUICK = 1_000_000


@dataclass(frozen=True)
class Argument:
    """An argument of @main, and the least and the greatest value that its `requires` lines name, or None.

    >>> from tapirvm import EXAMPLE, Kernel
    >>> Kernel(EXAMPLE).arguments[0]
    Argument(name='%n', low=None, high=None)
    """

    name: str
    low: int | None
    high: int | None


@dataclass(frozen=True)
class Outcome:
    """What an ended run left: `result`, `instructions`, `peak` (the most frames of the serial run that stand on one another) and `cells`, those that
    were passed. `outcome["@a"]` is a view of one global's cells.

    >>> from tapirvm import EXAMPLE, Kernel
    >>> outcome = Kernel(EXAMPLE).run([7])
    >>> outcome.result, outcome.instructions, outcome.peak
    (7, 7, 2)
    >>> outcome["@a"].tolist()
    [7]
    """

    result: int
    instructions: int
    peak: int
    cells: Any = field(repr=False)
    _globals: dict[str, range] = field(repr=False, compare=False, default_factory=dict)

    def __getitem__(self, name: str) -> memoryview:
        return _view(self.cells, self._globals, name)


def _view(cells: Any, places: dict[str, range], name: str) -> memoryview:
    """The cells of a global within a row."""
    return flat(cells)[places[name].start : places[name].stop]


class _Source:
    """A handle on a module that no run has, so that it can be shared at any time."""

    def __init__(self) -> None:
        self.handle, self._lock = Handle(), threading.Lock()

    def share(self) -> Handle:
        other = Handle()
        with self._lock:
            status = library.tapirvm_share(ctypes.byref(self.handle), ctypes.byref(other))
        if status != DONE:
            raise plain(status)
        return other

    def __del__(self) -> None:
        if library is not None:
            library.tapirvm_close(ctypes.byref(self.handle))


class Kernel:
    """A module that was judged and is kept.

    `budget` is the most instructions of a run, `depth` the most frames of a serial run that stand on one another, `cells` the number of cells of all
    globals, and `frame_cells` that of a frame at most. `globals` says where each global's cells stand in the row of all cells, and `arguments` what
    @main's `requires` lines allow. One kernel runs in one thread at a time: a second thread waits. `share` makes another one over the same module, for
    a thread of its own. A kernel is pickled as its text.

    A kernel has cells of its own, all 0 at first. A run for which no others are passed begins from them and leaves its end there, as a function of C
    does with its globals. `kernel["@a"]` is a view of one global's.

    >>> from tapirvm import EXAMPLE, Kernel
    >>> with Kernel(EXAMPLE) as kernel:
    ...     outcome = kernel.run([7])
    ...     print(outcome, kernel["@a"].tolist())
    Outcome(result=7, instructions=7, peak=2) [7]
    >>> kernel.globals, kernel.arguments
    ({'@a': range(0, 1)}, (Argument(name='%n', low=None, high=None),))
    """

    budget: int
    depth: int
    cells: int
    frame_cells: int
    globals: dict[str, range]
    arguments: tuple[Argument, ...]

    def __init__(self, text: Text, *, effort: int = EFFORT) -> None:
        """Judges the text. Raises Refused, OutOfEffort or NoMemory."""
        self._text, self._effort = text_of(text), unsigned(effort, "effort")
        self._source, verdict = _Source(), Verdict()
        library.tapirvm_open(self._text, len(self._text), *seed(), self._effort, ctypes.byref(verdict), ctypes.byref(self._source.handle))
        if verdict.status == _library.REFUSED:
            title = (rule(verdict.rule) or "").partition("\n")[0]
            text_then, effort_then = self._text, self._effort
            raise Refused(verdict.rule, verdict.line, title, lambda: explain(text_then, effort=effort_then))
        if verdict.status != DONE:
            raise plain(verdict.status)
        handle = ctypes.byref(self._source.handle)
        self.budget, self.depth, self.cells = verdict.budget, verdict.depth, verdict.cells
        self.frame_cells = library.tapirvm_frame_cells(handle)
        self.globals = dict(_global_at(handle, number) for number in range(library.tapirvm_globals(handle)))
        self.arguments = tuple(_argument_at(handle, number) for number in range(library.tapirvm_arguments(handle)))
        self._take(self._source.share())

    def _take(self, handle: Handle) -> None:
        """Has a handle of its own on the module, for its runs."""
        self._handle, self._lock, self._is_closed = handle, threading.Lock(), False

    # ---- Its cells, globals and arguments

    @property
    def memory(self) -> array.array[int]:
        """The kernel's own cells, one global after the other, in the order of the text.

        >>> from tapirvm import EXAMPLE, Kernel
        >>> Kernel(EXAMPLE).memory
        array('q', [0])
        """
        # (One of two threads that ask at once makes them.)
        found: array.array[int] = self.__dict__.get("_memory") or self.__dict__.setdefault("_memory", self.zeros())
        return found

    def zeros(self) -> array.array[int]:
        """New cells, all 0, for a run that is not to begin from the kernel's own.

        >>> from tapirvm import EXAMPLE, Kernel
        >>> kernel = Kernel(EXAMPLE)
        >>> kernel.run([7], kernel.zeros()).cells, kernel.memory
        (array('q', [7]), array('q', [0]))
        """
        return array.array("q", bytes(8 * self.cells))

    def __getitem__(self, name: str) -> memoryview:
        """A view of a global's cells within the kernel's own.

        >>> from tapirvm import EXAMPLE, Kernel
        >>> kernel = Kernel(EXAMPLE)
        >>> kernel["@a"][0] = 5
        >>> kernel.memory
        array('q', [5])
        """
        return _view(self.memory, self.globals, name)

    def __setitem__(self, name: str, values: Numbers) -> None:
        """Sets all cells of a global.

        >>> from tapirvm import EXAMPLE, Kernel
        >>> kernel = Kernel(EXAMPLE)
        >>> kernel["@a"] = [5]
        >>> kernel["@a"][0]
        5
        """
        view, fresh = self[name], copied(values)
        if len(fresh) != len(view):
            raise ValueError(f"{name} has {len(view)} cells, not {len(fresh)}")
        view[:] = memoryview(fresh)

    # ---- Its runs

    def run(self, args: Numbers = (), cells: Numbers = None, *, workers: int = 1, fuel: int | None = FUEL, timeout: float | None = None,
            stop: Stop | None = None) -> Outcome:
        """Runs the module: serially, or on so many threads, which have ended when it returns. The answer is the serial run's in both.

        `args` are whole numbers. A buffer of 64-bit integers is read where it stands, but one that cannot be written is copied first.

        `cells` are changed in place where they are a buffer of 64-bit integers, as an `array.array("q")`, a `memoryview` or an array of NumPy. Of other
        sequences a copy is. Where none are passed, they are the kernel's own. At any exception they are as they were. (But Ctrl-C may come when the run
        has just ended.)

        `fuel` is the most instructions that it may do, or None for as many as it takes. On threads it may do 67,000 more. `timeout` is in seconds. Ctrl-C
        ends a run within a tenth of a second, and so does a `stop` that another thread sets.

        Raises BadArguments, OtherCells, OutOfFuel, TimedOut, Stopped, NoMemory or Closed. And before anything is called: OverflowError for a number
        that does not fit 64 bits, TypeError for cells that are no integers or cannot be written, ValueError where cells and arguments overlap, BadWorkers,
        and CellsInUse where another thread runs over the same cells.

        >>> from tapirvm import EXAMPLE, Kernel
        >>> Kernel(EXAMPLE).run([7], [100], workers=4, fuel=1_000_000)
        Outcome(result=7, instructions=7, peak=2)
        """
        crew, most, given, answer = crew_of(workers), _fuel_of(fuel), read(args), Answer()
        row, kept = self._row(cells, given)

        def call(word: Word | None) -> None:
            with self._open(word) as handle, in_use.claim(row, given):
                rest = most, _told(word), given.at, given.count, row.at, row.count, ctypes.byref(answer)
                if crew == 1:
                    library.tapirvm_run(handle, *rest)
                else:
                    library.tapirvm_run_threads(handle, crew, *rest)

        is_late = self._watch(call, min(most, self.budget), seconds(timeout), stop)
        return self._outcome(answer, kept, is_late)

    def rows(self, args: Any, cells: Numbers, *, fuel: int | None = FUEL, timeout: float | None = None,
             stop: Stop | None = None) -> list[Outcome | TapirError]:
        """Runs once for each row, in one call. `args` has a row of arguments for each, all of one length, or is a buffer of two dimensions. `cells` is one
        row that holds the rows' cells one after another: it is changed in place where it is a buffer. Each row has the fuel for itself. Gives a list
        with an Outcome for each row, or the exception that `run` would raise of it. An Outcome's cells are a view of those of its row.

        >>> from tapirvm import EXAMPLE, Kernel
        >>> [it.result for it in Kernel(EXAMPLE).rows([[1], [2], [3]], [0, 0, 0])]
        [1, 2, 3]
        """
        most, (numbers, each, count) = _fuel_of(fuel), table(args)
        given = read(numbers)
        row, kept = written(cells, given)
        if row.count != count * self.cells:
            raise OtherCells(f"{count} rows of {self.cells} cells have {count * self.cells} cells, not {row.count}")
        answers = (Answer * max(count, 1))()

        def call(word: Word | None) -> None:
            with self._open(word) as handle, in_use.claim(row, given):
                library.tapirvm_rows(handle, most, _told(word), each, given.at, given.count, self.cells, row.at, row.count, answers, count)

        is_late = self._watch(call, min(most, self.budget) * count, seconds(timeout), stop)
        view = flat(kept)
        own = [view[k * self.cells : (k + 1) * self.cells] for k in range(count)]
        return [self._outcome(answers[k], own[k], is_late) if answers[k].status == DONE else _fault(answers[k], is_late) for k in range(count)]

    def begin(self, args: Numbers = (), cells: Numbers = None, *, workers: int) -> Run:
        """A run on threads that has not done anything yet: see `Run`. Raises as `run` does.

        >>> from tapirvm import EXAMPLE, Kernel
        >>> with Kernel(EXAMPLE).begin([7], workers=2) as run:
        ...     run.go()
        ...     run.finish().result
        7
        """
        return Run(self, args, cells, workers)

    def replay(self, args: Numbers = (), cells: Numbers = None, *, workers: int, schedule: Text) -> Outcome:
        """Runs on so many workers of the model by a schedule: text of lines `step W N` and `steal W PATH`. An ended run's answer is the serial one.
        Raises as `run` does, and NotEnded or BadSchedule.

        >>> from tapirvm import EXAMPLE, Kernel
        >>> Kernel(EXAMPLE).replay([7], workers=2, schedule="step 0 2\\nsteal 1 root\\nstep 1 1\\nstep 0 4\\n")
        Outcome(result=7, instructions=7, peak=2)
        """
        lines, given, answer, crew = text_of(schedule), read(args), Answer(), crew_of(workers)
        row, kept = self._row(cells, given)
        with self._open() as handle, in_use.claim(row, given):
            library.tapirvm_replay(handle, given.at, given.count, row.at, row.count, crew, lines, len(lines), ctypes.byref(answer))
        return self._outcome(answer, kept)

    # ---- Other kernels

    def share(self) -> Kernel:
        """Another kernel over the same module, for another thread. Its own cells are 0. Raises Closed or NoMemory.

        >>> from tapirvm import EXAMPLE, Kernel
        >>> one = Kernel(EXAMPLE)
        >>> other = one.share()
        >>> one.close()
        >>> other.run([7]).result
        7
        """
        if self._is_closed:
            raise plain(_library.CLOSED)
        other = object.__new__(Kernel)
        other._text, other._effort, other._source = self._text, self._effort, self._source
        other.budget, other.depth, other.cells, other.frame_cells = self.budget, self.depth, self.cells, self.frame_cells
        other.globals, other.arguments = self.globals, self.arguments
        other._take(self._source.share())
        return other

    def close(self) -> None:
        """Gives back what the kernel holds. It can be called again, and does nothing then. `with` calls it at its end.

        >>> from tapirvm import EXAMPLE, Kernel
        >>> kernel = Kernel(EXAMPLE)
        >>> kernel.close()
        """
        with self._open() as handle:
            self._is_closed = True
            library.tapirvm_close(handle)

    def __enter__(self) -> Kernel:
        return self

    def __exit__(self, *_: object) -> None:
        self.close()

    def __del__(self) -> None:
        # (A text that was none has no handle, and at the end of the program there may be no library any more.)
        if hasattr(self, "_handle") and library is not None:
            library.tapirvm_close(ctypes.byref(self._handle))

    def __reduce__(self) -> tuple[Any, ...]:
        return unpickled, (self._text, self._effort)

    def __repr__(self) -> str:
        return f"Kernel(budget={self.budget}, depth={self.depth}, cells={self.cells})"

    @contextmanager
    def _open(self, word: Word | None = None) -> Iterator[Any]:
        """The handle, for this thread alone. Raises Stopped where the word is set before it is there."""
        with held(self._lock, word):
            yield ctypes.byref(self._handle)

    def _row(self, cells: Numbers, given: Row) -> tuple[Row, Any]:
        return written(self.memory if cells is None else cells, given)

    def _watch(self, call: Callable[[Word | None], None], most: int, timeout: float | None, stop: Stop | None) -> bool:
        """Makes a call that does at most so many instructions and looks at the word that it is given. Whether the time was over."""
        if timeout is None and stop is None and most <= _QUICK:
            call(None)
            return False
        word = Word()

        def whole() -> None:
            try:
                call(word)
            finally:
                word.close()

        return watched(whole, word, stop, timeout)

    def _outcome(self, answer: Answer, cells: Any, is_late: bool = False) -> Outcome:
        if answer.status != DONE:
            raise _fault(answer, is_late)
        return Outcome(answer.result, answer.instructions, answer.peak, cells, self.globals)


class Run:
    """A run on threads in steps: it goes on after it was stopped or was out of fuel or of time, and tells its schedule. Its cells are in use until it is
    finished or closed.

    >>> from tapirvm import EXAMPLE, Kernel, OutOfFuel
    >>> kernel = Kernel(EXAMPLE)
    >>> with kernel.begin([7], kernel.zeros(), workers=2) as run:
    ...     try:
    ...         run.go(fuel=0)
    ...     except OutOfFuel:
    ...         run.go(fuel=1_000)
    ...     schedule = run.schedule()
    ...     outcome = run.finish()
    >>> outcome == kernel.replay([7], kernel.zeros(), workers=2, schedule=schedule)
    True
    """

    def __init__(self, kernel: Kernel, args: Numbers, cells: Numbers, workers: int) -> None:
        """Begins: `Kernel.begin` calls this. (Fuel is granted where the run goes on.)"""
        self._crew, self._lock, self._word, self._kernel = Crew(), threading.Lock(), Word(), kernel
        given, crew, answer, no_fuel = read(args), crew_of(workers), Answer(), 0
        self._row, self._kept = kernel._row(cells, given)
        self._claim = ExitStack()
        with ExitStack() as begun:
            begun.enter_context(in_use.claim(writes=self._row))
            with kernel._open() as handle, in_use.claim(reads=given):
                library.tapirvm_crew_open(handle, crew, no_fuel, ctypes.byref(self._word.handle), given.at, given.count, self._row.at, self._row.count,
                                          ctypes.byref(answer), ctypes.byref(self._crew))
            if answer.status != DONE:
                raise of_outcome(answer)
            self._claim = begun.pop_all()

    def go(self, *, fuel: int | None = FUEL, timeout: float | None = None, stop: Stop | None = None) -> None:
        """Goes on to the end. `fuel` is how many instructions more it may do, beside what was not used before. Raises OutOfFuel, TimedOut, Stopped,
        NoMemory or Closed. After the first three it can be called again.

        >>> from tapirvm import EXAMPLE, Kernel
        >>> with Kernel(EXAMPLE).begin([7], workers=2) as run:
        ...     run.go(fuel=1_000, timeout=60)
        """
        more, most_seconds = _fuel_of(fuel), seconds(timeout)
        statuses: list[int] = []

        def call() -> None:
            with held(self._lock, self._word):
                library.tapirvm_board_fuel(ctypes.byref(self._crew.board), more)
                statuses.append(library.tapirvm_crew_run(ctypes.byref(self._crew)))

        self._word.clear()
        is_late = watched(call, self._word, stop, most_seconds)
        if statuses[0] != DONE:
            raise late() if is_late and statuses[0] == STOPPED else plain(statuses[0])

    def schedule(self) -> str:
        """What the run has done so far, as `Kernel.replay` takes it with the same arguments, cells and number of workers.

        >>> from tapirvm import EXAMPLE, Kernel
        >>> with Kernel(EXAMPLE).begin([7], workers=1) as run:
        ...     run.go()
        ...     print(run.schedule(), end="")
        step 0 7
        """
        with self._lock:
            status, lines = _library.written(library.tapirvm_board_schedule, ctypes.byref(self._crew.board), room=1 << 20)
        if status == _library.LONG_SCHEDULE:
            raise OverflowError("the schedule has over 1,048,576 bytes or events")
        if status != DONE:
            raise plain(status)
        return lines.decode()

    def finish(self) -> Outcome:
        """The answer of the run, which has ended: the cells that it began from are those of the end. Raises NotEnded, NoMemory or Closed.

        >>> from tapirvm import EXAMPLE, Kernel
        >>> with Kernel(EXAMPLE).begin([7], workers=2) as run:
        ...     run.finish()
        Traceback (most recent call last):
        ...
        tapirvm.NotEnded: the run has not ended after 0 instructions
        """
        answer, row = Answer(), self._row
        with self._lock:
            library.tapirvm_board_finish(ctypes.byref(self._crew.board), row.at, row.count, ctypes.byref(answer))
            if answer.status != _library.NOT_ENDED:
                self._claim.close()
        return self._kernel._outcome(answer, self._kept)

    def close(self) -> None:
        """Gives the run back. It can be called again, and does nothing then. `with` calls it at its end.

        >>> from tapirvm import EXAMPLE, Kernel
        >>> run = Kernel(EXAMPLE).begin([7], workers=2)
        >>> run.close()
        """
        with self._lock:
            library.tapirvm_crew_close(ctypes.byref(self._crew))
            self._claim.close()

    def __enter__(self) -> Run:
        return self

    def __exit__(self, *_: object) -> None:
        self.close()

    def __del__(self) -> None:
        if hasattr(self, "_crew") and library is not None:
            library.tapirvm_crew_close(ctypes.byref(self._crew))


def _fuel_of(fuel: int | None) -> int:
    return UNBOUNDED if fuel is None else unsigned(fuel, "fuel")


def _told(word: Word | None) -> Any:
    """The stop that a run looks at."""
    return ctypes.byref(word.handle if word is not None else Handle())


def _fault(answer: Answer, is_late: bool) -> TapirError:
    return late() if is_late and answer.status == STOPPED else of_outcome(answer)


def _global_at(handle: Any, number: int) -> tuple[str, range]:
    first, cells = _library.U64(), _library.U64()
    _, name = _library.written(library.tapirvm_global_at, handle, number, after=(ctypes.byref(first), ctypes.byref(cells)))
    return f"@{name.decode()}", range(first.value, first.value + cells.value)


def _argument_at(handle: Any, number: int) -> Argument:
    bounds = Range()
    _, name = _library.written(library.tapirvm_argument_at, handle, number, after=(ctypes.byref(bounds),))
    return Argument(f"%{name.decode()}", bounds.low if bounds.has_low else None, bounds.high if bounds.has_high else None)


#: The kernels that this process was sent as texts, the latest last: each is judged once.
_sent: collections.OrderedDict[tuple[bytes, int], Kernel] = collections.OrderedDict()
_sent_lock = threading.Lock()
_MOST_SENT = 64


def unpickled(text: bytes, effort: int) -> Kernel:
    """A kernel that was sent as its text: a share of the one that this process keeps of it."""
    with _sent_lock:
        kept = _sent.pop((text, effort), None) or Kernel(text, effort=effort)
        _sent[text, effort] = kept
        if len(_sent) > _MOST_SENT:
            _sent.popitem(last=False)
        return kept.share()
