"""Why a call has no answer."""
from __future__ import annotations

from typing import Any, Callable

from . import _library
from ._library import sentence


class TapirError(Exception):
    """Why a call has no answer. Cells that were passed are as they were.

    >>> from tapirvm import EXAMPLE, Kernel, TapirError
    >>> try:
    ...     Kernel(EXAMPLE).run([])
    ... except TapirError as error:
    ...     print(error)
    a wrong number of arguments for @main
    """


class Refused(TapirError):
    """The module breaks a rule: `rule` and `line` say which one and where, and `words` is what `tapirvm explain` prints.

    >>> from tapirvm import EXAMPLE, Kernel, Refused
    >>> try:
    ...     Kernel(EXAMPLE.replace(";! foot writes @a 0 1", ""))
    ... except Refused as error:
    ...     print(error.rule, error.words.splitlines()[0])
    601 refused 601 line 12
    """

    def __init__(self, rule: int, line: int, title: str = "", words: Callable[[], str] | str = "") -> None:
        super().__init__(rule, line, title)
        self.rule, self.line, self.title, self._words = rule, line, title, words

    @property
    def words(self) -> str:
        """The reason in words. They are made where they are first asked for, since the text is judged anew for them.

        >>> from tapirvm import EXAMPLE, Kernel, Refused
        >>> try:
        ...     Kernel(EXAMPLE.replace("i64 %n", "i32 %n"))
        ... except Refused as error:
        ...     print(error.words.splitlines()[0] == f"refused {error.rule} line {error.line}")
        True
        """
        if callable(self._words):
            self._words = self._words()
        return self._words

    def __str__(self) -> str:
        return f"line {self.line} breaks rule {self.title or self.rule}"

    def __reduce__(self) -> tuple[Any, ...]:
        return Refused, (self.rule, self.line, self.title, self.words)


class OutOfEffort(TapirError):
    """There is no verdict within the effort: the text is too dear to judge.

    >>> from tapirvm import EXAMPLE, Kernel
    >>> Kernel(EXAMPLE, effort=0)
    Traceback (most recent call last):
    ...
    tapirvm.OutOfEffort: there is no verdict within the effort
    """


class OutOfFuel(TapirError):
    """The run does more instructions than the fuel allows.

    >>> from tapirvm import EXAMPLE, Kernel
    >>> Kernel(EXAMPLE).run([7], fuel=5)
    Traceback (most recent call last):
    ...
    tapirvm.OutOfFuel: the run does more instructions than its fuel allows
    """


class Stopped(TapirError):
    """A stop was set: see `Stop`.

    >>> from tapirvm import EXAMPLE, Kernel, Stop
    >>> stop = Stop()
    >>> stop.set()
    >>> Kernel(EXAMPLE).run([7], stop=stop)
    Traceback (most recent call last):
    ...
    tapirvm.Stopped: the run was told to stop
    """


class TimedOut(Stopped, TimeoutError):
    """The time was over before the run ended.

    >>> from tapirvm import TimedOut
    >>> issubclass(TimedOut, TimeoutError)
    True
    """


class BadArguments(TapirError):
    """The arguments are not those of @main: `requirement` is 0 for their number, else the first `requires` line that they break, from 1.

    >>> from tapirvm import EXAMPLE, Kernel
    >>> Kernel(EXAMPLE).run([7, 8])
    Traceback (most recent call last):
    ...
    tapirvm.BadArguments: a wrong number of arguments for @main
    """

    def __init__(self, requirement: int) -> None:
        super().__init__(requirement)
        self.requirement = requirement

    def __str__(self) -> str:
        return f"the arguments break `requires` line {self.requirement} of @main" if self.requirement else "a wrong number of arguments for @main"


class OtherCells(TapirError):
    """There are not as many cells as the globals have.

    >>> from tapirvm import EXAMPLE, Kernel
    >>> Kernel(EXAMPLE).run([7], [0, 0])
    Traceback (most recent call last):
    ...
    tapirvm.OtherCells: there are not as many cells as the globals of the module have
    """


class CellsInUse(TapirError, BufferError):
    """Another run is over these cells: in another thread, or begun and neither finished nor closed.

    >>> from tapirvm import EXAMPLE, Kernel
    >>> kernel = Kernel(EXAMPLE)
    >>> with kernel.begin([7], workers=2):
    ...     kernel.run([7])
    Traceback (most recent call last):
    ...
    tapirvm.CellsInUse: another run is over these cells
    """


class BadWorkers(TapirError, ValueError):
    """There are from 1 to 64 workers.

    >>> from tapirvm import EXAMPLE, Kernel
    >>> Kernel(EXAMPLE).run([7], workers=65)
    Traceback (most recent call last):
    ...
    tapirvm.BadWorkers: there are from 1 to 64 workers, not 65
    """


class BadSchedule(TapirError):
    """A line of the schedule is none, or the schedule is too long: `line` is the first such line, from 1.

    >>> from tapirvm import EXAMPLE, Kernel
    >>> Kernel(EXAMPLE).replay([7], workers=1, schedule="hop")
    Traceback (most recent call last):
    ...
    tapirvm.BadSchedule: line 1: neither `step W N` nor `steal W PATH`
    """

    def __init__(self, line: int, is_long: bool) -> None:
        super().__init__(line, is_long)
        self.line, self.is_long = line, is_long

    def __str__(self) -> str:
        return f"line {self.line}: " + ("the schedule is too long" if self.is_long else "neither `step W N` nor `steal W PATH`")


class NotEnded(TapirError):
    """The schedule is over, or nobody works, after so many `instructions`, and the run has not ended.

    >>> from tapirvm import EXAMPLE, Kernel
    >>> Kernel(EXAMPLE).replay([7], workers=1, schedule="step 0 3\\n")
    Traceback (most recent call last):
    ...
    tapirvm.NotEnded: the run has not ended after 3 instructions
    """

    def __init__(self, instructions: int) -> None:
        super().__init__(instructions)
        self.instructions = instructions

    def __str__(self) -> str:
        return f"the run has not ended after {self.instructions} instructions"


class NoMemory(TapirError, MemoryError):
    """The system gave no memory, or no thread.

    >>> from tapirvm import NoMemory
    >>> issubclass(NoMemory, MemoryError)
    True
    """


class Closed(TapirError):
    """The kernel or the run was closed.

    >>> from tapirvm import EXAMPLE, Kernel
    >>> kernel = Kernel(EXAMPLE)
    >>> kernel.close()
    >>> kernel.run([7])
    Traceback (most recent call last):
    ...
    tapirvm.Closed: the handle holds nothing
    """


def late() -> TimedOut:
    """The exception of a run whose time was over."""
    return TimedOut("the time was over before the run ended")


_PLAIN = {
    _library.OTHER_CELLS: OtherCells,
    _library.OUT_OF_EFFORT: OutOfEffort,
    _library.CLOSED: Closed,
    _library.OUT_OF_FUEL: OutOfFuel,
    _library.BAD_WORKERS: BadWorkers,
    _library.OUT_OF_MEMORY: NoMemory,
    _library.STOPPED: Stopped,
}


def plain(status: int) -> TapirError:
    """The exception of a status that says all."""
    return _PLAIN[status](sentence(status))


def of_outcome(outcome: _library.Outcome) -> TapirError:
    """The exception of an outcome that is no answer."""
    if outcome.status == _library.NOT_ENDED:
        return NotEnded(outcome.instructions)
    if outcome.status == _library.BAD_ARGUMENTS:
        return BadArguments(outcome.requirement)
    if outcome.status in (_library.BAD_SCHEDULE, _library.LONG_SCHEDULE):
        return BadSchedule(outcome.line, outcome.status == _library.LONG_SCHEDULE)
    return plain(outcome.status)
