"""The verified fork-join machine for Python: judge a kernel once, run it as often as you like, serially or on threads.

A kernel is a module of LLVM IR with Tapir's `detach`, `reattach` and `sync`. One that `Kernel` takes never traps, and does no more instructions than
`kernel.budget`, whatever its arguments. All cells of its globals are one row of 64-bit numbers, in the order of the text.

>>> from tapirvm import EXAMPLE, Kernel
>>> kernel = Kernel(EXAMPLE)
>>> kernel.run([7], workers=4).result
7
>>> kernel["@a"].tolist()
[7]

The package needs the shared library that `tools/install PREFIX` makes, and nothing else. It is looked for at the path in the variable TAPIRVM_LIBRARY,
in each `lib` folder above this package, where the system looks for libraries, and in ~/.local/lib."""
from __future__ import annotations

from ._faults import (BadArguments, BadSchedule, BadWorkers, CellsInUse, Closed, NoMemory, NotEnded, OtherCells, OutOfEffort, OutOfFuel, Refused, Stopped,
                      TapirError, TimedOut)
from ._kernel import FUEL, Argument, Kernel, Outcome, Run
from ._library import LibraryNotFound, version
from ._stop import Stop
from ._values import UNBOUNDED, Numbers, Text
from ._words import EFFORT, explain, rule

#: A kernel of 15 lines: a child stores the argument, and after the `sync` the parent answers it.
EXAMPLE = """\
@a = global [1 x i64] zeroinitializer
define i64 @main(i64 %n) {
;! writes @a 0 1
;! budget 0 7
entry:
;! left 0 7
%s = call token @llvm.syncregion.start()
detach within %s, label %child, label %rest
child:
;! left 0 2
;! foot writes @a 0 1
store i64 %n, ptr @a
reattach within %s, label %rest
rest:
;! pending %s writes @a 0 1
;! left 0 3
sync within %s, label %done
done:
;! left 0 2
%x = load i64, ptr @a
ret i64 %x
}
"""

__all__ = ["EFFORT", "EXAMPLE", "FUEL", "UNBOUNDED", "Argument", "BadArguments", "BadSchedule", "BadWorkers", "CellsInUse", "Closed", "Kernel",
           "LibraryNotFound", "NoMemory", "NotEnded", "Numbers", "OtherCells", "OutOfEffort", "OutOfFuel", "Outcome", "Refused", "Run", "Stop", "Stopped",
           "TapirError", "Text", "TimedOut", "explain", "rule", "version"]

# (Tracebacks and pickles name what is public by this package, not by its parts.)
for _name in __all__:
    if str(getattr(globals()[_name], "__module__", "")).startswith(f"{__name__}."):
        globals()[_name].__module__ = __name__
del _name
