#!/usr/bin/env python3
"""What the package for Python answers: each of its examples, and what is known of modules of examples/ and of their runs. It needs TAPIRVM_LIBRARY, or what
`tools/install` put where the package looks; and it tries arrays of NumPy where that is there, else it says so."""
import array
import doctest
import inspect
import os
import pathlib
import pickle
import random
import signal
import sys
import threading
import time
from common import EXAMPLES, TOP, parser
from host_cases import all_cases
from modules import SPINNING, fib, scattered

sys.path.append(str(TOP / "bindings/python"))
import tapirvm
from tapirvm import (BadArguments, BadSchedule, BadWorkers, CellsInUse, Closed, Kernel, NotEnded, OtherCells, OutOfEffort, OutOfFuel, Refused, Stop, Stopped,
                     TimedOut)

# a run that is told to stop has ended within so many seconds: in one of so many tries, as others may have the processors meanwhile
SOON, TRIES = 0.1, 6
# the package has at least so many examples, or they were not found
FEWEST_EXAMPLES = 110
LONG = [10**11]


def text(name):
    return (EXAMPLES / f"{name}.ll").read_bytes()


def raised(kind, call, *words, **named):
    """The exception of this kind that a call raises."""
    try:
        call(*words, **named)
    except kind as error:
        return error
    raise AssertionError(f"{call}{words} {named}: no {kind.__name__}")


def serial_runs():
    # a parent and a child store 7 into a cell each
    pair = Kernel(text("pair"))
    run = pair.run([7])
    assert (run.result, run.instructions, run.peak, list(run.cells)) == (14, 14, 2, [7, 7]), run
    row = array.array("q", [1, 2])
    assert pair.run([3], row).cells is row and list(row) == [3, 3]
    raised(OutOfFuel, pair.run, [9], row, fuel=13)
    assert list(row) == [3, 3] and pair.run([7], fuel=14).result == 14
    assert raised(BadArguments, pair.run, []).requirement == 0
    raised(OtherCells, pair.run, [7], [1])
    rows = pair.rows([[1], [2], [3]], array.array("q", [0] * 6))
    assert [(it.result, list(it.cells)) for it in rows] == [(2, [1, 1]), (4, [2, 2]), (6, [3, 3])], rows
    raised(OtherCells, pair.rows, [[1]], [0])
    assert pair.replay([7], workers=1, schedule="step 0 14\n").result == 14
    assert raised(NotEnded, pair.replay, [7], workers=2, schedule="step 0 13\n").instructions == 13
    assert raised(BadSchedule, pair.replay, [7], workers=2, schedule="step 0 1\nhop\n").line == 2
    raised(BadWorkers, pair.replay, [7], workers=65, schedule="")
    other = pair.share()
    pair.close()
    pair.close()
    raised(Closed, pair.run, [7])
    raised(Closed, pair.run, [7], workers=2)
    raised(Closed, pair.share)
    assert other.run([7]).result == 14
    assert raised(BadArguments, Kernel(text("add-one")).run, [101]).requirement == 2
    with Kernel(text("adding")) as adding:
        # 0 + 1 + 2 + 3 + 4 on what stands there; 8 instructions a round, and 6
        run = adding.run([5], [100, 3] + [0] * 62)
        assert (run.result, run.instructions, list(run.cells[:3])) == (5, 46, [110, 3, 0]), run
    raised(OutOfEffort, Kernel, text("kernels/merge-sort"), effort=0)


def refusals():
    """A refusal is judged once; its words are made where they are asked for."""
    asked, explain = [], tapirvm._kernel.explain
    tapirvm._kernel.explain = lambda *words, **named: asked.append(words) or explain(*words, **named)
    # as the comments in the text say
    refused = raised(Refused, Kernel, text("alias"))
    assert (refused.rule, refused.line, str(refused).startswith("line 17 breaks rule 204: ")) == (204, 17, True) and not asked, refused
    assert refused.words.startswith("refused 204 line 17\n") and refused.words == explain(text("alias")) and len(asked) == 1
    tapirvm._kernel.explain = explain
    again = pickle.loads(pickle.dumps(refused))
    assert (again.rule, again.line, again.words) == (204, 17, refused.words)
    for error in (BadArguments(2), BadSchedule(3, True), NotEnded(5), TimedOut("late")):
        assert str(pickle.loads(pickle.dumps(error))) == str(error)


def threads():
    """On threads each answer is the serial one."""
    for name, most in (("fib", 18), ("kernels/merge-sort", 64), ("kernels/matrix-product", 8), ("parallel-for", 64)):
        kernel = Kernel(text(name))
        wanted = kernel.run([most] * len(kernel.arguments), kernel.zeros())
        for workers in (1, 2, 3, 4, 8, 64):
            assert kernel.run([most] * len(kernel.arguments), kernel.zeros(), workers=workers) == wanted, (name, workers)


def in_steps():
    kernel = Kernel(fib(20))
    wanted, parts = kernel.run([20]), 0
    with kernel.begin([20], workers=4) as run:
        raised(NotEnded, run.finish)
        while True:
            try:
                run.go(fuel=50_000)
                break
            except OutOfFuel:
                parts += 1
        schedule = run.schedule()
        assert run.finish() == wanted and parts > 2, parts
        raised(Closed, run.finish)
    assert kernel.replay([20], workers=4, schedule=schedule) == wanted
    stop = Stop()
    with kernel.begin([20], workers=4) as run:
        stop.set()
        raised(Stopped, run.go, stop=stop)
        stop.clear()
        run.go(stop=stop)
        assert run.finish() == wanted
    raised(Closed, run.go)
    raised(BadWorkers, kernel.begin, [20], workers=0)
    raised(BadArguments, kernel.begin, [21], workers=2)
    raised(OutOfFuel, kernel.run, [20], workers=4, fuel=1000)


def seconds_after(tell, call, kind):
    """How long a call goes on after it is told to end, which it does with this exception."""
    told = []

    def later():
        time.sleep(0.05)
        told.append(time.monotonic())
        tell()

    teller = threading.Thread(target=later)
    teller.start()
    try:
        raised(kind, call)
        return time.monotonic() - told[0]
    finally:
        teller.join()


def check(holds, what):
    assert holds, what


def is_soon(tell, call, kind):
    return any(0 <= seconds_after(tell, call, kind) < SOON for _ in range(TRIES))


def stops():
    """Ctrl-C, a stop and the end of the time end a run soon, serially and on threads, and leave the cells as they were."""
    kernel = Kernel(SPINNING)
    rows = lambda: kernel.rows([LONG], [], fuel=None)
    interrupt = lambda: os.kill(os.getpid(), signal.SIGINT)
    # (What is to run is judged as long as all that a signal stops has a handler.)
    signal.signal(signal.SIGINT, signal.default_int_handler)
    for workers in (1, 2, 4):
        assert is_soon(interrupt, lambda: kernel.run(LONG, workers=workers, fuel=None), KeyboardInterrupt), f"Ctrl-C, {workers} workers"
        stop = Stop()
        assert is_soon(stop.set, lambda: stop.clear() or kernel.run(LONG, workers=workers, fuel=None, stop=stop), Stopped), f"stop, {workers} workers"
        begun = time.monotonic()
        raised(TimedOut, kernel.run, LONG, workers=workers, fuel=None, timeout=0.05)
        assert time.monotonic() - begun < 5
    assert is_soon(interrupt, rows, KeyboardInterrupt), "Ctrl-C in rows"
    stop = Stop()
    signal.signal(signal.SIGTERM, lambda *_: stop.set())
    ended = lambda: os.kill(os.getpid(), signal.SIGTERM)
    assert is_soon(ended, lambda: stop.clear() or kernel.run(LONG, workers=2, fuel=None, stop=stop), Stopped), "a handler that sets a stop"
    assert isinstance(kernel.rows([LONG, [1]], [], fuel=None, timeout=0.05)[0], TimedOut)
    raised(OutOfFuel, kernel.run, LONG, fuel=5_000_000)
    raised(OutOfFuel, kernel.run, LONG, fuel=5_000_000, workers=4)
    assert kernel.run([1]).result == 1


def wrong_values():
    """What does not fit is told before anything is called."""
    pair, row = Kernel(text("pair")), array.array("q", [5, 6])
    for error, words, named in [
        (OverflowError, ([2**63],), {}), (OverflowError, ([-2**63 - 1],), {}), (OverflowError, ([7], [2**64, 0]), {}), (TypeError, ([1.5],), {}),
        (TypeError, ([7], ["x", 1]), {}), (OverflowError, ([7], row), {"fuel": 2**64}), (OverflowError, ([7], row), {"fuel": -1}),
        (TypeError, ([7], row), {"fuel": 1.5}), (BadWorkers, ([7], row), {"workers": 0}), (BadWorkers, ([7], row), {"workers": 65}),
        (TypeError, ([7], row), {"workers": "4"}), (TypeError, ([7], array.array("i", [1, 2])), {}), (TypeError, ([7], array.array("d", [1, 2])), {}),
        (TypeError, ([7], bytes(16)), {}), (TypeError, ([7], memoryview(array.array("q", range(4)))[::2]), {}), (TypeError, (7,), {}),
        (TypeError, ([7], memoryview(row).toreadonly()), {}), (TypeError, ([7], row), {"timeout": "1"}), (ValueError, ([7], row), {"timeout": float("nan")}),
        (OverflowError, ([7], row), {"fuel": 2**64, "workers": 2}), (OverflowError, ([2**63], row), {"workers": 2}),
    ]:
        raised(error, pair.run, *words, **named)
    assert list(row) == [5, 6]
    for wrong in (5, None, ["x"], 1.5):
        raised(TypeError, Kernel, wrong)
        raised(TypeError, tapirvm.explain, wrong)
    raised(OverflowError, Kernel, text("pair"), effort=-1)
    raised(OverflowError, Kernel, text("pair"), effort=2**64)
    raised(TypeError, pair.replay, [7], workers=1, schedule=7)
    raised(ValueError, pair.rows, [[1], [2, 3]], [0] * 4)
    raised(TypeError, pair.rows, array.array("q", [1, 2]), [0] * 4)
    numbers = memoryview(array.array("q", [7, 8]))
    assert "overlap" in str(raised(ValueError, pair.run, numbers[:1], numbers))
    assert Kernel("\n" + text("pair").decode()).run([7]).result == 14 and tapirvm.rule(-1) is None and tapirvm.rule(2**16) is None


def beside(kernel, numbers, workers, body):
    """Does something while a run is over these arguments in another thread, which is stopped then."""
    stop = Stop()
    runner = threading.Thread(target=lambda: raised(Stopped, kernel.run, numbers, workers=workers, fuel=None, stop=stop))
    runner.start()
    try:
        while not tapirvm._values.in_use._rows:
            time.sleep(0.001)
        body()
    finally:
        stop.set()
        runner.join()


def in_use():
    """Memory of a run in another thread is not taken for another one. (A module without globals has no cells, so these are arguments that are read.)"""
    kernel, pair = Kernel(SPINNING), Kernel(text("pair"))
    for workers in (1, 3):
        numbers = memoryview(array.array("q", [10**11, 0]))

        def others():
            for its in (1, 2):
                raised(CellsInUse, pair.run, [7], numbers, workers=its)
            raised(CellsInUse, pair.begin, [7], numbers, workers=2)
            raised(CellsInUse, pair.rows, [[7]], numbers)
            assert kernel.share().run(numbers[1:], workers=workers).result == 0

        beside(kernel, numbers[:1], workers, others)
        assert pair.run([7], numbers).result == 14 and numbers.tolist() == [7, 7]
    run = pair.begin([7], workers=2)
    raised(CellsInUse, pair.run, [7])
    run.go()
    assert run.finish().result == 14 and pair.run([7]).result == 14


def waiting():
    """A run that waits for its kernel, which another thread has, is stopped as one that works is."""
    kernel, numbers = Kernel(SPINNING), array.array("q", LONG)

    def late():
        begun = time.monotonic()
        raised(TimedOut, kernel.run, [1], timeout=0.05)
        assert time.monotonic() - begun < 5

    beside(kernel, numbers, 1, late)
    interrupt = lambda: os.kill(os.getpid(), signal.SIGINT)
    beside(kernel, numbers, 2, lambda: check(is_soon(interrupt, lambda: kernel.run([1]), KeyboardInterrupt), "Ctrl-C in a run that waits"))
    assert kernel.run([1]).result == 1


def views():
    """Cells by the names of globals, in a kernel's own row, in an outcome's and in buffers of the caller."""
    kernel = Kernel(text("kernels/prefix-sum"))
    (first, second), numbers = kernel.globals, [3, 1, 4, 1, 5]
    assert (first, kernel.globals[first], second) == ("@a", range(0, 64), "@total") and kernel.globals[second].start == 64
    kernel["@a"] = numbers + [0] * 59
    count = [64] * len(kernel.arguments)
    outcome = kernel.run(count, workers=2)
    sums = [sum(numbers[:k + 1]) for k in range(64)]
    assert kernel["@a"].tolist() == sums == outcome["@a"].tolist() and outcome.cells is kernel.memory, kernel["@a"].tolist()
    view = memoryview(array.array("q", numbers + [0] * (kernel.cells - 5)))
    assert kernel.run(count, view)["@a"].tolist() == sums and view[4] == 14
    kernel["@a"][0] = 9
    assert kernel.memory[0] == 9 and kernel.share().memory[0] == 0
    raised(KeyError, kernel.__getitem__, "@b")
    raised(KeyError, kernel.__getitem__, "a")
    raised(ValueError, kernel.__setitem__, "@a", [1])
    argument, = Kernel(text("add-one")).arguments
    assert (argument.name, argument.low, argument.high) == ("%n", 0, 100)
    assert Kernel(text("fib")).frame_cells == 1


def arrays():
    """Arrays of NumPy are taken without a copy."""
    try:
        import numpy
    except ImportError:
        print(f"no NumPy for {sys.executable}: its arrays are not tried")
        return
    pair = Kernel(text("pair"))
    cells = numpy.zeros(2, dtype=numpy.int64)
    assert pair.run(numpy.array([7]), cells, workers=2).cells is cells and cells.tolist() == [7, 7]
    table = numpy.zeros((3, 2), dtype=numpy.int64)
    rows = pair.rows(numpy.array([[1], [2], [3]]), table)
    assert table.tolist() == [[1, 1], [2, 2], [3, 3]] and [list(it.cells) for it in rows] == table.tolist()
    numpy.asarray(pair["@a"])[:] = 5
    assert pair["@a"].tolist() == [5, 5]
    for wrong in (numpy.zeros(2), numpy.zeros(2, dtype=numpy.int32), numpy.zeros(4, dtype=numpy.int64)[::2], numpy.zeros(2, dtype=">i8")):
        raised(TypeError, pair.run, [7], wrong)


def pickles():
    """A kernel is sent as its text, and judged once in a process."""
    kernel, opened = Kernel(text("kernels/merge-sort")), []
    judge = Kernel.__init__
    Kernel.__init__ = lambda self, *words, **named: opened.append(1) or judge(self, *words, **named)
    sent = pickle.dumps(kernel)
    one, two = pickle.loads(sent), pickle.loads(sent)
    Kernel.__init__ = judge
    assert len(opened) == 1 and one is not two and one.run([64], one.zeros()) == two.run([64], two.zeros()) == kernel.run([64])
    one.close()
    two.run([64])


def costly():
    """A text that is dear to judge has no verdict within the effort of its own accord."""
    begun = time.monotonic()
    raised(OutOfEffort, Kernel, scattered(1_400))
    assert time.monotonic() - begun < 30


def given_out():
    """The classes and functions that the package gives out, by name."""
    things = {name: getattr(tapirvm, name) for name in tapirvm.__all__}
    return {name: it for name, it in things.items() if (inspect.isclass(it) or inspect.isfunction(it)) and it.__module__ == "tapirvm"}


def lines_of_examples():
    """How many lines of examples stand in the package's files."""
    files = pathlib.Path(tapirvm.__file__).parent.glob("*.py")
    return sum(line.lstrip().startswith(">>> ") for file in files for line in file.read_text().splitlines())


def examples():
    """Runs each example by itself, as a reader would, and answers how many lines they have. Whatever the package gives out has one, methods too, and no line
    that stands in its files is left out."""
    things = given_out()
    parts = [(name, part, value) for name, it in things.items() if inspect.isclass(it) for part, value in vars(it).items()]
    public = [*things, *(f"{name}.{part}" for name, part, value in parts if part[0] != "_" and isinstance(value, (property, type(examples))))]
    # (The package says that its classes are its own, but their methods are of its parts. So where a module is named, doctest finds no methods.)
    finder, runner, nothing = doctest.DocTestFinder(), doctest.DocTestRunner(), {}
    tests = [doctest.DocTestParser().get_doctest(tapirvm.__doc__, nothing, "tapirvm", tapirvm.__file__, 0)]
    tests += [test for name, it in things.items() for test in finder.find(it, name, module=False, globs=nothing)]
    lacking = set(public) - {test.name for test in tests if test.examples}
    assert len(public) > 30 and not lacking, lacking
    told = [runner.run(test) for test in tests]
    failed, tried, stand = sum(it.failed for it in told), sum(it.attempted for it in told), lines_of_examples()
    assert failed == 0, f"{failed} lines of the package's examples differ"
    assert tried == stand >= FEWEST_EXAMPLES, f"{tried} lines of examples were tried, and {stand} stand in the package"
    return tried


def cases():
    """The kernels of all cases of the hosts in C, with their arguments and cells to begin from."""
    opened = {}
    for words in map(str.split, all_cases()):
        path, count, numbers = words[0], int(words[1]), list(map(int, words[2:]))
        kernel = opened.setdefault(path, Kernel(open(path, "rb").read()))
        cells = kernel.zeros()
        cells[:len(numbers) - count - 1] = array.array("q", numbers[count + 1:])
        yield kernel, numbers[:count], cells


def came_to(kernel, arguments, cells, workers):
    """What a run comes to, with its cells, which may be those of the start."""
    row = array.array("q", cells)
    try:
        outcome = kernel.run(arguments, row, workers=workers)
    except tapirvm.TapirError as error:
        outcome = str(error)
    return outcome, row


def soak(minutes):
    """Runs of all cases on 2 to 64 threads for so long, each compared with the serial run."""
    end, draw, runs = time.monotonic() + 60 * minutes, random.Random(1), 0
    rows = [(it, came_to(*it, 1)) for it in cases()]
    while time.monotonic() < end:
        case, wanted = draw.choice(rows)
        workers = draw.randint(2, 64)
        assert came_to(*case, workers) == wanted, (case, workers)
        runs += 1
    print(f"{runs} runs on threads from Python")


TESTS = [serial_runs, refusals, threads, in_steps, stops, wrong_values, in_use, waiting, views, arrays, pickles, costly]


def main():
    asked = parser(__doc__)
    asked.add_argument("--soak", type=float, metavar="MINUTES", help="only runs on 2 to 64 threads, for so long")
    minutes = asked.parse_args().soak
    if minutes:
        return soak(minutes)
    for test in TESTS:
        test()
    tried = examples()
    print(f"{len(TESTS)} tests and {tried} lines of examples of the package for Python, with version {tapirvm.version()}")


if __name__ == "__main__":
    main()
