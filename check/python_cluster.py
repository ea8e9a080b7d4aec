#!/usr/bin/env python3
"""A batch over a cluster of four processes, one of which is killed in the middle: the answers are to be those of one machine. It needs `distributed`, and
what check/python_calls.py does."""
import array
import contextlib
import doctest
import io
import os
import re
import signal
import sys
import warnings
from common import EXAMPLES, TOP, parser

sys.path.append(str(TOP / "bindings/python"))
os.environ["PYTHONPATH"] = os.pathsep.join([str(TOP / "bindings/python"), os.environ.get("PYTHONPATH", "")])
warnings.filterwarnings("ignore")
from distributed import Client, LocalCluster, as_completed
import tapirvm_dask
from tapirvm import BadArguments, Kernel, OutOfFuel, Outcome

PROCESSES, KILLED_AFTER = 4, 5


def plain(outcome):
    """What an outcome or an exception comes to."""
    return (outcome.result, outcome.instructions, outcome.peak, bytes(outcome.cells)) if isinstance(outcome, Outcome) else (type(outcome), str(outcome))


def killing(pid, killed):
    """As `as_completed`, and kills a process when some pieces have ended: it loses what it does, and all that nobody has fetched from it."""
    def ended(futures):
        for number, future in enumerate(as_completed(futures)):
            if number == KILLED_AFTER:
                os.kill(pid, signal.SIGKILL)
                killed.append(pid)
            yield future
    return ended


def is_a_bar(shown, count):
    """Whether what was shown is a bar that grows, counts rows and is full in the end."""
    bars = [(bar, int(done), int(of)) for bar, done, of in re.findall(r"\r\[(#* *)\] (\d+) of (\d+) rows", shown)]
    done = [it for _, it, _ in bars]
    full = "#" * tapirvm_dask._BAR
    grows = len(done) > KILLED_AFTER and done == sorted(done) and all(len(bar) == len(full) and of == count for bar, _, of in bars)
    return grows and bars[0][0] != full and bars[-1] == (full, count, count)


def main():
    asked = parser(__doc__)
    asked.add_argument("rows", nargs="?", type=int, default=100_000, metavar="ROWS", help="how many rows there are (100,000)")
    count = asked.parse_args().rows
    kernel = Kernel((EXAMPLES / "kernels/queens.ll").read_bytes())
    # (Of boards from 0 to 6: there is none of 0, and for one of 6 there is too little fuel.)
    arguments = [[k % 7] for k in range(count)]
    begin = array.array("q", (k * k % 1009 for k in range(count * kernel.cells)))
    here, there = array.array("q", begin), array.array("q", begin)
    fuel = kernel.run([5]).instructions
    wanted = kernel.rows(arguments, here, fuel=fuel)
    killed, shown = [], io.StringIO()
    with LocalCluster(n_workers=PROCESSES, threads_per_worker=1, dashboard_address=None, silence_logs=50) as cluster, Client(cluster) as client:
        tapirvm_dask.as_completed = killing(next(iter(client.run(os.getpid).values())), killed)
        with contextlib.redirect_stderr(shown):
            found = tapirvm_dask.map_rows(client, kernel, arguments, there, fuel=fuel, progress=True)
        tapirvm_dask.as_completed = as_completed
    kinds = [sum(isinstance(it, kind) for it in found) for kind in (Outcome, BadArguments, OutOfFuel)]
    if not killed or here != there or min(kinds) == 0 or list(map(plain, wanted)) != list(map(plain, found)):
        sys.exit(f"the cluster answers otherwise: {kinds}")
    if not is_a_bar(shown.getvalue(), count):
        sys.exit(f"the bar shows otherwise: {shown.getvalue()!r}")
    told = doctest.testmod(tapirvm_dask)
    if told.failed or not told.attempted:
        sys.exit("the module's example differs, or is not found")
    print(f"{count} rows on {PROCESSES} processes, of which one was killed: {kinds[0]} answers, {kinds[1]} refused, {kinds[2]} out of fuel, as on one machine; "
          "the bar counts them")


if __name__ == "__main__":
    main()
