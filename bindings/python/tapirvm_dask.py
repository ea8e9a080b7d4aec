"""A batch of runs over a cluster, by `dask.distributed`.

A kernel is sent as its text. Each process judges it once and keeps it. A run has one answer on every machine, so a piece whose worker dies is done again
by another one, to the same answer: that costs time alone. Each machine needs the package `tapirvm` and its shared library."""
from __future__ import annotations

import array
import sys
from typing import Any, Iterator, List, Tuple, Union

from distributed import Client, as_completed

from tapirvm import FUEL, Kernel, Numbers, OtherCells, Outcome, TapirError
from tapirvm._values import flat, read, table, written

__all__ = ["map_rows"]

#: Each thread of the cluster gets some so many pieces, so that none waits long for the last one.
_PIECES_EACH = 8

#: A piece has at most so many bytes, or one row.
_MOST_BYTES = 1 << 22

#: The bar is so many characters long.
_BAR = 40

#: What a row came to: result, instructions and peak, or why it has none.
_Said = Union[Tuple[int, int, int], TapirError]


def _piece(kernel: Kernel, arguments: bytes, each: int, cells: bytes, count: int, fuel: int | None) -> tuple[List[_Said], bytes]:
    """Runs some rows, on a worker: what each came to, and the cells of all of them."""
    given, row = array.array("q", arguments), array.array("q", cells)
    said = kernel.rows([given[k * each : (k + 1) * each] for k in range(count)], row, fuel=fuel)
    return [(it.result, it.instructions, it.peak) if isinstance(it, Outcome) else it for it in said], row.tobytes()


def _pieces(client: Client, count: int, row_bytes: int) -> list[range]:
    """The rows of each piece."""
    threads = sum(client.nthreads().values()) or 1
    size = max(1, min(-(-count // (_PIECES_EACH * threads)), _MOST_BYTES // (row_bytes + 1)))
    return [range(at, min(at + size, count)) for at in range(0, count, size)]


def _shown(ended: Iterator[Any], sizes: dict[str, int], progress: bool) -> Iterator[Any]:
    """The pieces as they end, with a bar on standard error that counts rows."""
    done, total = 0, sum(sizes.values())
    for future in ended:
        yield future
        done += sizes[future.key]
        if progress:
            full = _BAR * done // total
            print(f"\r[{'#' * full}{' ' * (_BAR - full)}] {done} of {total} rows", end="\n" if done == total else "", file=sys.stderr, flush=True)


def map_rows(client: Client, kernel: Kernel, arguments: Any, cells: Numbers, *, fuel: int | None = FUEL, progress: bool = True) -> list[Outcome | TapirError]:
    """Runs a kernel once for each row on the workers of a cluster, and gives what `Kernel.rows` gives, in the order of the rows: an Outcome for each, or
    the exception of the row that was refused or ran out of fuel. `arguments` and `cells` are as there; the cells are written once all rows have ended.
    `progress` shows a bar on standard error.

    >>> from distributed import Client, LocalCluster
    >>> from tapirvm import EXAMPLE, Kernel
    >>> from tapirvm_dask import map_rows
    >>> with LocalCluster(n_workers=1, processes=False, dashboard_address=None) as cluster, Client(cluster) as client:
    ...     outcomes = map_rows(client, Kernel(EXAMPLE), [[1], [2], [3]], [0, 0, 0], progress=False)
    >>> [(it.result, it.cells.tolist()) for it in outcomes]
    [(1, [1]), (2, [2]), (3, [3])]
    """
    numbers, each, count = table(arguments)
    row, kept = written(cells, read(numbers))
    if row.count != count * kernel.cells:
        raise OtherCells(f"{count} rows of {kernel.cells} cells have {count * kernel.cells} cells, not {row.count}")
    view, own = flat(kept), kernel.cells
    pieces = _pieces(client, count, 8 * (each + own))
    futures = []
    for it in pieces:
        parts = numbers[it.start * each : it.stop * each].tobytes(), each, view[it.start * own : it.stop * own].tobytes(), len(it), fuel
        futures.append(client.submit(_piece, kernel, *parts, pure=False))
    sizes = {future.key: len(it) for future, it in zip(futures, pieces)}
    try:
        said = {future.key: future.result() for future in _shown(as_completed(futures), sizes, progress)}
    except BaseException:
        client.cancel(futures)
        raise
    return [it for future, piece in zip(futures, pieces) for it in _answers(kernel, view, piece, *said[future.key])]


def _answers(kernel: Kernel, view: memoryview, piece: range, said: List[_Said], ends: bytes) -> Iterator[Outcome | TapirError]:
    """The answers of a piece, whose cells are written."""
    own = kernel.cells
    view[piece.start * own : piece.stop * own] = memoryview(array.array("q", ends))
    for k, it in zip(piece, said):
        yield it if isinstance(it, TapirError) else Outcome(*it, view[k * own : (k + 1) * own], kernel.globals)
