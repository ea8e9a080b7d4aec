#!/usr/bin/env python3
"""Counts the low digits of ten million numbers with a verified kernel, slice by slice, on a pool of threads: example.py [NUMBERS [THREADS]]

Each thread has a kernel of its own over the one module that was judged. During a run Python's lock is free, so slices are counted at the same time."""
import array
import concurrent.futures
import os
import random
import sys
import threading
import time

from tapirvm import Kernel, Refused

SLICE, BINS = 65536, 16

TEXT = f"""
@in = global [{SLICE} x i64] zeroinitializer
@bins = global [{BINS} x i64] zeroinitializer

define i64 @main(i64 %n) {{
  ;! requires %n >= 0
  ;! requires %n <= {SLICE}
  ;! reads @in 0 {SLICE}
  ;! writes @bins 0 {BINS}
  ;! budget 0 {11 * SLICE + 5}
entry:
  ;! left 0 11*%n+5
  store [{BINS} x i64] zeroinitializer, ptr @bins
  br label %head
head:
  ;! keeps %j >= 0
  ;! keeps %j <= %n
  ;! keeps %n <= {SLICE}
  ;! left 0 11*%n-11*%j+3
  %j = phi i64 [ 0, %entry ], [ %k, %body ]
  %more = icmp slt i64 %j, %n
  br i1 %more, label %body, label %done
body:
  ;! keeps %j >= 0
  ;! keeps %j+1 <= %n
  ;! keeps %n <= {SLICE}
  ;! left 0 11*%n-11*%j+1
  %p = getelementptr inbounds i64, ptr @in, i64 %j
  %x = load i64, ptr %p
  %b = and i64 %x, {BINS - 1}
  %q = getelementptr inbounds i64, ptr @bins, i64 %b
  %old = load i64, ptr %q
  %new = add i64 %old, 1
  store i64 %new, ptr %q
  %k = add nsw i64 %j, 1
  br label %head
done:
  ;! left 0 1
  ret i64 0
}}
"""


def counted(kernel, numbers):
    """How many of the numbers have each low digit."""
    cells = array.array("q", numbers)
    cells.extend([0] * (SLICE - len(numbers) + BINS))
    return kernel.run([len(numbers)], cells).cells[SLICE:]


def main():
    count = int(sys.argv[1]) if len(sys.argv) > 1 else 10_000_000
    threads = int(sys.argv[2]) if len(sys.argv) > 2 else os.cpu_count()
    drawn = random.Random(1)
    numbers = array.array("q", drawn.randbytes(8 * count))
    slices = [numbers[at:at + SLICE] for at in range(0, count, SLICE)]
    try:
        first = Kernel(TEXT)
    except Refused as refused:
        sys.exit(str(refused))
    own = threading.local()

    def count_slice(numbers):
        if not hasattr(own, "kernel"):
            own.kernel = first.share()
        return counted(own.kernel, numbers)

    start = time.time()
    totals = [0] * BINS
    with concurrent.futures.ThreadPoolExecutor(threads) as pool:
        for bins in pool.map(count_slice, slices):
            totals = [a + b for a, b in zip(totals, bins)]
    took = time.time() - start
    wanted = [0] * BINS
    for value in numbers:
        wanted[value % BINS] += 1
    print(" ".join(map(str, totals)))
    print(f"{count} numbers, {threads} threads: {took:.2f} s", file=sys.stderr)
    if totals != wanted:
        sys.exit(f"wanted {wanted}")


if __name__ == "__main__":
    main()
