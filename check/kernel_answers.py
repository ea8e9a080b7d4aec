#!/usr/bin/env python3
"""The answers of examples/kernels, computed without the machine. Prints kernels.txt, a block for each run.

A block is the module's file, `arg V` for each argument, `set @a V V ..` for cells from 0 on, `result V`, and `show @a V V ..` for
the cells that the run leaves, from 0 on."""
import zlib
from common import parser


def wrapped(x):
    return (x + 2**63) % 2**64 - 2**63


def mixed(count, factor, least, most):
    return [least + (k * k * factor + k * 7 + 3) % (most - least + 1) for k in range(count)]


def block(file, args, cells, result, shown):
    lines = [file] + [f"arg {a}" for a in args]
    lines += [f"set @{name} " + " ".join(map(str, values)) for name, values in cells]
    lines += [f"result {wrapped(result)}"]
    lines += [f"show @{name} " + " ".join(str(wrapped(v)) for v in values) for name, values in shown]
    return "\n".join(lines) + "\n"


def bitonic_sort():
    for cells in (mixed(1024, 19, -3000, 3000), [(k >> 3) & 1 for k in range(1024)], [2**63 - 1, 5, -2**63]):
        ordered = sorted(cells + [0] * (1024 - len(cells)))
        yield block("bitonic-sort.ll", [], [("a", cells)], ordered[0], [("a", ordered)])


def breadth_first():
    grid = [[u for u in (v - 8, v + 8) if 0 <= u < 64] + [u for u in (v - 1, v + 1) if u // 8 == v // 8] for v in range(64)]
    spread = [sorted({(v * v + 7) % 1024, (3 * v + 1) % 1024, v ^ 512}) for v in range(1024)]
    for nodes in (grid, spread, [[v + 1] for v in range(20)]):
        distance = [0] + [-1] * 1023
        line = [0]
        for v in line:
            fresh = [u for u in (nodes[v] if v < len(nodes) else []) if distance[u] < 0]
            for u in fresh:
                distance[u] = distance[v] + 1
            line += fresh
        first = [sum(map(len, nodes[:v])) for v in range(len(nodes) + 1)]
        yield block("breadth-first.ll", [], [("first", first), ("edges", sum(nodes, []))], max(distance), [("distance", distance)])


def turn(a, b, c):
    """Above 0 where the way from a by b to c turns left, and 0 where it is straight."""
    return (b[0] - a[0]) * (c[1] - a[1]) - (b[1] - a[1]) * (c[0] - a[0])


def corners(edge, sign):
    """The lines at which an edge, a cell for each line that has one, has a corner: between no line above it and one below is it on their straight
    line, or within."""
    def is_corner(y):
        above, below = [(edge[a], a) for a in edge if a < y], [(edge[b], b) for b in edge if b > y]
        return all(sign * turn(a, (edge[y], y), b) < 0 for a in above for b in below)
    return [y for y in sorted(edge) if is_corner(y)]


def convex_hull():
    disc = {(x, y) for x in range(64) for y in range(25) if (x - 30)**2 + 3 * (y - 12)**2 <= 400}
    spots = {(3, 0), (60, 2), (31, 9), (9, 11), (40, 11), (50, 17), (20, 21), (21, 21)}
    for image in (disc, spots, {(x, 5) for x in range(7, 12)}, set()):
        lines = {y for _, y in image}
        first, last = ({y: end(x for x, line in image if line == y) for y in lines} for end in (min, max))
        left, right = corners(first, 1), corners(last, -1)
        ring = [(first[y], y) for y in reversed(left)] + [(last[y], y) for y in right]
        area = sum(a[0] * b[1] - a[1] * b[0] for a, b in zip(ring, ring[1:] + ring[:1]))
        cells = [1 if (k % 64, k // 64) in image else 0 for k in range(64 * max(lines, default=0) + 64)]
        shown = [("left", left), ("right", right), ("corners", [len(left), len(right)])]
        yield block("convex-hull.ll", [], [("image", cells)], area, [(name, values) for name, values in shown if values])


def crc():
    for text in (bytes(range(64)), b"The quick brown fox jumps over the lazy dog; then it sleeps well", bytes(64)):
        sums = [zlib.crc32(text[k:k + 8]) for k in range(0, 64, 8)]
        yield block("crc.ll", [], [("in", text)], sums[0], [("out", sums)])


def dot():
    for x, y in ((mixed(64, 13, -50, 50), mixed(64, 29, -9, 90)), (mixed(64, 5, 2**61, 2**61 + 99), mixed(64, 3, -5, 5))):
        yield block("dot.ll", [], [("x", x), ("y", y)], sum(a * b for a, b in zip(x, y)), [])


def game_of_life():
    glider, pentomino = {(1, 2), (2, 3), (3, 1), (3, 2), (3, 3)}, {(30, 31), (30, 32), (31, 30), (31, 31), (32, 31)}
    for t, alive, shown in ((2, glider, 512), (6, pentomino, 4096), (0, pentomino, 2560), (3, {(0, k) for k in range(63)}, 512)):
        cells = [1 if divmod(k, 64) in alive else 0 for k in range(64 * max(alive)[0] + 64)]
        for _ in range(2 * t):
            near = [((r + i) % 64, (c + j) % 64) for r, c in alive for i in (-1, 0, 1) for j in (-1, 0, 1) if i or j]
            counts = {at: near.count(at) for at in set(near)}
            alive = {at for at, count in counts.items() if count == 3 or count == 2 and at in alive}
        yield block("game-of-life.ll", [t], [("now", cells)], len(alive), [("now", [1 if divmod(k, 64) in alive else 0 for k in range(shown)])])


def histogram():
    for cells in (mixed(64, 11, 0, 999), mixed(64, 31, -500, 500), [5] * 64):
        bins = [sum(1 for c in cells if c % 16 == b) for b in range(16)]
        yield block("histogram.ll", [], [("in", cells), ("bins", [9])], bins[0], [("bins", bins)])


def triangles(a, prime):
    """The lower triangle (its diagonal is 1) and the upper one whose product is the matrix of 8 rows, in one; None where there are none."""
    both = [[0] * 8 for _ in range(8)]
    for r in range(8):
        for c in range(8):
            rest = (a[r][c] - sum(both[r][k] * both[k][c] for k in range(min(r, c)))) % prime
            if c < r and both[c][c] == 0 or c == r and rest == 0:
                return None
            both[r][c] = rest * pow(both[c][c], -1, prime) % prime if c < r else rest
    return both


def lu_modulo():
    powers = [[[pow(r + m + 2, c + 3, 1_000_003) for c in range(8)] for r in range(8)] for m in range(9)]
    cauchy = [[pow(r + c + 1, -1, 1_000_003) for c in range(8)] for r in range(8)]
    swapped = [[1 if c == r ^ 1 else 0 for c in range(8)] for r in range(8)]
    for given in ([cauchy, *powers, swapped], [[[1] * 8] * 8], [[[(c >= r) + m for c in range(8)] for r in range(8)] for m in range(64)]):
        found = [triangles(a, 1_000_003) for a in given]
        good = [0 if both is None else 1 for both in found] + [0] * (64 - len(given))
        shown = [row for both in found[:good.index(0) if 0 in good else 64] for row in both]
        ends = [("good", good)] + ([("a", sum(shown, []))] if shown else [])
        yield block("lu-modulo.ll", [], [("a", sum(sum(given, []), []))], sum(good), ends)


def matrix_product():
    one = [1 if k % 9 == 0 else 0 for k in range(64)]
    for a, b in ((mixed(64, 17, -20, 20), mixed(64, 23, -9, 30)), (mixed(64, 7, 0, 99), one)):
        c = [sum(a[8 * r + k] * b[8 * k + j] for k in range(8)) for r in range(8) for j in range(8)]
        yield block("matrix-product.ll", [], [("a", a), ("b", b)], c[63], [("c", c)])


def merge_sort():
    for n, cells in ((64, mixed(64, 19, -300, 300)), (37, mixed(64, 41, -30, 30)), (1, [4, 2]), (0, [4, 2])):
        cells = cells + [0] * (64 - len(cells))
        yield block("merge-sort.ll", [n], [("a", cells)], n, [("a", sorted(cells[:n]) + cells[n:])])


def prefix_sum():
    for cells in (mixed(64, 13, -40, 60), [2**62] * 64, [1] * 64):
        sums = [sum(cells[:k + 1]) for k in range(64)]
        yield block("prefix-sum.ll", [], [("a", cells)], sums[63], [("a", sums)])


def placed(n, row, columns, up, down):
    if row == n:
        return 1
    free = [c for c in range(n) if c not in columns and row + c not in up and row - c not in down]
    return sum(placed(n, row + 1, columns | {c}, up | {row + c}, down | {row - c}) for c in free)


def queens():
    for n in (1, 3, 4, 6):
        yield block("queens.ll", [n], [], placed(n, 0, frozenset(), frozenset(), frozenset()), [])


def range_squares():
    for lo, hi in ((0, 64), (5, 30), (7, 8), (20, 20)):
        squares = [k * k if lo <= k < hi else 0 for k in range(64)]
        yield block("range.ll", [lo, hi], [], hi - lo, [("a", squares)])


def sieve():
    hits = [sum(1 for step in range(2, 8) if k >= 2 * step and k % step == 0) for k in range(64)]
    primes = sum(1 for k in range(2, 64) if all(k % d for d in range(2, k)))
    yield block("sieve.ll", [], [("hits", [3, 3, 3])], primes, [("hits", hits)])


def stencil():
    for t, cells in ((0, mixed(64, 9, 0, 9)), (1, mixed(64, 9, 0, 9)), (4, mixed(64, 27, -9, 9))):
        now, other = cells, [0] * 64
        for _ in range(2 * t):
            now, other = [now[0]] + [now[i - 1] + 2 * now[i] + now[i + 1] for i in range(1, 63)] + [now[63]], now
        yield block("stencil.ll", [t], [("a", cells)], now[32], [("a", now), ("b", other)])


def string_match():
    told = b"A place of the pattern may begin before the end of the last one: aaaa holds aa three times, and the text the twice or more. "
    for text, pattern in ((told * 8, b"the"), (told, b"aa"), (b"ab" * 300 + b"a", b"ab" * 7 + b"a"), (b"no", b"nobody"), (told, b"e")):
        places = [k for k in range(len(text)) if text[k:k + len(pattern)] == pattern]
        cells = [("text", text), ("pattern", pattern)]
        yield block("string-match.ll", [len(text), len(pattern)], cells, len(places), [("places", places)] if places else [])


def tree_sum():
    for cells in (mixed(64, 13, -40, 60), [2**60] * 64):
        yield block("tree-sum.ll", [], [("a", cells)], sum(cells), [])


def two_phases():
    for n, cells in ((64, mixed(64, 13, -40, 60)), (10, mixed(64, 3, 0, 9)), (0, [1] * 64)):
        sums = [sum(cells[k] for k in range(n) if k % 4 == r) for r in range(4)]
        total = sum(s * s for s in sums)
        yield block("two-phases.ll", [n], [("a", cells), ("total", [77])], total, [("sums", sums), ("total", [total])])


def answers():
    """The text of kernels.txt."""
    kernels = (bitonic_sort, breadth_first, convex_hull, crc, dot, game_of_life, histogram, lu_modulo, matrix_product, merge_sort, prefix_sum, queens,
               range_squares, sieve, stencil, string_match, tree_sum, two_phases)
    return "".join(it + "\n" for kernel in kernels for it in kernel())


def main():
    parser(__doc__).parse_args()
    print(answers(), end="")


if __name__ == "__main__":
    main()
