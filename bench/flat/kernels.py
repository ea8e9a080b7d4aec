"""Modules that both the machine and the flat interpreter run, with what each returns: seven kernels, each done as often as @main's argument says."""

import collections, itertools

CELLS, SMALL, SORTED = 1024, 256, 128


def loop(name, count, body, calls, zones="", parameters="", start="0"):
    """A function of one loop, in which `body` has %i, from 0 up to `count`, and %sum, of which it makes %next; and its cost. `calls` is what
    the calls of the body cost besides themselves."""
    each = body.count("\n") + calls + 3
    budget = each * count + 2
    return f"""define i64 @{name}({parameters}) {{
{zones};! budget 0 {budget}
entry:
;! left 0 {budget}
br label %head
head:
;! keeps %i >= 0
;! keeps %i <= {count - 1}
;! left 0 {each * count + 1}-{each}*%i
%i = phi i64 [ 0, %entry ], [ %k, %head ]
%sum = phi i64 [ {start}, %entry ], [ %next, %head ]
{body}%k = add nsw i64 %i, 1
%c = icmp slt i64 %k, {count}
br i1 %c, label %head, label %out
out:
;! left 0 1
ret i64 %next
}}
""", budget


def main(body, calls, zones, most=1000):
    """@main(n): the body n times."""
    each = body.count("\n") + calls + 3
    return f"""define i64 @main(i64 %n) {{
;! requires %n >= 1
;! requires %n <= {most}
{zones};! budget 0 {each * most + 2}
entry:
;! left 0 {each}*%n+2
br label %head
head:
;! keeps %i >= 0
;! keeps %i+1 <= %n
;! keeps %n <= {most}
;! left 0 {each}*%n-{each}*%i+1
%i = phi i64 [ 0, %entry ], [ %k, %head ]
%sum = phi i64 [ 0, %entry ], [ %next, %head ]
{body}%k = add nsw i64 %i, 1
%c = icmp slt i64 %k, %n
br i1 %c, label %head, label %out
out:
;! left 0 1
ret i64 %next
}}
"""


def cell(name, array, index):
    """The address of a cell; the mask shows that it is there. 2 instructions."""
    return f"%{name}.i = and i64 {index}, {CELLS - 1}\n%{name}.p = getelementptr inbounds i64, ptr @{array}, i64 %{name}.i\n"


def global_(name):
    return f"@{name} = global [{CELLS} x i64] zeroinitializer\n"


def zones(*lines):
    return "".join(f";! {mode} @{name} 0 {CELLS}\n" for mode, name in lines)


def fill(array):
    """Fills the array with numbers from a linear congruential generator."""
    body = "%m = mul i64 %sum, 6364136223846793005\n%next = add i64 %m, 1442695040888963407\n%x = lshr i64 %next, 40\n"
    return loop(f"fill.{array}", CELLS, body + cell("t", array, "%i") + "store i64 %x, ptr %t.p\n", 0, zones(("writes", array)), "i64 %seed", "%seed")


def matrix():
    fill_a, cost_a = fill("a")
    fill_b, cost_b = fill("b")
    body = ("%r = add i64 %row, %i\n" + cell("x", "a", "%r") + "%s = mul i64 %i, 32\n%q = add i64 %s, %column\n" + cell("y", "b", "%q")
            + "%x = load i64, ptr %x.p\n%y = load i64, ptr %y.p\n%z = mul i64 %x, %y\n%next = add i64 %sum, %z\n")
    dot, cost = loop("dot", 32, body, 0, zones(("reads", "a"), ("reads", "b")), "i64 %row, i64 %column")
    body = "%row = and i64 %i, 992\n%column = and i64 %i, 31\n%d = call i64 @dot(i64 %row, i64 %column)\n" + cell("t", "c", "%i") + "store i64 %d, ptr %t.p\n%x = xor i64 %sum, %d\n%next = add i64 %x, %i\n"
    product, each = loop("product", CELLS, body, cost, zones(("reads", "a"), ("reads", "b"), ("writes", "c")))
    body = "%u = call i64 @fill.a(i64 %i)\n%v = call i64 @fill.b(i64 %u)\n%p = call i64 @product()\n%next = add i64 %sum, %p\n"
    text = global_("a") + global_("b") + global_("c") + fill_a + fill_b + dot + product
    return text + main(body, cost_a + cost_b + each, zones(("reads", "a"), ("reads", "b"), ("writes", "a"), ("writes", "b"), ("writes", "c")))


def matrix_result(n):
    total = 0
    for i in range(n):
        u, a = filled(i)
        _, b = filled(u)
        total += folded([sum(a[32 * r + k] * b[32 * k + c] for k in range(32)) for r in range(32) for c in range(32)])
    return total


def folded(numbers):
    value = 0
    for i, number in enumerate(numbers):
        value = (value ^ (number & MASK)) + i & MASK
    return value

MASK = 2 ** 64 - 1


def filled(seed):
    numbers = []
    for _ in range(CELLS):
        seed = seed * 6364136223846793005 + 1442695040888963407 & MASK
        numbers.append(seed >> 40)
    return seed, numbers


def sieve():
    clear, cost_clear = loop("clear", SMALL, cell("t", "a", "%i") + "store i64 0, ptr %t.p\n%next = add i64 %sum, 0\n", 0, zones(("writes", "a")))
    each = 6
    strike = f"""define i64 @strike(i64 %p) {{
;! requires %p >= 2
;! requires %p <= {SMALL - 1}
{zones(("writes", "a"))};! budget 0 {each * SMALL + 3}
entry:
;! left 0 {each * SMALL + 3}
br label %head
head:
;! keeps %j >= 0
;! keeps %j <= {SMALL - 1}
;! keeps %p >= 2
;! keeps %p <= {SMALL - 1}
;! left 0 {each * SMALL + 1}-{each}*%j
%j = phi i64 [ %p, %entry ], [ %k, %head ]
%t = getelementptr inbounds i64, ptr @a, i64 %j
store i64 1, ptr %t
;! shows %j+%p >= 0
%k = add nsw i64 %j, %p
%c = icmp slt i64 %k, {SMALL}
br i1 %c, label %head, label %out
out:
;! left 0 1
ret i64 1
}}
"""
    cost = each * SMALL + 3
    steps = cost + 13
    primes = f"""define i64 @primes() {{
{zones(("reads", "a"), ("writes", "a"))};! budget 0 {steps * SMALL}
entry:
;! left 0 {steps * SMALL}
br label %head
head:
;! keeps %i >= 2
;! keeps %i <= {SMALL - 1}
;! left 0 {steps * SMALL - 2}-{steps}*%i
%i = phi i64 [ 2, %entry ], [ %k, %after ]
%sum = phi i64 [ 0, %entry ], [ %next, %after ]
%t = getelementptr inbounds i64, ptr @a, i64 %i
%x = load i64, ptr %t
%z = icmp eq i64 %x, 0
br i1 %z, label %prime, label %after
prime:
;! keeps %i >= 2
;! keeps %i <= {SMALL - 1}
;! left 0 {steps * SMALL - 6}-{steps}*%i
%one = call i64 @strike(i64 %i)
br label %after
after:
;! keeps %i >= 2
;! keeps %i <= {SMALL - 1}
;! left 0 {steps * SMALL - 8 - cost}-{steps}*%i
%more = phi i64 [ 0, %head ], [ %one, %prime ]
%next = add i64 %sum, %more
%k = add nsw i64 %i, 1
%c = icmp slt i64 %k, {SMALL}
br i1 %c, label %head, label %out
out:
;! left 0 1
ret i64 %next
}}
"""
    body = "%u = call i64 @clear()\n%p = call i64 @primes()\n%next = add i64 %sum, %p\n"
    return global_("a") + clear + strike + primes + main(body, cost_clear + steps * SMALL, zones(("reads", "a"), ("writes", "a")))


def sieve_result(n):
    return n * sum(all(p % d for d in range(2, p)) for p in range(2, SMALL))


def sort():
    fill_a, cost_fill = fill("a")
    last = SORTED - 1
    each = 14
    cost = each * last + 2
    sweep = f"""define i64 @sweep() {{
{zones(("reads", "a"), ("writes", "a"))};! budget 0 {cost}
entry:
;! left 0 {cost}
br label %head
head:
;! keeps %i >= 0
;! keeps %i <= {last - 1}
;! left 0 {each * last + 1}-{each}*%i
%i = phi i64 [ 0, %entry ], [ %k, %next ]
%k = add nsw i64 %i, 1
%p = getelementptr inbounds i64, ptr @a, i64 %i
%q = getelementptr inbounds i64, ptr @a, i64 %k
%x = load i64, ptr %p
%y = load i64, ptr %q
%g = icmp sgt i64 %x, %y
br i1 %g, label %swap, label %next
swap:
;! keeps %i >= 0
;! keeps %i <= {last - 1}
;! keeps %k >= 0
;! keeps %k <= {last}
;! keeps %k <= %i+1
;! keeps %k >= %i+1
;! left 0 {each * last - 6}-{each}*%i
%r = getelementptr inbounds i64, ptr @a, i64 %i
%s = getelementptr inbounds i64, ptr @a, i64 %k
store i64 %y, ptr %r
store i64 %x, ptr %s
br label %next
next:
;! keeps %k >= 0
;! keeps %k <= {last}
;! keeps %k <= %i+1
;! keeps %k >= %i+1
;! left 0 {each * last - 11}-{each}*%i
%c = icmp slt i64 %k, {last}
br i1 %c, label %head, label %out
out:
;! left 0 1
ret i64 0
}}
"""
    sweeps, cost_sweeps = loop("sweeps", last, "%z = call i64 @sweep()\n%next = add i64 %sum, %z\n", cost, zones(("reads", "a"), ("writes", "a")))
    fold, cost_fold = loop("fold", SORTED, cell("t", "a", "%i") + "%x = load i64, ptr %t.p\n%y = xor i64 %sum, %x\n%next = add i64 %y, %i\n", 0, zones(("reads", "a")))
    body = "%u = call i64 @fill.a(i64 %i)\n%v = call i64 @sweeps()\n%f = call i64 @fold()\n%next = add i64 %sum, %f\n"
    return global_("a") + fill_a + sweep + sweeps + fold + main(body, cost_fill + cost_sweeps + cost_fold, zones(("reads", "a"), ("writes", "a")))


def sort_result(n):
    return sum(folded(sorted(filled(i)[1][:SORTED])) for i in range(n))


def crc():
    fill_a, cost_fill = fill("a")
    word, cost_word = loop("word", 64, "%b = and i64 %sum, 1\n%m = sub i64 0, %b\n%h = lshr i64 %sum, 1\n%x = and i64 %m, 3988292384\n%next = xor i64 %h, %x\n", 0, "", "i64 %word", "%word")
    body = cell("t", "a", "%i") + "%x = load i64, ptr %t.p\n%y = xor i64 %sum, %x\n%next = call i64 @word(i64 %y)\n"
    check, cost_check = loop("check", CELLS, body, cost_word, zones(("reads", "a")))
    body = "%u = call i64 @fill.a(i64 %i)\n%v = call i64 @check()\n%next = add i64 %sum, %v\n"
    return global_("a") + fill_a + word + check + main(body, cost_fill + cost_check, zones(("reads", "a"), ("writes", "a")))


def crc_result(n):
    total = 0
    for i in range(n):
        value = 0
        for number in filled(i)[1]:
            value ^= number
            for _ in range(64):
                value = value >> 1 ^ (3988292384 if value & 1 else 0)
        total += value
    return total


def stencil():
    fill_a, cost_fill = fill("a")
    def sweep(name, source, target):
        body = ("%left = add i64 %i, 1023\n%right = add i64 %i, 1\n" + cell("l", source, "%left") + cell("m", source, "%i") + cell("r", source, "%right")
                + "%x = load i64, ptr %l.p\n%y = load i64, ptr %m.p\n%z = load i64, ptr %r.p\n%s = add i64 %x, %z\n%d = lshr i64 %s, 1\n%t = add i64 %d, %y\n%h = lshr i64 %t, 1\n"
                + cell("w", target, "%i") + "store i64 %h, ptr %w.p\n%u = xor i64 %sum, %h\n%next = add i64 %u, %i\n")
        return loop(name, CELLS, body, 0, zones(("reads", source), ("writes", target)))
    forth, cost = sweep("forth", "a", "b")
    back, _ = sweep("back", "b", "a")
    body = "%x = call i64 @forth()\n%y = call i64 @back()\n%next = xor i64 %sum, %y\n"
    both, cost_both = loop("both", 10, body, 2 * cost, zones(("reads", "a"), ("writes", "a"), ("reads", "b"), ("writes", "b")))
    body = "%u = call i64 @fill.a(i64 %i)\n%v = call i64 @both()\n%next = add i64 %sum, %v\n"
    text = global_("a") + global_("b") + fill_a + forth + back + both
    return text + main(body, cost_fill + cost_both, zones(("reads", "a"), ("writes", "a"), ("reads", "b"), ("writes", "b")))


def smoothed(a):
    return [(((a[i - 1] + a[(i + 1) % CELLS]) >> 1) + a[i]) >> 1 for i in range(CELLS)]


def stencil_result(n):
    total = 0
    for i in range(n):
        a, value = filled(i)[1], 0
        for _ in range(10):
            a = smoothed(smoothed(a))
            value ^= folded(a)
        total += value
    return total


def fold(array):
    return loop(f"fold.{array}", CELLS, cell("t", array, "%i") + "%x = load i64, ptr %t.p\n%y = xor i64 %sum, %x\n%next = add i64 %y, %i\n", 0, zones(("reads", array)))


def prefix():
    fill_a, cost_fill = fill("a")
    body = cell("t", "a", "%i") + "%x = load i64, ptr %t.p\n%next = add i64 %sum, %x\n" + cell("w", "b", "%i") + "store i64 %next, ptr %w.p\n"
    sums, cost = loop("sums", CELLS, body, 0, zones(("reads", "a"), ("writes", "b")))
    fold_b, cost_fold = fold("b")
    body = "%u = call i64 @fill.a(i64 %i)\n%v = call i64 @sums()\n%f = call i64 @fold.b()\n%next = add i64 %sum, %f\n"
    text = global_("a") + global_("b") + fill_a + sums + fold_b
    return text + main(body, cost_fill + cost + cost_fold, zones(("reads", "a"), ("writes", "a"), ("reads", "b"), ("writes", "b")))


def prefix_result(n):
    return sum(folded(itertools.accumulate(filled(i)[1])) for i in range(n))


def histogram():
    fill_a, cost_fill = fill("a")
    clear, cost_clear = loop("clear", CELLS, cell("t", "b", "%i") + "store i64 0, ptr %t.p\n%next = add i64 %sum, 0\n", 0, zones(("writes", "b")))
    body = cell("t", "a", "%i") + "%x = load i64, ptr %t.p\n" + cell("w", "b", "%x") + "%y = load i64, ptr %w.p\n%more = add i64 %y, 1\n" + cell("z", "b", "%x") + "store i64 %more, ptr %z.p\n%next = add i64 %sum, %y\n"
    tally, cost = loop("tally", CELLS, body, 0, zones(("reads", "a"), ("reads", "b"), ("writes", "b")))
    fold_b, cost_fold = fold("b")
    body = "%u = call i64 @fill.a(i64 %i)\n%v = call i64 @clear()\n%w = call i64 @tally()\n%f = call i64 @fold.b()\n%next = add i64 %sum, %f\n"
    text = global_("a") + global_("b") + fill_a + clear + tally + fold_b
    return text + main(body, cost_fill + cost_clear + cost + cost_fold, zones(("reads", "a"), ("writes", "a"), ("reads", "b"), ("writes", "b")))


def histogram_result(n):
    total = 0
    for i in range(n):
        counts = collections.Counter(number % CELLS for number in filled(i)[1])
        total += folded([counts[k] for k in range(CELLS)])
    return total

KERNELS = {
    "matrix": (matrix, matrix_result, 40),
    "sieve": (sieve, sieve_result, 1000),
    "sort": (sort, sort_result, 100),
    "crc": (crc, crc_result, 20),
    "stencil": (stencil, stencil_result, 40),
    "prefix": (prefix, prefix_result, 200),
    "histogram": (histogram, histogram_result, 200),
}
