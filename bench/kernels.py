"""Kernels of real size for the timings: parallel loops, by halves and by a loop of detaches, and kernels of examples/kernels made larger.

A kernel's budgets follow from its sizes, so each is a function of its numbers."""
import pathlib
import re
import sys
from dataclasses import dataclass

sys.path.insert(0, str(pathlib.Path(__file__).resolve().parent.parent / "check"))
from common import KERNELS


@dataclass
class Array:
    """A global. A leaf over the numbers from %lo to before %hi touches all of it or, with `part`, the cells from part[0] * %lo + part[1] to before
    part[0] * %hi + part[1]."""

    name: str
    cells: int
    mode: str
    part: tuple[int, int] | None = None

    def parameter(self):
        return f"ptr noalias dereferenceable({8 * self.cells}) %{self.name}"

    def zone(self, low, high, sigil="%"):
        """What is touched for the numbers from low to before high; each is a form's word."""
        ends = f"0 {self.cells}" if self.part is None else f"{self.end(low)} {self.end(high)}"
        return f"{self.mode} {sigil}{self.name} {ends}"

    def end(self, form):
        """The first cell for a number: a register, or a number."""
        times, shift = self.part
        if not form.startswith("%"):
            return str(times * int(form) + shift)
        return (f"{times}*" if times != 1 else "") + form + (f"+{shift}" if shift else "")


@dataclass
class Loop:
    """A parallel loop over the numbers %i from 0 to before `count`: the instructions of one, and how many they are with all that they call."""

    count: int
    arrays: list
    body: str
    instructions: int
    callees: str = ""

    def each(self):
        """The instructions of a number with those of the loop."""
        return self.instructions + 4

    def globals(self):
        return "".join(f"@{array.name} = global [{array.cells} x i64] zeroinitializer\n" for array in self.arrays)

    def parameters(self):
        return ", ".join(array.parameter() for array in self.arrays)

    def arguments(self, sigil):
        return ", ".join(f"ptr {sigil}{array.name}" for array in self.arrays)

    def zones(self, word, low, high, sigil="%"):
        """A line for each array."""
        return "".join(f"  ;! {word}{array.zone(low, high, sigil)}\n" for array in self.arrays)

    def rounds(self, before):
        """The blocks that do the numbers from %lo to before %hi one after the other, and return; the loop is entered from this block."""
        each = self.each()
        known = f"  ;! keeps %lo >= 0\n  ;! keeps %lo <= %i\n  ;! keeps %hi <= {self.count}\n"
        return f"""head:
{known}  ;! keeps %i <= %hi
  ;! left 0 {each}*%hi+3-{each}*%i
  %i = phi i64 [ %lo, %{before} ], [ %after, %body ]
  %more = icmp slt i64 %i, %hi
  br i1 %more, label %body, label %done
body:
{known}  ;! keeps %i+1 <= %hi
  ;! left 0 {each}*%hi+1-{each}*%i
  ;! shows %i >= 0
  ;! shows %i <= {self.count - 1}
{self.body}  %after = add nsw i64 %i, 1
  br label %head
done:
  ;! left 0 1
  ret void
"""

    def by_halves(self, depth, rounds=1, between=""):
        """Each call hands its left half to a child, so often; the loop stands `rounds` times one after the other, with these instructions in between."""
        leaf = self.each() * self.count + 7
        whole = leaf * (2 ** (depth + 1) - 1)
        limits = f"  ;! keeps %lo >= 0\n  ;! keeps %hi <= {self.count}\n"
        deep = f"  ;! keeps %d >= 0\n  ;! keeps %d <= {depth - 1}\n  ;! keeps %d+1 <= %depth\n"
        return f"""{self.globals()}{self.callees}
define void @each({self.parameters()}, i64 %lo, i64 %hi, i64 %depth) {{
  ;! requires %lo >= 0
  ;! requires %lo <= %hi
  ;! requires %hi <= {self.count}
  ;! requires %depth >= 0
  ;! requires %depth <= {depth}
{self.zones("", "%lo", "%hi")}  ;! measure %depth max {depth}
  ;! budget 2 {leaf}
entry:
  ;! left 2 {leaf}
  %s = call token @llvm.syncregion.start()
  %split = icmp sgt i64 %depth, 0
  br i1 %split, label %halve, label %small
small:
{limits}  ;! keeps %lo <= %hi
  ;! left 0 {self.each()}*%hi+4-{self.each()}*%lo
  br label %head
{self.rounds("small")}halve:
{limits}  ;! keeps %lo <= %hi
  ;! keeps %depth >= 1
  ;! keeps %depth <= {depth}
  ;! left 2 10
  %n = sub nsw i64 %hi, %lo
  ;! shows %n >= 0
  %h = sdiv i64 %n, 2
  ;! shows 2*%h <= %n
  ;! shows %h <= %n
  ;! shows %lo+%h <= %hi
  %mid = add nsw i64 %lo, %h
  ;! shows %mid <= %hi
  ;! shows %mid >= %lo
  %d = sub nsw i64 %depth, 1
  detach within %s, label %left, label %right
left:
{limits}  ;! keeps %lo <= %mid
  ;! keeps %mid <= %hi
{deep}  ;! left 1 2
{self.zones("foot ", "%lo", "%mid")}  call void @each({self.arguments("%")}, i64 %lo, i64 %mid, i64 %d)
  reattach within %s, label %right
right:
{limits}  ;! keeps %lo <= %mid
  ;! keeps %mid <= %hi
{deep}{self.zones("pending %s ", "%lo", "%mid")}  ;! left 1 3
  call void @each({self.arguments("%")}, i64 %mid, i64 %hi, i64 %d)
  sync within %s, label %both
both:
  ;! left 0 1
  ret void
}}

{self.main(rounds, f"call void @each({self.arguments('@')}, i64 0, i64 {self.count}, i64 {depth})", whole)}"""

    def by_loop(self, numbers, rounds=1):
        """A loop detaches a child for each so many numbers, and a sync follows it."""
        leaf, children, last = self.each() * numbers + 4, self.count // numbers, self.count - numbers
        each = leaf + 10
        known = "  ;! keeps %r >= 0\n"
        return f"""{self.globals()}{self.callees}
define void @some({self.parameters()}, i64 %lo, i64 %hi) {{
  ;! requires %lo >= 0
  ;! requires %lo <= %hi
  ;! requires %hi <= %lo+{numbers}
  ;! requires %hi <= {self.count}
{self.zones("", "%lo", "%hi")}  ;! budget 0 {leaf}
entry:
  ;! left 0 {self.each()}*%hi+4-{self.each()}*%lo
  br label %head
{self.rounds("entry")}}}

define void @all({self.parameters()}) {{
{self.zones("", "0", str(self.count))}  ;! budget 0 {each * children + 6}
entry:
  ;! left 0 {each * children + 6}
  %s = call token @llvm.syncregion.start()
  br label %head
head:
{known}  ;! keeps %r <= {children}
{self.pending("%r", numbers, 0)}  ;! left 0 {each * children + 4}-{each}*%r
  %r = phi i64 [ 0, %entry ], [ %r1, %next ]
  %more = icmp slt i64 %r, {children}
  br i1 %more, label %fork, label %done
fork:
{known}  ;! keeps %r <= {children - 1}
{self.pending("%r", numbers, 0)}  ;! left 0 {each * children + 2}-{each}*%r
  %lo = mul nsw i64 %r, {numbers}
  ;! shows {numbers}*%r >= 0
  ;! shows {numbers}*%r <= {last}
  ;! shows %lo >= 0
  ;! shows %lo <= {last}
  detach within %s, label %child, label %next
child:
  ;! keeps %lo >= 0
  ;! keeps %lo <= {last}
  ;! left 0 {leaf + 3}
{self.zones("foot ", "%lo", f"%lo+{numbers}")}  %hi = add nsw i64 %lo, {numbers}
  call void @some({self.arguments("%")}, i64 %lo, i64 %hi)
  reattach within %s, label %next
next:
{known}  ;! keeps %r <= {children - 1}
{self.pending("%r", numbers, numbers)}  ;! left 0 {each * children - leaf - 3}-{each}*%r
  %r1 = add nsw i64 %r, 1
  br label %head
done:
{self.pending("%r", numbers, 0)}  ;! left 0 2
  sync within %s, label %out
out:
  ;! left 0 1
  ret void
}}

{self.main(rounds, f"call void @all({self.arguments('@')})", each * children + 6)}"""

    def pending(self, register, numbers, more):
        """What the children before this one may touch: the numbers from 0 to before numbers * register + more."""
        lines = []
        for array in self.arrays:
            if array.part is None:
                ends = f"0 {array.cells}"
            else:
                times, shift = array.part
                constant = times * more + shift
                ends = f"{shift} {times * numbers}*{register}" + (f"+{constant}" if constant else "")
            lines.append(f"  ;! pending %s {array.mode} %{array.name} {ends}\n")
        return "".join(lines)

    def main(self, rounds, call, instructions):
        """The loop, `rounds` times: calls one after the other, since a coefficient of `left` is at most 1,000,000."""
        whole = (instructions + 1) * rounds + 1
        return f"""define i64 @main() {{
{self.zones("", "0", str(self.count), "@")}  ;! budget 0 {whole}
entry:
  ;! left 0 {whole}
{f"  {call}{chr(10)}" * rounds}  ret i64 0
}}
"""


def blurred(count, reach):
    """Cell i + reach of %q becomes the sum of 2 * reach + 1 cells of %p around it."""
    lines, terms = [], []
    for k in range(2 * reach + 1):
        at = "%i"
        if k:
            at = f"%n{k}"
            lines += [f"{at} = add nsw i64 %i, {k}", f";! shows {at} >= 0", f";! shows {at} <= {count + k - 1}"]
        lines += [f"%p{k} = getelementptr inbounds i64, ptr %p, i64 {at}", f"%x{k} = load i64, ptr %p{k}"]
        if k:
            terms.append(f"%s{k} = add i64 %{'x0' if k == 1 else f's{k - 1}'}, %x{k}")
    at = f"%n{reach}"
    lines += terms + [f"%place = getelementptr inbounds i64, ptr %q, i64 {at}", f"store i64 %s{2 * reach}, ptr %place"]
    body = "".join(f"  {line}\n" for line in lines)
    instructions = sum(not line.startswith(";!") for line in lines)
    arrays = [Array("p", count + 2 * reach, "reads"), Array("q", count + 2 * reach, "writes", (1, reach))]
    return Loop(count, arrays, body, instructions)


def squares(count):
    """Cell i becomes i * i: seven instructions a number, seventeen for a child of one number by a loop of detaches."""
    body = "  %p = getelementptr inbounds i64, ptr %a, i64 %i\n  %v = mul i64 %i, %i\n  store i64 %v, ptr %p\n"
    return Loop(count, [Array("a", count, "writes", (1, 0))], body, 3)


def counted(count, bins):
    """How often each low digit of i * 40503 occurs: children add to the same bins."""
    body = f"""  %x = mul i64 %i, 40503
  %y = lshr i64 %x, 3
  %b = and i64 %y, {bins - 1}
  %p = getelementptr inbounds i64, ptr %bins, i64 %b
  atomicrmw add ptr %p, i64 1 seq_cst
"""
    return Loop(count, [Array("bins", bins, "adds")], body, 5)


def shortest(side):
    """A round of Floyd's all pairs: each row of %paths takes what is shorter by way of another row, which stands in %row."""
    cell, last = 16, side * side - side
    row = cell * side + 6
    callees = f"""
define void @relax(ptr noalias dereferenceable({8 * side * side}) %paths, ptr noalias dereferenceable({8 * side}) %row, i64 %base) {{
  ;! requires %base >= 0
  ;! requires %base <= {last}
  ;! writes %paths %base %base+{side}
  ;! reads %row 0 {side}
  ;! budget 0 {row}
entry:
  ;! left 0 {row}
  %first = getelementptr inbounds i64, ptr %paths, i64 %base
  %x = load i64, ptr %first
  br label %head
head:
  ;! keeps %base >= 0
  ;! keeps %base <= {last}
  ;! keeps %j >= 0
  ;! keeps %j <= {side}
  ;! left 0 {cell * side + 3}-{cell}*%j
  %j = phi i64 [ 0, %entry ], [ %j1, %next ]
  %more = icmp slt i64 %j, {side}
  br i1 %more, label %body, label %done
body:
  ;! keeps %base >= 0
  ;! keeps %base <= {last}
  ;! keeps %j >= 0
  ;! keeps %j <= {side - 1}
  ;! left 0 {cell * side + 1}-{cell}*%j
  %at = add nsw i64 %base, %j
  ;! shows %at >= %base
  ;! shows %at <= %base+{side - 1}
  %pd = getelementptr inbounds i64, ptr %paths, i64 %at
  %old = load i64, ptr %pd
  %pr = getelementptr inbounds i64, ptr %row, i64 %j
  %y = load i64, ptr %pr
  %way = add i64 %x, %y
  %less = icmp slt i64 %way, %old
  br i1 %less, label %shorter, label %next
shorter:
  ;! keeps %base >= 0
  ;! keeps %base <= {last}
  ;! keeps %j >= 0
  ;! keeps %j <= {side - 1}
  ;! left 0 {cell * side - 7}-{cell}*%j
  %again = add nsw i64 %base, %j
  ;! shows %again >= %base
  ;! shows %again <= %base+{side - 1}
  %pw = getelementptr inbounds i64, ptr %paths, i64 %again
  store i64 %way, ptr %pw
  br label %next
next:
  ;! keeps %base >= 0
  ;! keeps %base <= {last}
  ;! keeps %j >= 0
  ;! keeps %j <= {side - 1}
  ;! left 0 {cell * side - 11}-{cell}*%j
  %j1 = add nsw i64 %j, 1
  br label %head
done:
  ;! left 0 1
  ret void
}}
"""
    body = f"""  ;! shows {side}*%i >= 0
  ;! shows {side}*%i <= {last}
  %base = mul nsw i64 %i, {side}
  ;! shows %base >= 0
  ;! shows %base <= {last}
  call void @relax(ptr %paths, ptr %row, i64 %base)
"""
    arrays = [Array("paths", side * side, "writes", (side, 0)), Array("row", side, "reads")]
    return Loop(side, arrays, body, row + 2, callees)


def with_numbers(text, numbers):
    """A text with other numbers."""
    return re.sub(r"(?<![\w.])\d+", lambda it: str(numbers.get(int(it[0]), int(it[0]))), text)


def scaled(name, numbers):
    """A kernel of examples/kernels with other numbers."""
    return with_numbers((KERNELS / name).read_text(), numbers)


def replaced(text, *pairs):
    """A text with each of these words, which stand in it, replaced by another."""
    for old, new in pairs:
        if old not in text:
            raise ValueError(old)
        text = text.replace(old, new)
    return text


def merge_sort(cells, depth):
    leaf = 28 * cells + 11
    call = leaf + 12
    return scaled("merge-sort.ll", {
        64: cells, 512: 8 * cells, 6: depth, 5: depth - 1, 1284: 20 * cells + 4, 516: 8 * cells + 4,
        1803: leaf, 1805: leaf + 2, 1812: leaf + 9, 1815: call, 230507: call * (2 ** (depth + 1) - 1) + 2})


def matrix_product(side):
    cell = 13 * side + 10
    row = cell * side + 3
    each = row + 9
    return scaled("matrix-product.ll", {
        8: side, 7: side - 1, 56: side * side - side, 63: side * side - 1, 64: side * side, 512: 8 * side * side, 114: cell,
        915: row, 916: row + 1, 913: row - 2, 912: row - 3, 910: row - 5, 806: row - 3 - 13 * side - 2, 918: row + 3, 924: each,
        7398: each * side + 6, 7400: each * side + 8, 7396: each * side + 4, 6476: each * side + 4 - row - 5})


def tree_sum(cells, depth, rounds=1):
    """The sum of so many cells, `rounds` times; a child leaves its half in a cell of its parent's own."""
    leaf = 7 * cells + 8
    whole = (leaf * (2 ** (depth + 1) - 1) + 1) * rounds + 1
    again = "".join(f"  %r{k} = call i64 @sum(ptr @a, i64 0, i64 64, i64 {depth})\n" for k in range(1, rounds))
    text = replaced(
        (KERNELS / "tree-sum.ll").read_text(), ("%depth <= 3", f"%depth <= {depth}"), ("max 3", f"max {depth}"), ("%d <= 2", f"%d <= {depth - 1}"),
        ("  %r = call i64 @sum(ptr @a, i64 0, i64 64, i64 3)", f"{again}  %r = call i64 @sum(ptr @a, i64 0, i64 64, i64 {depth})"))
    return with_numbers(text, {64: cells, 512: 8 * cells, 456: leaf, 6842: whole})


def sieve(cells, most):
    """The primes below `cells`: a child for each step from 2 to `most` adds 1 to its multiples."""
    rounds = 3 * (cells + most - 1) + 3
    strike = rounds + 2 - 12
    step = strike + 7
    count = 10 * (cells - 2) + 3
    done = count + 2
    return scaled("sieve.ll", {
        64: cells, 63: cells - 1, 512: 8 * cells, 7: most, 8: most + 1, 14: 2 * most, 70: cells + most - 1, 203: strike, 215: rounds + 2, 213: rounds,
        217: rounds + 4, 205: strike + 2, 210: step, 2307: done + 2 + step * (most + 1), 2305: done + step * (most + 1),
        2099: done + 2 + step * most + 2, 625: done, 624: done - 1, 643: 10 * cells + 3, 641: 10 * cells + 1, 637: 10 * cells - 3,
        636: 10 * cells - 4, 1890: done + 2 + step * (most - 1) + 3})


def queens(most, rounds):
    """Queens on boards of up to `most` columns, so often one after the other."""
    each = 17 * most + 10
    place = sum(each * most ** k for k in range(most + 1))
    text = (KERNELS / "queens.ll").read_text()
    head = text[:text.index("define i64 @main")]
    head = with_numbers(head, {8: most, 146: each}).replace(f"left 1 {most}", "left 1 8")
    whole = (place + 1) * rounds + 3
    call = "  call void @place(i64 %n, i64 %n, i64 0, i64 0, i64 0)\n"
    return head + f"""define i64 @main(i64 %n) {{
  ;! requires %n >= 1
  ;! requires %n <= {most}
  ;! writes @count 0 1
  ;! budget 0 {whole}
entry:
  ;! left 0 {whole}
  store i64 0, ptr @count
{call * rounds}  %x = load i64, ptr @count
  ret i64 %x
}}
"""
