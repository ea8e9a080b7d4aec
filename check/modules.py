"""Modules at the limits of the language and of any size, and the time that the program takes to judge one."""
import itertools, os, re, subprocess, tempfile, time
from common import EXAMPLES

LIMIT = 1048576


def fib(most):
    """examples/fib.ll up to so much: a call's cost at most doubles with each step."""
    text = (EXAMPLES / "fib.ll").read_text().replace("31457267", str(15 * (2 ** (most + 1) - 1) + 2))
    return re.sub(r"(?<![\w.])20\b", str(most), text)


def fib_without_tasks(most):
    """The same numbers by two calls, up to so much."""
    return f"""define i64 @fib(i64 %n) {{
;! requires %n >= 0
;! requires %n <= {most}
;! measure %n max {most}
;! budget 2 8
entry:
;! left 2 8
%c = icmp slt i64 %n, 2
br i1 %c, label %small, label %big
small:
;! left 0 1
ret i64 %n
big:
;! keeps %n >= 2
;! keeps %n <= {most}
;! left 2 6
%m = sub nsw i64 %n, 1
%x = call i64 @fib(i64 %m)
%l = sub nsw i64 %n, 2
%y = call i64 @fib(i64 %l)
%t = add i64 %x, %y
ret i64 %t
}}
define i64 @main(i64 %n) {{
;! requires %n >= 0
;! requires %n <= {most}
;! budget 0 {8 * (2 ** (most + 1) - 1) + 2}
entry:
;! left 0 {8 * (2 ** (most + 1) - 1) + 2}
%r = call i64 @fib(i64 %n)
ret i64 %r
}}
"""


def deep(most, registers):
    """A recursion as deep as @main's argument says, up to so much, in frames of so many registers. The last one does a sum for each register that is left."""
    sums = registers - 5
    each = sums + 3
    lines = "".join(f"%x{k} = add i64 {f'%x{k - 1}' if k else '%n'}, 1\n" for k in range(sums))
    return f"""define i64 @down(i64 %n) {{
;! requires %n >= 0
;! requires %n <= {most}
;! measure %n max {most}
;! budget 1 {each}
entry:
;! left 1 {each}
%c = icmp sgt i64 %n, 0
br i1 %c, label %more, label %last
more:
;! keeps %n >= 1
;! keeps %n <= {most}
;! left 1 4
%m = sub nsw i64 %n, 1
%r = call i64 @down(i64 %m)
%t = add i64 %r, 1
ret i64 %t
last:
;! left 0 {sums + 1}
{lines}ret i64 %x{sums - 1}
}}
define i64 @main(i64 %n) {{
;! requires %n >= 0
;! requires %n <= {most}
;! budget 0 {each * (most + 1) + 2}
entry:
;! left 0 {each * (most + 1) + 2}
%r = call i64 @down(i64 %n)
ret i64 %r
}}
"""


# A loop of so many rounds as @main's argument says, of four instructions each.
LOOP = """define i64 @main(i64 %n) {
;! requires %n >= 1
;! requires %n <= 1000000000
;! budget 0 4000000002
entry:
;! left 0 4*%n+2
br label %head
head:
;! keeps %i >= 0
;! keeps %i+1 <= %n
;! keeps %n <= 1000000000
;! left 0 4*%n-4*%i+1
%i = phi i64 [ 0, %entry ], [ %k, %head ]
%sum = phi i64 [ 0, %entry ], [ %t, %head ]
%t = add i64 %sum, %i
%k = add nsw i64 %i, 1
%c = icmp slt i64 %k, %n
br i1 %c, label %head, label %out
out:
;! left 0 1
ret i64 %sum
}
"""

# A parent and a child with a loop each, of so many rounds as @main's argument says: for as long as anybody waits.
SPINNING = """define i64 @spin(i64 %n) {
;! requires %n >= 0
;! requires %n <= 100000000000
;! budget 0 400000000004
entry:
;! left 0 4*%n+4
br label %head
head:
;! keeps %i >= 0
;! keeps %i <= %n
;! keeps %n <= 100000000000
;! left 0 4*%n-4*%i+3
%i = phi i64 [ 0, %entry ], [ %k, %next ]
%c = icmp slt i64 %i, %n
br i1 %c, label %next, label %done
next:
;! keeps %i >= 0
;! keeps %i+1 <= %n
;! keeps %n <= 100000000000
;! left 0 4*%n-4*%i+1
%k = add nsw i64 %i, 1
br label %head
done:
;! left 0 1
ret i64 %n
}
define i64 @main(i64 %n) {
;! requires %n >= 0
;! requires %n <= 100000000000
;! budget 0 800000000015
entry:
;! left 0 800000000015
%s = call token @llvm.syncregion.start()
detach within %s, label %child, label %rest
child:
;! keeps %n >= 0
;! keeps %n <= 100000000000
;! left 0 400000000006
%x = call i64 @spin(i64 %n)
reattach within %s, label %rest
rest:
;! keeps %n >= 0
;! keeps %n <= 100000000000
;! left 0 400000000007
%y = call i64 @spin(i64 %n)
sync within %s, label %join
join:
;! left 0 1
ret i64 %y
}
"""


def seconds(tapirvm, text, wanted):
    """The least of seven runs. The program has to print a line that begins with `wanted`."""
    assert len(text) <= LIMIT, len(text)
    with tempfile.NamedTemporaryFile("w", suffix=".ll", delete=False) as file:
        file.write(text)
    best = None
    for _ in range(7):
        start = time.time()
        done = subprocess.run([tapirvm, "serial", file.name], capture_output=True, text=True)
        took = time.time() - start
        assert done.stdout.startswith(wanted), (wanted, done.stdout)
        best = took if best is None else min(best, took)
    os.unlink(file.name)
    return best


def verified(tapirvm, text, effort=None):
    """The time of one `verify`, within this effort if one is named, and what it says first; after 90 seconds it is not waited for."""
    with tempfile.NamedTemporaryFile("w", suffix=".ll", delete=False) as file:
        file.write(text)
    start = time.time()
    try:
        words = [tapirvm, "verify", file.name] + ([] if effort is None else [f"--effort={effort}"])
        told = subprocess.run(words, capture_output=True, text=True, timeout=90).stdout.split("\n")[0]
    except subprocess.TimeoutExpired:
        told = "not waited for"
    os.unlink(file.name)
    return time.time() - start, told


def chain(name, blocks, defined):
    """A function of so many blocks one after another, each but the first with a phi and so many more registers."""
    each = defined + 1
    total = 1 + (blocks - 1) * each
    out = [f"define i64 @{name}(i64 %n) {{\n;! budget 0 {total}\nentry:\n;! left 0 {total}\nbr label %a0\n"]
    before, value = "entry", "0"
    for block in range(blocks - 1):
        out.append(f"a{block}:\n;! left 0 {(blocks - 1 - block) * each}\n%p{block} = phi i64 [ {value}, %{before} ]\n")
        out += [f"%x{block}.{k} = add i64 %p{block}, {k}\n" for k in range(defined)]
        out.append(f"br label %a{block + 1}\n" if block < blocks - 2 else f"ret i64 %p{block}\n")
        before, value = f"a{block}", f"%p{block}"
    return "".join(out) + "}\n"


def calls(functions):
    """All functions but the main one: each calls the one above and passes a pointer."""
    out, cost = ["@a = global [4 x i64] zeroinitializer\n"], 0
    for f in range(functions - 1):
        call = f"call void @f{f - 1}(i64 %n, ptr %p)\n" if f else ""
        cost += 62 + (1 if f else 0)
        out.append(f"define void @f{f}(i64 %n, ptr noalias dereferenceable(8) %p) {{\n;! writes %p 0 1\n;! budget 0 {cost}\nentry:\n;! left 0 {cost}\n")
        out += [f"%x{k} = add i64 %n, {k}\n" for k in range(60)]
        out.append(f"store i64 %n, ptr %p\n{call}ret void\n}}\n")
    return "".join(out)


def filled(part, limit):
    """As many functions as a text of this many bytes holds, and half of them."""
    one = len(part("f0"))
    half = min(255, limit // (one + 2)) // 2
    return ["".join(part(f"f{f}") for f in range(count)) for count in (half, 2 * half)]


def known(facts):
    """A block at whose end so many facts are known, all of the same two registers, and a `shows` line with two factors that no two of them show."""
    out = ["define i64 @main(i64 %n, i64 %m) {\n;! requires 3*%n+2*%m >= 0\nentry:\n"]
    for k in range(1, facts):
        out.append(f";! shows 3*%n+2*%m >= {-k}\n" + (f"%x{k} = add i64 %n, 0\n" if k % 32 == 0 else ""))
    return "".join(out) + ("" if facts % 32 else f"%x = add i64 %n, 0\n") + ";! shows 5*%n+7*%m >= 1\nret i64 0\n}\n"


def steps(count):
    """So many sums in one block, each of the one before; two `shows` lines before each bound it by the two facts that stand last."""
    out = [f"define i64 @main(i64 %n) {{\n;! requires %n >= 0\n;! requires %n <= 9\n;! budget 0 {count + 1}\nentry:\n;! left 0 {count + 1}\n"]
    out.append("%x0 = add nsw i64 %n, 1\n")
    out += [f";! shows %x{k - 1} >= 0\n;! shows %x{k - 1} <= {k + 9}\n%x{k} = add nsw i64 %x{k - 1}, 1\n" for k in range(1, count)]
    return "".join(out) + "ret i64 0\n}\n"


def shown(count, form):
    """So many `shows` lines in one block, 32 before each add."""
    out = [f"define i64 @main(i64 %n, i64 %m) {{\n;! requires %n >= 0\n;! requires %m >= 0\n;! budget 0 {count // 32 + 2}\nentry:\n;! left 0 {count // 32 + 2}\n"]
    for k in range(1, count + 1):
        out.append(f";! shows {form(k)}\n" + (f"%x{k} = add i64 %n, 0\n" if k % 32 == 0 else ""))
    return "".join(out) + "ret i64 0\n}\n"


def weaker(count):
    """Each line says less than the one before it of the same left side, of which there are two, one after the other."""
    return shown(count, lambda k: f"%n+%m >= {-k}" if k % 2 else f"%n >= {-k}")


def apart(count):
    """Each line has a coefficient of its own, and the oldest fact alone shows it."""
    return shown(count, lambda k: f"{k + 1}*%n >= {-k}")


def pairs(count):
    """Each line has coefficients of its own, and the two oldest facts alone show it, which are the last that a search by values comes to."""
    head = f"define i64 @main(i64 %n, i64 %m) {{\n;! requires %n <= 9\n;! requires %m <= 9\n;! budget 0 {count // 32 + 2}\nentry:\n;! left 0 {count // 32 + 2}\n"
    lines = [f";! shows {k + 1}*%n+{k + 2}*%m <= {9 * (2 * k + 3)}\n" + (f"%x{k} = add i64 %n, 0\n" if k % 32 == 0 else "") for k in range(1, count + 1)]
    return head + "".join(lines) + "ret i64 0\n}\n"


def strands(rounds, children=64):
    """As many children as @main's argument says, up to so many, each of which calls a loop of so many rounds and stores what it gives."""
    work = 5 * rounds + 2
    each = work + 9
    return f"""@a = global [{children} x i64] zeroinitializer
define i64 @work(i64 %seed) {{
;! budget 0 {work}
entry:
;! left 0 {work}
br label %head
head:
;! keeps %i >= 0
;! keeps %i <= {rounds - 1}
;! left 0 {work - 1}-5*%i
%i = phi i64 [ 0, %entry ], [ %k, %head ]
%sum = phi i64 [ %seed, %entry ], [ %next, %head ]
%m = mul i64 %sum, 6364136223846793005
%next = add i64 %m, 1442695040888963407
%k = add nsw i64 %i, 1
%c = icmp slt i64 %k, {rounds}
br i1 %c, label %head, label %out
out:
;! left 0 1
ret i64 %next
}}
define i64 @main(i64 %n) {{
;! requires %n >= 0
;! requires %n <= {children}
;! writes @a 0 {children}
;! budget 0 {children * each + 6}
entry:
;! left 0 {each}*%n+6
%s = call token @llvm.syncregion.start()
br label %head
head:
;! keeps %i >= 0
;! keeps %i <= %n
;! keeps %n <= {children}
;! pending %s writes @a 0 %i
;! left 0 {each}*%n-{each}*%i+4
%i = phi i64 [ 0, %entry ], [ %k, %next ]
%c = icmp slt i64 %i, %n
br i1 %c, label %fork, label %done
fork:
;! keeps %i >= 0
;! keeps %i <= {children - 1}
;! keeps %i+1 <= %n
;! keeps %n <= {children}
;! pending %s writes @a 0 %i
;! left 0 {each}*%n-{each}*%i+2
detach within %s, label %body, label %next
body:
;! keeps %i >= 0
;! keeps %i <= {children - 1}
;! left 0 {work + 4}
;! foot writes @a %i %i+1
%v = call i64 @work(i64 %i)
%p = getelementptr inbounds i64, ptr @a, i64 %i
store i64 %v, ptr %p
reattach within %s, label %next
next:
;! keeps %i >= 0
;! keeps %i+1 <= %n
;! keeps %n <= {children}
;! pending %s writes @a 0 %i+1
;! left 0 {each}*%n-{each}*%i-{each - 6}
%k = add nsw i64 %i, 1
br label %head
done:
;! pending %s writes @a 0 %i
;! left 0 2
sync within %s, label %out
out:
;! left 0 1
ret i64 %n
}}
"""


def clear(facts):
    """A detach beside a child: 32 zones of one against 32 of the other, which the oldest of so many facts keep apart."""
    adds = facts // 32 + 1
    head = f"@a = global [99 x i64] zeroinitializer\ndefine i64 @main(i64 %n, i64 %m) {{\n;! requires %m >= 31\n;! requires %m <= 40\n;! requires %n >= 41\n;! requires %n <= 50\n"
    head += f";! reads @a 0 99\n;! writes @a 0 99\n;! budget 0 {adds + 7}\nentry:\n;! left 0 {adds + 7}\n%s = call token @llvm.syncregion.start()\ndetach within %s, label %d, label %c\n"
    reads = "".join(f"reads @a {k} %m\n" for k in range(32)).splitlines()
    writes = [f"writes @a %n %n+{k}" for k in range(1, 33)]
    bounds = ";! keeps %m >= 31\n;! keeps %m <= 40\n;! keeps %n >= 41\n;! keeps %n <= 50\n"
    first = "d:\n" + bounds + ";! left 0 1\n" + "".join(f";! foot {zone}\n" for zone in reads) + "reattach within %s, label %c\n"
    middle = "c:\n" + bounds + "".join(f";! pending %s {zone}\n" for zone in reads) + f";! left 0 {adds + 4}\n"
    middle += "".join(f";! shows {k + 1}*%n >= {-k}\n" + (f"%x{k} = add i64 %n, 0\n" if k % 32 == 0 else "") for k in range(1, facts + 1))
    middle += "%x = add i64 %n, 0\n" + "detach within %s, label %e, label %f\n"
    second = "e:\n" + bounds + ";! left 0 1\n" + "".join(f";! foot {zone}\n" for zone in writes) + "reattach within %s, label %f\n"
    last = "f:\n" + bounds + ";! pending %s reads @a 0 %m\n;! pending %s writes @a %n %n+32\n;! left 0 2\nsync within %s, label %g\ng:\n;! left 0 1\nret i64 0\n}\n"
    return head + first + middle + second + last


def stores(count):
    """So many facts, and then as many stores of a cell whose index the two oldest facts bound."""
    adds = count // 32
    head = f"@a = global [99 x i64] zeroinitializer\ndefine i64 @main(i64 %n, i64 %m) {{\n;! requires %n >= 0\n;! requires %n <= 9\n;! requires %m <= 9\n;! writes @a 0 99\n"
    head += f";! budget 0 {adds + count + 2}\nentry:\n;! left 0 {adds + count + 2}\n"
    facts = [f";! shows {k + 1}*%m <= {9 * k + 10}\n" + (f"%x{k} = add i64 %n, 0\n" if k % 32 == 0 else "") for k in range(1, count + 1)]
    return head + "".join(facts) + "%p = getelementptr inbounds i64, ptr @a, i64 %n\n" + "store i64 0, ptr %p\n" * count + "ret i64 0\n}\n"


def promises(count):
    """So many calls of a function with 32 `requires` and 32 `ensures` lines, each of which the two oldest facts show."""
    lines = [f"{k + 1}*%n+{k + 2}*%m <= {18 * k + 27}" for k in range(32)]
    callee = "define void @f(i64 %n, i64 %m) {\n" + "".join(f";! requires {line}\n" for line in lines) + "".join(f";! ensures {line}\n" for line in lines)
    callee += ";! budget 0 1\nentry:\n;! left 0 1\nret void\n}\n"
    total = 2 * count + 1
    head = f"define i64 @main(i64 %n, i64 %m) {{\n;! requires %n <= 9\n;! requires %m <= 9\n;! budget 0 {total}\nentry:\n;! left 0 {total}\n"
    return callee + head + "call void @f(i64 %n, i64 %m)\n" * count + "ret i64 0\n}\n"


def covers(count):
    """So many calls of a function with 32 zones of each mode, each of which the last of the caller's 32 zones alone covers."""
    modes = [("reads", 0), ("writes", 32), ("adds", 64)]
    callee = "@a = global [999 x i64] zeroinitializer\ndefine void @f() {\n"
    callee += "".join(f";! {mode} @a {start + k} {start + k + 1}\n" for mode, start in modes for k in range(32)) + ";! budget 0 1\nentry:\n;! left 0 1\nret void\n}\n"
    total = 2 * count + 1
    head = "define i64 @main(i64 %n) {\n" + "".join(f";! writes @a {k + 200} {k + 201}\n" for k in range(31)) + f";! writes @a 0 99\n;! budget 0 {total}\nentry:\n;! left 0 {total}\n"
    return callee + head + "call void @f()\n" * count + "ret i64 0\n}\n"


def cases(count):
    """So many facts at the end of a block, and then a switch to 64 blocks with 32 `keeps` lines each, which the two oldest facts show."""
    adds = count // 32
    head = f"define i64 @main(i64 %n, i64 %m) {{\n;! requires %n <= 9\n;! requires %m <= 9\n;! budget 0 {adds + 3}\nentry:\n;! left 0 {adds + 3}\n"
    facts = [f";! shows {k + 1}*%n <= {9 * k + 10}\n" + (f"%x{k} = add i64 %n, 0\n" if k % 32 == 0 else "") for k in range(1, count + 1)]
    ways = "%y = add i64 %n, 0\nswitch i64 %m, label %a64 [" + "".join(f" i64 {k}, label %a{k}" for k in range(64)) + " ]\n"
    keeps = "".join(f";! keeps {k + 1}*%n+{k + 2}*%m <= {18 * k + 27}\n" for k in range(32))
    return head + "".join(facts) + ways + "".join(f"a{k}:\n{keeps};! left 0 1\nret i64 0\n" for k in range(65)) + "}\n"


def pointers(count):
    """So many calls in one block, then a pointer, and as many loads through it."""
    total = 3 * count + 2
    callee = "@a = global [9 x i64] zeroinitializer\ndefine void @f() {\n;! budget 0 1\nentry:\n;! left 0 1\nret void\n}\n"
    head = f"define i64 @main(i64 %n) {{\n;! writes @a 0 9\n;! budget 0 {total}\nentry:\n;! left 0 {total}\n"
    return callee + head + "call void @f()\n" * count + "%p = getelementptr inbounds i64, ptr @a, i64 0\n" + "store i64 0, ptr %p\n" * count + "ret i64 0\n}\n"


def selves(count):
    """So many facts in one block, and as many self calls after them, whose measure the two oldest facts bound."""
    adds = count // 32
    head = f"define void @f(i64 %n, i64 %m) {{\n;! requires %n >= 0\n;! requires %n <= 1\n;! requires %m <= 9\n;! measure %n max 1\n;! budget {count} {adds + count + 9}\n"
    head += f"entry:\n;! left {count}*%n {adds + count + 9}\n%c = icmp sge i64 %n, 1\nbr i1 %c, label %a, label %b\n"
    first = f"a:\n;! keeps %n >= 1\n;! keeps %n <= 1\n;! keeps %m <= 9\n;! left {count}*%n {adds + count + 3}\n%k = sub nsw i64 %n, 1\n"
    facts = [f";! shows {k + 1}*%m <= {9 * k + 10}\n" + (f"%x{k} = add i64 %n, 0\n" if k % 32 == 0 else "") for k in range(1, count + 1)]
    main = "define i64 @main(i64 %n) {\n;! budget 0 1\nentry:\n;! left 0 1\nret i64 0\n}\n"
    return head + first + "".join(facts) + "call void @f(i64 %k, i64 %m)\n" * count + "ret void\nb:\n;! left 0 1\nret void\n}\n" + main


def asked(count):
    """Sixteen facts of four registers, and so many calls of a function with 32 `requires` lines that two of them show with two factors."""
    lines = [f"{k + 2}*%a+{k + 3}*%b+{k + 2}*%c+{k + 3}*%d >= {-9 * k}" for k in range(32)]
    callee = "define void @f(i64 %a, i64 %b, i64 %c, i64 %d) {\n" + "".join(f";! requires {line}\n" for line in lines) + ";! budget 0 1\nentry:\n;! left 0 1\nret void\n}\n"
    total = 2 * count + 1
    facts = ["%a+%c >= 0", "%b+%d >= 0"] + [f"{k}*%a-{k}*%b+{k + 1}*%c-{k + 1}*%d >= {-k}" for k in range(1, 15)]
    head = "define i64 @main(i64 %a, i64 %b, i64 %c, i64 %d) {\n" + "".join(f";! requires {fact}\n" for fact in facts) + f";! budget 0 {total}\nentry:\n;! left 0 {total}\n"
    return callee + head + "call void @f(i64 %a, i64 %b, i64 %c, i64 %d)\n" * count + "ret i64 0\n}\n"


def given(count):
    """So many calls of a function with 32 `ensures` lines, each with a register of its own."""
    lines = [f"{k + 1}*%n >= {-k}" for k in range(32)]
    callee = "define void @f(i64 %n) {\n;! requires %n >= 0\n" + "".join(f";! ensures {line}\n" for line in lines) + ";! budget 0 1\nentry:\n;! left 0 1\nret void\n}\n"
    total = 3 * count + 1
    head = f"define i64 @main(i64 %n) {{\n;! requires %n >= 0\n;! budget 0 {total}\nentry:\n;! left 0 {total}\n"
    return callee + head + "".join(f"%x{k} = and i64 %n, 7\ncall void @f(i64 %x{k})\n" for k in range(count)) + "ret i64 0\n}\n"


def beside(count):
    """So many calls of a function with 32 zones of each mode, beside a child with 32 zones that start where those end."""
    modes = [("reads", 0), ("writes", 32), ("adds", 64)]
    callee = "@a = global [999 x i64] zeroinitializer\ndefine void @f() {\n"
    callee += "".join(f";! {mode} @a {start + k} {start + k + 1}\n" for mode, start in modes for k in range(32)) + ";! budget 0 1\nentry:\n;! left 0 1\nret void\n}\n"
    total = 2 * count + 6
    zones = [f"writes @a {k + 100} {k + 101}" for k in range(32)]
    head = f"define i64 @main(i64 %n) {{\n;! writes @a 0 999\n;! budget 0 {total}\nentry:\n;! left 0 {total}\n%s = call token @llvm.syncregion.start()\n"
    child = "detach within %s, label %d, label %c\nd:\n;! left 0 1\n" + "".join(f";! foot {zone}\n" for zone in zones) + "reattach within %s, label %c\n"
    rest = f"c:\n;! left 0 {total - 3}\n" + "".join(f";! pending %s {zone}\n" for zone in zones)
    return callee + head + child + rest + "call void @f()\n" * count + "sync within %s, label %e\ne:\n;! left 0 1\nret i64 0\n}\n"


def crossed(count):
    """So many `shows` lines of two registers with small coefficients of both signs, each in turn the first and the last that its question comes to."""
    wide = int(count ** 0.5) // 2 + 1
    forms = [(x, y) for x in range(-wide, wide + 1) for y in range(-wide, wide + 1) if abs(x) + abs(y) > 1][:count]
    head = "define i64 @main(i64 %n, i64 %m) {\n;! requires %n >= 0\n;! requires %m >= 0\n;! requires %n <= 9\n;! requires %m <= 9\n"
    head += f";! budget 0 {count // 32 + 2}\nentry:\n;! left 0 {count // 32 + 2}\n"
    lines = []
    for k, (x, y) in enumerate(forms, 1):
        least = min(0, 9 * x) + min(0, 9 * y)
        lines.append(f";! shows {x}*%n{y:+}*%m >= {least}\n".replace("+0*%m", "+0*%m") + (f"%x{k} = add i64 %n, 0\n" if k % 32 == 0 else ""))
    return head + "".join(lines) + "ret i64 0\n}\n"


def multiples(count, bounds, up, down):
    """So many `shows` lines that are multiples of one form of two registers, of both signs, each k times these bounds and 5 less."""
    head = "define i64 @main(i64 %n, i64 %m) {\n" + "".join(f";! requires {bound}\n" for bound in bounds)
    head += f";! budget 0 {count // 32 + 2}\nentry:\n;! left 0 {count // 32 + 2}\n"
    lines = []
    for j in range(1, count + 1):
        k = (j + 1) // 2
        line = f"{k}*%n+{2 * k}*%m >= {up * k - 5}" if j % 2 else f"{-k}*%n-{2 * k}*%m >= {down * k - 5}"
        lines.append(f";! shows {line}\n" + (f"%x{j} = add i64 %n, 0\n" if j % 32 == 0 else ""))
    return head + "".join(lines) + "ret i64 0\n}\n"


def woven(count):
    """Multiples of which two of the four oldest facts show each, and very many two others come to its terms, and not to its constant."""
    return multiples(count, ["%n+%m >= 0", "%m >= -9", "%n+%m <= 9", "%m <= 9"], -9, -18)


def knit(count):
    """As `woven`, where of the factors the last two alone serve."""
    return multiples(count, ["%n-2*%m >= 0", "2*%m >= -9", "%n-2*%m <= 9", "2*%m <= 9"], -18, -27)


def pressed(count):
    """So many facts as in `woven`, and as many calls of a function with 32 `requires` lines that two of the four oldest facts show, and no other two."""
    lines = [f"{k}*%n+{2 * k}*%m >= {-9 * k - 4}" for k in range(2, 18)] + [f"{-k}*%n-{2 * k}*%m >= {-18 * k - 4}" for k in range(2, 18)]
    callee = "define void @f(i64 %n, i64 %m) {\n" + "".join(f";! requires {line}\n" for line in lines) + ";! budget 0 1\nentry:\n;! left 0 1\nret void\n}\n"
    facts = woven(count)
    total = count // 32 + 2 * count + 2
    facts = facts.replace(f" 0 {count // 32 + 2}\n", f" 0 {total}\n")
    return callee + facts[:facts.index("ret i64 0")] + "call void @f(i64 %n, i64 %m)\n" * count + "ret i64 0\n}\n"


def branched(count):
    """So many calls of a function with 32 `ensures` lines, and then a switch to 65 blocks with 32 `keeps` lines each."""
    lines = [f"{k + 1}*%n >= {-k}" for k in range(32)]
    callee = "define void @f(i64 %n) {\n;! requires %n >= 0\n" + "".join(f";! ensures {line}\n" for line in lines) + ";! budget 0 1\nentry:\n;! left 0 1\nret void\n}\n"
    total = 2 * count + 2
    head = f"define i64 @main(i64 %n, i64 %m) {{\n;! requires %n >= 0\n;! budget 0 {total}\nentry:\n;! left 0 {total}\n"
    ways = "switch i64 %m, label %a64 [" + "".join(f" i64 {k}, label %a{k}" for k in range(64)) + " ]\n"
    keeps = "".join(f";! keeps {line}\n" for line in lines)
    return callee + head + "call void @f(i64 %n)\n" * count + ways + "".join(f"a{k}:\n{keeps};! left 0 1\nret i64 0\n" for k in range(65)) + "}\n"


def zoned(count):
    """So many calls of a function with 32 zones of each mode at multiples of a register, beside a child with 32 such zones."""
    modes = [("reads", 0), ("writes", 32), ("adds", 64)]
    bounds = ["%n >= 1", "%n <= 9"]
    callee = "@a = global [2000 x i64] zeroinitializer\ndefine void @f(i64 %n) {\n" + "".join(f";! requires {bound}\n" for bound in bounds)
    callee += "".join(f";! {mode} @a {start + k}*%n+369 {start + k + 1}*%n+369\n" for mode, start in modes for k in range(32)) + ";! budget 0 1\nentry:\n;! left 0 1\nret void\n}\n"
    total = 2 * count + 6
    zones = [f"writes @a {k + 1}*%n {k + 2}*%n" for k in range(32)]
    keeps = "".join(f";! keeps {bound}\n" for bound in bounds)
    head = "define i64 @main(i64 %n) {\n" + "".join(f";! requires {bound}\n" for bound in bounds) + f";! writes @a 0 2000\n;! budget 0 {total}\n"
    head += f"entry:\n;! left 0 {total}\n%s = call token @llvm.syncregion.start()\n"
    child = f"detach within %s, label %d, label %c\nd:\n{keeps};! left 0 1\n" + "".join(f";! foot {zone}\n" for zone in zones) + "reattach within %s, label %c\n"
    rest = f"c:\n{keeps};! left 0 {total - 3}\n" + "".join(f";! pending %s {zone}\n" for zone in zones)
    return callee + head + child + rest + "call void @f(i64 %n)\n" * count + "sync within %s, label %e\ne:\n;! left 0 1\nret i64 0\n}\n"


def scaled(count):
    """As `zoned`, where the child's zones are at multiples of another register, and of 32 zones of the caller's at multiples the last alone covers."""
    bounds, others = ["%n >= 1", "%n <= 9"], ["%m >= 1", "%m <= 9"]
    modes = [("reads", 0), ("writes", 32), ("adds", 64)]
    callee = "@a = global [2000 x i64] zeroinitializer\ndefine void @f(i64 %n) {\n" + "".join(f";! requires {bound}\n" for bound in bounds)
    callee += "".join(f";! {mode} @a {start + k}*%n+369 {start + k + 1}*%n+369\n" for mode, start in modes for k in range(32)) + ";! budget 0 1\nentry:\n;! left 0 1\nret void\n}\n"
    total = 2 * count + 6
    covers = [f"writes @a {k + 1}*%n {k + 2}*%n" for k in range(31)] + ["writes @a %n-1 1300*%n"]
    head = "define i64 @main(i64 %n, i64 %m) {\n" + "".join(f";! requires {bound}\n" for bound in bounds + others) + "".join(f";! {zone}\n" for zone in covers)
    head += f";! budget 0 {total}\nentry:\n;! left 0 {total}\n%s = call token @llvm.syncregion.start()\n"
    keeps = "".join(f";! keeps {bound}\n" for bound in bounds + others)
    child = f"detach within %s, label %d, label %c\nd:\n{keeps};! left 0 1\nreattach within %s, label %c\n"
    rest = f"c:\n{keeps};! left 0 {total - 3}\n" + "".join(f";! pending %s writes @a {k + 1}*%m {k + 2}*%m\n" for k in range(32))
    return callee + head + child + rest + "call void @f(i64 %n)\n" * count + "sync within %s, label %e\ne:\n;! left 0 1\nret i64 0\n}\n"


def slanted(count):
    """As `scaled`, where another parameter stands in both ends of each zone of the callee's."""
    text = scaled(count).replace("define void @f(i64 %n) {\n", "define void @f(i64 %n, i64 %p) {\n;! requires %p >= 1\n;! requires %p <= 9\n")
    return text.replace("*%n+369", "*%n+%p+369").replace("call void @f(i64 %n)", "call void @f(i64 %n, i64 %m)")


def posed(count):
    """So many facts of four registers, and calls of functions with 32 `requires` lines that two of the 24 oldest show with two factors, at the limit 95,000 different questions."""
    registers, functions = ["%a", "%b", "%c", "%d"], count // 100 + 1
    orders = list(itertools.permutations(registers))
    lines = [[f"{i + 2}*%p+{2 * i + 4}*%q+{7 * i + 3}*%r+{21 * i + 9}*%s >= {-9 * i}" for i in range(32 * f, 32 * f + 32)] for f in range(functions)]
    callees = "".join(f"define void @f{f}(i64 %p, i64 %q, i64 %r, i64 %s) {{\n" + "".join(f";! requires {line}\n" for line in lines[f])
        + ";! budget 0 1\nentry:\n;! left 0 1\nret void\n}\n" for f in range(functions))
    least = [f"{u}+{k}*{v} >= 0" for u, v in itertools.permutations(registers, 2) for k in (2, 3)]
    most = [f"{u}+{k}*{v} <= 9" for u, v in (("%a", "%b"), ("%c", "%d")) for k in (2, 3)]
    calls = 2 * count // 5
    total = count // 32 + 2 * calls + 2
    head = "define i64 @main(i64 %a, i64 %b, i64 %c, i64 %d) {\n" + "".join(f";! requires {bound}\n" for bound in least + most)
    head += f";! budget 0 {total}\nentry:\n;! left 0 {total}\n"
    facts = []
    for j in range(1, count + 1):
        x, y = j * 541 % 1223 + 2, j * 733 % 1117 + 2
        x, y = x if j % 2 else -x, y if j % 3 else -y
        facts.append(f";! shows {x}*%a{2 * x:+}*%b{y:+}*%c{3 * y:+}*%d >= {9 * min(x, 0) + 9 * min(y, 0)}\n" + (f"%x{j} = add i64 %a, 0\n" if j % 32 == 0 else ""))
    body = [f"call void @f{n % functions}(" + ", ".join(f"i64 {register}" for register in orders[n // functions % 24]) + ")\n" for n in range(calls)]
    return callees + head + "".join(facts) + "".join(body) + "ret i64 0\n}\n"


def strewn(count):
    """As `posed`, where 1,536 pairs of facts in turn show what is asked."""
    registers, functions = ["%a", "%b", "%c", "%d"], count // 100 + 1
    orders = list(itertools.permutations(registers))
    def line(i):
        x, y, k, l = i + 2, 7 * i + 3, 2 + i % 8, 2 + i // 8 % 8
        return f"{x}*%p+{k * x}*%q+{y}*%r+{l * y}*%s >= {-9 * i}"
    callees = "".join(f"define void @f{f}(i64 %p, i64 %q, i64 %r, i64 %s) {{\n" + "".join(f";! requires {line(i)}\n" for i in range(32 * f, 32 * f + 32))
        + ";! budget 0 1\nentry:\n;! left 0 1\nret void\n}\n" for f in range(functions))
    pairs = [f"{u}+{k}*{v} >= 0" for u, v in itertools.permutations(registers, 2) for k in range(2, 10)]
    facts = pairs + [f"{x}*%a+{2 * x}*%b+{y}*%c+{3 * y}*%d >= 0" for x, y in ((j * 541 % 1223 + 2, j * 733 % 1117 + 2) for j in range(1, count + 1))]
    calls, adds = 2 * count // 5, len(facts) // 32
    total = adds + 2 * calls + 1
    head = "define i64 @main(i64 %a, i64 %b, i64 %c, i64 %d) {\n" + "".join(f";! requires {register} >= 0\n" for register in registers)
    head += f";! budget 0 {total}\nentry:\n;! left 0 {total}\n"
    shows = "".join(f";! shows {fact}\n" + (f"%x{j} = add i64 %a, 0\n" if j % 32 == 0 else "") for j, fact in enumerate(facts, 1))
    body = [f"call void @f{n % functions}(" + ", ".join(f"i64 {register}" for register in orders[n // functions % 24]) + ")\n" for n in range(calls)]
    return callees + head + shows + "".join(body) + "ret i64 0\n}\n"


def scattered(count):
    """So many calls of functions with 32 `ensures` lines of two registers each, and four times as many of functions with 32 `requires` lines of four registers,
    each of which two facts show with two factors, other ones each time."""
    registers, makers, askers = [f"%a{k}" for k in range(16)], 4, 4
    def maker(f):
        promises = "".join(f";! ensures %p+{y}*%q >= 0\n" for y in range(32 * f + 2, 32 * f + 34))
        return f"define void @e{f}(i64 %p, i64 %q) {{\n;! requires %p >= 0\n;! requires %q >= 0\n{promises};! budget 0 1\nentry:\n;! left 0 1\nret void\n}}\n"
    def line(f, i):
        a, b, y, z = 201 + 7 * i, 503 + 11 * i, 32 * f + 2 + i, 32 * f + 2 + (5 * i + 3) % 32
        return f"{a}*%p+{a * y}*%q+{b}*%r+{b * z}*%s >= 0"
    def asker(f):
        return f"define void @f{f}(i64 %p, i64 %q, i64 %r, i64 %s) {{\n" + "".join(f";! requires {line(f, i)}\n" for i in range(32)) + ";! budget 0 1\nentry:\n;! left 0 1\nret void\n}\n"
    pairs = list(itertools.islice(itertools.permutations(registers, 2), count // makers + 1))
    fours = [(u, v, x, y) for (u, v), (x, y) in itertools.product(pairs, pairs)]
    made = [f"call void @e{f}(i64 {u}, i64 {v})\n" for u, v in pairs for f in range(makers)]
    asked = [f"call void @f{n % askers}(i64 {u}, i64 {v}, i64 {x}, i64 {y})\n" for n, (u, v, x, y) in enumerate(fours[k * 7919 % len(fours)] for k in range(4 * count)) if len({u, v, x, y}) == 4]
    total = 2 * (len(made) + len(asked)) + 1
    head = "define i64 @main(" + ", ".join(f"i64 {register}" for register in registers) + ") {\n" + "".join(f";! requires {register} >= 0\n" for register in registers)
    head += f";! budget 0 {total}\nentry:\n;! left 0 {total}\n"
    return "".join(map(maker, range(makers))) + "".join(map(asker, range(askers))) + head + "".join(made) + "".join(asked) + "ret i64 0\n}\n"


def pending(blocks):
    """A child that may run beside so many blocks, each with 32 `pending` lines."""
    out = ["@a = global [99 x i64] zeroinitializer\n"]
    out.append(f"define i64 @main(i64 %n) {{\n;! reads @a 0 99\n;! budget 0 {blocks + 4}\nentry:\n;! left 0 {blocks + 4}\n")
    out.append("%s = call token @llvm.syncregion.start()\ndetach within %s, label %d, label %a0\n")
    out.append("d:\n;! left 0 1\n;! foot reads @a 0 32\nreattach within %s, label %a0\n")
    for block in range(blocks):
        out.append(f"a{block}:\n;! left 0 {blocks - block + 1}\n")
        out += [f";! pending %s reads @a 0 {k}\n" for k in range(32, 64)]
        out.append(f"br label %a{block + 1}\n" if block < blocks - 1 else "sync within %s, label %e\n")
    return "".join(out) + "e:\n;! left 0 1\nret i64 0\n}\n"


def children(name, blocks, allocas, turned=False):
    """So many blocks: detaches in a row, each within a region of its own, and then their syncs. Each alloca is stored by one child, and
    added to at the end. With `turned` the blocks stand in the text from the last to the first."""
    count = (blocks - 2) // 3
    entry = [f"%x{k} = alloca i64\n" for k in range(allocas)] + [f"%r{k} = call token @llvm.syncregion.start()\n" for k in range(count)]
    out = []
    for k in range(count):
        out.append([f"d{k}:\n"] + [f"store i64 1, ptr %x{a}\n" for a in range(k, allocas, count)] + [f"reattach within %r{k}, label %c{k}\n"])
        out.append([f"c{k}:\n", f"detach within %r{k + 1}, label %d{k + 1}, label %c{k + 1}\n" if k < count - 1 else "br label %s0\n"])
    for k in range(count):
        out.append([f"s{k}:\n", f"sync within %r{k}, label %s{k + 1}\n"])
    out.append([f"s{count}:\n"] + [f"atomicrmw add ptr %x{a}, i64 1 seq_cst\n" for a in range(allocas)] + ["ret i64 0\n"])
    first = ["entry:\n"] + entry + ["detach within %r0, label %d0, label %c0\n"]
    return f"define i64 @{name}(i64 %n) {{\n" + "".join("".join(block) for block in [first] + (out[::-1] if turned else out)) + "}\n"


def nested(name, blocks, allocas):
    """Children within children: each starts a region of its own, and the innermost one stores all allocas."""
    count = (blocks - 2) // 3
    out = ["entry:\n"] + [f"%x{k} = alloca i64\n" for k in range(allocas)]
    for k in range(count):
        out.append(f"%r{k} = call token @llvm.syncregion.start()\ndetach within %r{k}, label %d{k}, label %c{k}\nd{k}:\n")
    out += [f"store i64 1, ptr %x{a}\n" for a in range(allocas)] + [f"reattach within %r{count - 1}, label %c{count - 1}\n"]
    for k in range(count - 1, -1, -1):
        out.append(f"c{k}:\nsync within %r{k}, label %s{k}\ns{k}:\n")
        out.append(f"reattach within %r{k - 1}, label %c{k - 1}\n" if k else "".join(f"atomicrmw add ptr %x{a}, i64 1 seq_cst\n" for a in range(allocas)) + "ret i64 0\n")
    return f"define i64 @{name}(i64 %n) {{\n" + "".join(out) + "}\n"


def endless(name, blocks, allocas):
    """Detaches in a row of children that never end, and then their syncs: after those nothing runs, so that each alloca is sure."""
    count = (blocks - 2) // 4
    out = ["entry:\n"] + [f"%x{k} = alloca i64\n" for k in range(allocas)] + [f"%r{k} = call token @llvm.syncregion.start()\n" for k in range(count)]
    out.append("detach within %r0, label %d0, label %c0\n")
    for k in range(count):
        out.append(f"d{k}:\nbr label %e{k}\ne{k}:\nbr label %e{k}\nc{k}:\n")
        out.append(f"detach within %r{k + 1}, label %d{k + 1}, label %c{k + 1}\n" if k < count - 1 else "br label %s0\n")
    out += [f"s{k}:\nsync within %r{k}, label %s{k + 1}\n" for k in range(count)]
    out += [f"s{count}:\n"] + [f"atomicrmw add ptr %x{a}, i64 1 seq_cst\n" for a in range(allocas)] + ["ret i64 0\n"]
    return f"define i64 @{name}(i64 %n) {{\n" + "".join(out) + "}\n"


def plain(size):
    """A module of this many bytes: functions of blocks with annotations, adds, branches and returns."""
    main = "define i64 @main(i64 %n) {\n;! budget 0 1\nentry:\n;! left 0 1\nret i64 0\n}\n"
    def function(name):
        out = [f"define i64 @{name}(i64 %n) {{\n;! requires %n >= 0\n;! requires %n <= 9\n;! budget 0 760\n"]
        for block in range(40):
            out.append(f"b{block}:\n;! keeps %n >= 0\n;! keeps %n <= 9\n;! left 0 {19 * (40 - block)}\n")
            out += [f"%x{block}.{k} = add nsw i64 %n, {k}\n" for k in range(18)]
            out.append(f"br label %b{block + 1}\n" if block < 39 else "ret i64 %n\n")
        return "".join(out) + "}\n"
    out, length, count = [], len(main), 0
    while length + len(function(f"f{count}")) <= size - 2 and count < 255:
        out.append(function(f"f{count}"))
        length += len(out[-1])
        count += 1
    text = "".join(out) + main
    return text + ";" * (size - len(text) - 1) + "\n"


def costly(size):
    """A module of at most this many bytes: calls of a function whose greatest measure is the greatest that there is."""
    def module(count):
        total = 4098 * count + 1
        head = "define void @f() {\n;! measure 0 max 4096\n;! budget 1 1\nentry:\n;! left 0 1\nret void\n}\n"
        body = f"define i64 @main(i64 %n) {{\n;! budget 0 {total}\nentry:\n;! left 0 {total}\n" + "call void @f()\n" * count + "ret i64 0\n}\n"
        return head + body
    return module((size - len(module(10 ** 5)) + 15 * 10 ** 5) // 15)
