"""The kernels of `run` once more, in a few words of Python, of which this makes a module of WebAssembly, a program of Lua and one of C: what other
interpreters are timed with, and what a compiler makes of the same. Numbers have 64 bits, shifts to the right bring zeros; Lua's numbers are doubles, so
only four kernels are made for it."""

import ast, shutil, subprocess

CELLS, ARRAYS = 4096, ["a", "b", "c"]

FILL = """


def fill_{0}(seed):
    i = 0
    x = seed
    while i < 1024:
        x = x * 6364136223846793005 + 1442695040888963407
        {0}[i & 1023] = x >> 40
        i = i + 1
    return x
"""

FOLD = """


def fold():
    i = 0
    s = 0
    while i < 1024:
        s = (s ^ b[i & 1023]) + i
        i = i + 1
    return s
"""

SOURCES = {
    "fib": """


def fib(n):
    if n < 2:
        return n
    return fib(n - 1) + fib(n - 2)


def main(n):
    return fib(n)
""",
    "long": """


def main(n):
    i = 0
    s = 0
    t = 0
    while i < n:
        s = t
        t = s + i
        i = i + 1
    return s
""",
    "tiny": """


def each(lo, hi, depth):
    if depth > 0:
        middle = lo + (hi - lo) // 2
        u = each(lo, middle, depth - 1)
        v = each(middle, hi, depth - 1)
        return 0
    i = lo
    while i < hi:
        a[i] = i * i
        i = i + 1
    return 0


def main(n):
    i = 0
    while i < n:
        u = each(0, 4096, 12)
        i = i + 1
    return a[4095]
""",
    "matrix": FILL.format("a") + FILL.format("b") + """


def dot(row, column):
    i = 0
    s = 0
    while i < 32:
        s = s + a[(row + i) & 1023] * b[(i * 32 + column) & 1023]
        i = i + 1
    return s


def product():
    i = 0
    s = 0
    while i < 1024:
        d = dot(i & 992, i & 31)
        c[i & 1023] = d
        s = (s ^ d) + i
        i = i + 1
    return s


def main(n):
    i = 0
    s = 0
    while i < n:
        u = fill_a(i)
        v = fill_b(u)
        s = s + product()
        i = i + 1
    return s
""",
    "sieve": """


def clear():
    i = 0
    while i < 256:
        a[i & 1023] = 0
        i = i + 1
    return 0


def strike(p):
    j = p
    while j < 256:
        a[j] = 1
        j = j + p
    return 1


def primes():
    i = 2
    s = 0
    while i < 256:
        if a[i] == 0:
            s = s + strike(i)
        i = i + 1
    return s


def main(n):
    i = 0
    s = 0
    while i < n:
        u = clear()
        s = s + primes()
        i = i + 1
    return s
""",
    "sort": FILL.format("a") + """


def sweep():
    i = 0
    while i < 127:
        x = a[i]
        y = a[i + 1]
        if x > y:
            a[i] = y
            a[i + 1] = x
        i = i + 1
    return 0


def sweeps():
    i = 0
    s = 0
    while i < 127:
        s = s + sweep()
        i = i + 1
    return s


def fold():
    i = 0
    s = 0
    while i < 128:
        s = (s ^ a[i & 1023]) + i
        i = i + 1
    return s


def main(n):
    i = 0
    s = 0
    while i < n:
        u = fill_a(i)
        v = sweeps()
        s = s + fold()
        i = i + 1
    return s
""",
    "crc": FILL.format("a") + """


def word(w):
    i = 0
    s = w
    while i < 64:
        s = (s >> 1) ^ ((0 - (s & 1)) & 3988292384)
        i = i + 1
    return s


def check():
    i = 0
    s = 0
    while i < 1024:
        s = word(s ^ a[i & 1023])
        i = i + 1
    return s


def main(n):
    i = 0
    s = 0
    while i < n:
        u = fill_a(i)
        s = s + check()
        i = i + 1
    return s
""",
    "stencil": FILL.format("a") + "".join(f"""


def {name}():
    i = 0
    s = 0
    while i < 1024:
        h = ((({x}[(i + 1023) & 1023] + {x}[(i + 1) & 1023]) >> 1) + {x}[i & 1023]) >> 1
        {y}[i & 1023] = h
        s = (s ^ h) + i
        i = i + 1
    return s
""" for name, x, y in (("forth", "a", "b"), ("back", "b", "a"))) + """


def both():
    i = 0
    s = 0
    while i < 10:
        x = forth()
        s = s ^ back()
        i = i + 1
    return s


def main(n):
    i = 0
    s = 0
    while i < n:
        u = fill_a(i)
        s = s + both()
        i = i + 1
    return s
""",
    "prefix": FILL.format("a") + """


def sums():
    i = 0
    s = 0
    while i < 1024:
        s = s + a[i & 1023]
        b[i & 1023] = s
        i = i + 1
    return s
""" + FOLD + """


def main(n):
    i = 0
    s = 0
    while i < n:
        u = fill_a(i)
        v = sums()
        s = s + fold()
        i = i + 1
    return s
""",
    "histogram": FILL.format("a") + """


def clear():
    i = 0
    while i < 1024:
        b[i & 1023] = 0
        i = i + 1
    return 0


def tally():
    i = 0
    s = 0
    while i < 1024:
        x = a[i & 1023]
        y = b[x & 1023]
        b[x & 1023] = y + 1
        s = s + y
        i = i + 1
    return s
""" + FOLD + """


def main(n):
    i = 0
    s = 0
    while i < n:
        u = fill_a(i)
        v = clear()
        w = tally()
        s = s + fold()
        i = i + 1
    return s
""",
}
FOR_LUA = ["fib", "long", "sieve", "tiny"]

BINARY = {ast.Add: ("i64.add", "+", "+"), ast.Sub: ("i64.sub", "-", "-"), ast.Mult: ("i64.mul", "*", "*"), ast.FloorDiv: ("i64.div_s", "/", "/"), ast.BitAnd: ("i64.and", "band", "&"),
          ast.BitXor: ("i64.xor", "bxor", "^"), ast.RShift: ("i64.shr_u", "rshift", ">>")}
COMPARED = {ast.Lt: ("i64.lt_s", "<"), ast.Gt: ("i64.gt_s", ">"), ast.Eq: ("i64.eq", "==")}


def locals_of(function):
    """The names that the function sets, which are none of its parameters."""
    names = [node.id for node in ast.walk(function) if isinstance(node, ast.Name) and isinstance(node.ctx, ast.Store)]
    return [name for name in dict.fromkeys(names) if name not in [one.arg for one in function.args.args]]


class Wasm:
    """Writes WebAssembly's text; each loop tests at its end, as the kernels do."""
    def __init__(self):
        self.loops = 0

    def place(self, node):
        return f"offset={8 * CELLS * ARRAYS.index(node.value.id)} (i32.wrap_i64 (i64.shl {self.number(node.slice)} (i64.const 3)))"

    def number(self, node):
        match node:
            case ast.Constant():
                return f"(i64.const {node.value})"
            case ast.Name():
                return f"(local.get ${node.id})"
            case ast.BinOp():
                return f"({BINARY[type(node.op)][0]} {self.number(node.left)} {self.number(node.right)})"
            case ast.Compare():
                return f"({COMPARED[type(node.ops[0])][0]} {self.number(node.left)} {self.number(node.comparators[0])})"
            case ast.Subscript():
                return f"(i64.load {self.place(node)})"
            case ast.Call():
                return f"(call ${node.func.id} {' '.join(map(self.number, node.args))})"

    def lines(self, body):
        return " ".join(map(self.line, body))

    def line(self, node):
        match node:
            case ast.Assign(targets=[ast.Name() as name]):
                return f"(local.set ${name.id} {self.number(node.value)})"
            case ast.Assign(targets=[ast.Subscript() as cell]):
                return f"(i64.store {self.place(cell)} {self.number(node.value)})"
            case ast.While():
                self.loops += 1
                label, test = f"$l{self.loops}", self.number(node.test)
                return f"(if {test} (then (loop {label} {self.lines(node.body)} (br_if {label} {test}))))"
            case ast.If():
                return f"(if {self.number(node.test)} (then {self.lines(node.body)}))"
            case ast.Return():
                return f"(return {self.number(node.value)})"

    def module(self, source, argument):
        functions = []
        for function in ast.parse(source).body:
            head = " ".join([f"(param ${one.arg} i64)" for one in function.args.args] + ["(result i64)"] + [f"(local ${name} i64)" for name in locals_of(function)])
            functions.append(f"(func ${function.name} {head} {self.lines(function.body)} (unreachable))")
        return "\n".join(["(module (memory 2)", *functions, f'(func (export "run") (result i64) (call $main (i64.const {argument}))))'])


class Lua:
    """Writes Lua."""
    def number(self, node):
        match node:
            case ast.Constant():
                return str(node.value)
            case ast.Name():
                return node.id
            case ast.BinOp():
                word, (one, other) = BINARY[type(node.op)][1], (self.number(node.left), self.number(node.right))
                return f"{word}({one}, {other})" if word.isalpha() else f"({one} {word} {other})"
            case ast.Compare():
                return f"{self.number(node.left)} {COMPARED[type(node.ops[0])][1]} {self.number(node.comparators[0])}"
            case ast.Subscript():
                return f"{node.value.id}[{self.number(node.slice)}]"
            case ast.Call():
                return f"{node.func.id}({', '.join(map(self.number, node.args))})"

    def lines(self, body):
        return " ".join(map(self.line, body))

    def line(self, node):
        match node:
            case ast.Assign():
                return f"{self.number(node.targets[0])} = {self.number(node.value)}"
            case ast.While():
                return f"while {self.number(node.test)} do {self.lines(node.body)} end"
            case ast.If():
                return f"if {self.number(node.test)} then {self.lines(node.body)} end"
            case ast.Return():
                return f"do return {self.number(node.value)} end"

    def program(self, source, argument):
        functions = ast.parse(source).body
        lines = ["local band = require('bit').band", "local " + ", ".join(one.name for one in functions)]
        lines += [f"local {name} = {{}} for k = 0, {CELLS - 1} do {name}[k] = 0 end" for name in ARRAYS]
        for one in functions:
            names = locals_of(one)
            lines.append(f"function {one.name}({', '.join(p.arg for p in one.args.args)}) {'local ' + ', '.join(names) if names else ''} {self.lines(one.body)} end")
        return "\n".join([*lines, f"print(string.format('%d', main({argument})))"])


class C:
    """Writes C. The argument is the program's, so that no compiler knows it."""
    def number(self, node):
        match node:
            case ast.Constant():
                return f"{node.value}ull"
            case ast.Name():
                return node.id
            case ast.BinOp():
                return f"({self.number(node.left)} {BINARY[type(node.op)][2]} {self.number(node.right)})"
            case ast.Compare():
                return f"((int64_t){self.number(node.left)} {COMPARED[type(node.ops[0])][1]} (int64_t){self.number(node.comparators[0])})"
            case ast.Subscript():
                return f"{node.value.id}[{self.number(node.slice)}]"
            case ast.Call():
                return f"{self.name(node.func.id)}({', '.join(map(self.number, node.args))})"

    def name(self, function):
        return "kernel" if function == "main" else function

    def lines(self, body):
        return " ".join(map(self.line, body))

    def line(self, node):
        match node:
            case ast.Assign():
                return f"{self.number(node.targets[0])} = {self.number(node.value)};"
            case ast.While():
                return f"while {self.number(node.test)} {{ {self.lines(node.body)} }}"
            case ast.If():
                return f"if {self.number(node.test)} {{ {self.lines(node.body)} }}"
            case ast.Return():
                return f"return {self.number(node.value)};"

    def program(self, source):
        lines = ["#include <stdint.h>", "#include <stdio.h>", "#include <stdlib.h>", f"static uint64_t {', '.join(f'{it}[{CELLS}]' for it in ARRAYS)};"]
        for one in ast.parse(source).body:
            names, parameters = locals_of(one), ", ".join(f"uint64_t {p.arg}" for p in one.args.args)
            own = f"uint64_t {', '.join(names)};" if names else ""
            lines.append(f"static uint64_t {self.name(one.name)}({parameters or 'void'}) {{ {own} {self.lines(one.body)} }}")
        return "\n".join([*lines, 'int main(int n, char **v) { return n == 2 && printf("%lld\\n", (long long)kernel(strtoull(v[1], 0, 10))) < 0; }\n'])


def native(work, name, argument):
    """The words that run the kernel as clang compiles it."""
    path = f"{work}/{name}-native"
    open(f"{path}.c", "w").write(C().program(SOURCES[name]))
    subprocess.run(["clang", "-O2", f"{path}.c", "-o", path], check=True)
    return [path, str(argument)]


def wasm(work, name, argument):
    """The words that run the kernel in wabt's interpreter."""
    path = f"{work}/{name}.{argument}"
    open(f"{path}.wat", "w").write(Wasm().module(SOURCES[name], argument))
    subprocess.run(["wat2wasm", f"{path}.wat", "-o", f"{path}.wasm"], check=True)
    return ["wasm-interp", f"{path}.wasm", "--run-all-exports"]


def lua(work, name, argument):
    """The words that run the kernel in LuaJIT's interpreter, with its compiler off."""
    open(f"{work}/{name}.{argument}.lua", "w").write(Lua().program(SOURCES[name], argument))
    return ["luajit", "-joff", f"{work}/{name}.{argument}.lua"]


LUAJIT = "luajit -joff"
PEERS = [(LUAJIT, lua, FOR_LUA, ["luajit"]), ("wasm-interp", wasm, SOURCES, ["wat2wasm", "wasm-interp"]), ("clang -O2", native, SOURCES, ["clang"])]


def words(work, name, most, least):
    """Of each that is installed and does this kernel, the words of its larger and of its smallest run."""
    found = {}
    for peer, make, names, programs in PEERS:
        if name in names and all(map(shutil.which, programs)):
            found[peer] = (make(work, name, most), make(work, name, least))
    return found
