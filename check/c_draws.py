"""Draws functions of whole numbers in C (int64_t, int, uint64_t, uint32_t, bool; if, switch, loops, && || ! ?: += ++), none of which does what C leaves undefined
but by chance. And makes plain LLVM IR of a module: its serial elision."""
import random
import re

TYPES = {"l": "int64_t", "i": "int", "u": "uint64_t", "v": "uint32_t", "b": "_Bool"}
CONSTANTS = [0, 1, 2, 3, 5, 7, -1, -3, 100, 255, 4096, 65535, 1000003, 2147483647]
OPERATORS = ["+", "-", "*", "&", "|", "^", "<<", ">>", "/", "%", "<", "<=", "==", "!=", ">", ">=", "&&", "||", "?:", "!", "~", "cast", "unsigned"]
DIVISIONS = ["((int64_t)({a}) {o} ((({b}) & 63) + 1))", "((int)({a}) {o} (int)((({b}) & 63) + 1))",
             "((uint32_t)({a}) {o} (uint32_t)((({b}) & 1023) + 1))", "((uint64_t)({a}) {o} (uint64_t)((({b}) & 63) + 2))"]


class Draw:
    """A file with arrays `int64_t A[8]`, `int B[8]` and a function `kernel` of two numbers."""
    DIVISIONS, CLAIMS, STATEMENTS, DEEPEST = DIVISIONS, [], 6, 3

    def __init__(self, seed):
        self.chance, self.count, self.variables, self.lines = random.Random(seed), 0, [("p", "l"), ("q", "l")], []

    def text(self):
        self.lines = ['#include "tapir.h"', "int64_t A[8]; int B[8];", "int64_t kernel(int64_t p, int64_t q) {", *self.CLAIMS]
        for _ in range(self.STATEMENTS):
            self.statement(1)
        return "\n".join([*self.lines, f"    return {self.value(2)};", "}", ""])

    def leaf(self):
        kind = self.chance.random()
        if kind < 0.6:
            return self.chance.choice(self.variables)[0]
        if kind < 0.8:
            return str(self.chance.choice(CONSTANTS))
        return f"{self.chance.choice('AB')}[{self.chance.choice(self.variables)[0]} & 7]"

    def value(self, deep):
        if deep == 0 or self.chance.random() < 0.15:
            return self.leaf()
        o, a, b = self.chance.choice(OPERATORS), self.value(deep - 1), self.value(deep - 1)
        if o in "+-*":
            wide, narrow = f"(int64_t)((uint64_t)({a}) {o} (uint64_t)({b}))", f"(int)((uint32_t)({a}) {o} (uint32_t)({b}))"
            return wide if self.chance.random() < 0.6 else narrow
        if o in "/%":
            return self.chance.choice(self.DIVISIONS).format(a=a, b=b, o=o)
        type = self.chance.choice(list(TYPES.values()))
        forms = {"<<": f"(int64_t)((uint64_t)({a}) << (({b}) & 31))", ">>": f"(({type.replace('_Bool', 'int')})({a}) >> (({b}) & 15))",
                 "?:": f"(({self.leaf()}) ? ({a}) : ({b}))", "!": f"(!({a}))", "~": f"(~({a}))", "cast": f"(({type})({a}))",
                 "unsigned": f"((uint64_t)({a}) {self.chance.choice(['<', '>=', '>', '<='])} (uint64_t)({b}))"}
        return forms.get(o, f"(({a}) {o} ({b}))")

    def put(self, deep, line):
        self.lines.append("    " * deep + line)

    def block(self, deep):
        known = len(self.variables)
        for _ in range(self.chance.randint(1, 4)):
            self.statement(deep)
        del self.variables[known:]

    def statement(self, deep):
        kind = self.chance.random()
        if kind < 0.25:
            self.count += 1
            type = self.chance.choice(list(TYPES))
            self.put(deep, f"{TYPES[type]} x{self.count} = ({TYPES[type]})({self.value(3)});")
            self.variables.append((f"x{self.count}", type))
        elif kind < 0.45:
            self.put(deep, self.assignment(*self.chance.choice(self.variables)))
        elif kind < 0.6:
            self.put(deep, f"{self.chance.choice('AB')}[{self.value(1)} & 7] = (int)({self.value(2)});")
        elif deep <= self.DEEPEST:
            self.compound(deep, kind)

    def assignment(self, name, type):
        """Plain, by an operator, or a step. Sums are of unsigned numbers, which wrap."""
        way = self.chance.random()
        if way < 0.6 or (way < 0.7 and type not in "uv"):
            return f"{name} = ({TYPES[type]})({self.value(3)});"
        if way < 0.7:
            return self.chance.choice([f"{name}++;", f"--{name};", f"{name} = -{name};"])
        return f"{name} {self.chance.choice(['&', '|', '^', *('+-*' if type in 'uv' else '')])}= {self.value(2)};"

    def compound(self, deep, kind):
        if kind < 0.75:
            self.put(deep, f"if ({self.value(3)}) {{")
            self.block(deep + 1)
            if self.chance.random() < 0.5:
                self.put(deep, "} else {")
                self.block(deep + 1)
        elif kind < 0.85:
            self.loop(deep)
        elif kind < 0.93:
            self.switch(deep)
        else:
            self.put(deep, f"SPAWN {{ A[{self.chance.randint(0, 7)}] = {self.value(2)};")
        self.put(deep, "}")
        if kind >= 0.93 and self.chance.random() < 0.5:
            self.put(deep, "SYNC;")

    def loop(self, deep):
        self.count += 1
        k = f"k{self.count}"
        ends = [f"{k} < {self.chance.randint(1, 6)}", f"{k} != 5", f"{k} <= 3 && ({self.value(2)})"]
        self.put(deep, f"for ({self.chance.choice(['int', 'int64_t'])} {k} = {self.chance.choice('01')}; {self.chance.choice(ends)}; {k}++) {{")
        self.block(deep + 1)
        if self.chance.random() < 0.3:
            self.put(deep + 1, f"if ({self.value(2)}) {self.chance.choice(['break', 'continue'])};")

    def switch(self, deep):
        self.put(deep, f"switch (({self.value(2)}) & 7) {{")
        for number in self.chance.sample(range(8), 3):
            self.put(deep, f"case {number}: {{")
            self.block(deep + 1)
            self.put(deep, "}" + (" break;" if self.chance.random() < 0.7 else ""))
        self.put(deep, "default: ;")


class Judged(Draw):
    """A smaller one for the verifier: it says what the parameters are, divides by what is above 0, and has no SPAWN. Often it compares and halves sums, of
    small numbers or of unsigned ones that wrap: there the tool tries other compares and quotients."""
    STATEMENTS, DEEPEST = 3, 1
    DIVISIONS = ["((int64_t)({a}) {o} (((int64_t)({b}) & 63) + 1))"]
    CLAIMS = ["    REQUIRES(0 <= p && -100 <= q && q <= 100);"]
    INPUTS = [("0", "-100"), ("9223372036854775807", "100"), ("4611686018427387904", "0"), ("41", "7")]
    FORMS = ["((uint64_t){x} {sign} {few} {same} 0)", "((uint64_t){x} {sign} (uint64_t){y} {same} {few}u)", "({small} {sign} {least} {same} {few})",
             "({least} {same} {small})", "((int64_t){y} {same} {small} - {few})", "(({small} + {least}) / 2)", "(({large} + {small}) / 2)", "({x} / 2)",
             "((int64_t)((uint64_t){x} + (uint64_t){y}) / 2)", "({large} / {few})", "({large} >> {few})", "({large} % ({least} + 1))",
             "({large} / ({least} + 1))"]

    def value(self, deep):
        if deep == 0 or self.chance.random() < 0.4:
            return super().value(min(deep, 2))
        x, y, z = (self.chance.choice(self.variables)[0] for _ in range(3))
        small = self.chance.choice(["q", f"((int64_t){x} & 63)"])
        words = {"x": x, "y": y, "least": f"((int64_t){z} & 7)", "small": small, "large": f"((int64_t){y} & 1048575)"}
        words |= {"few": self.chance.randint(1, 4), "sign": self.chance.choice("+-*"), "same": self.chance.choice(["==", "!="])}
        return self.chance.choice(self.FORMS).format(**words)

    def compound(self, deep, kind):
        super().compound(deep, min(kind, 0.92))

    def loop(self, deep):
        """Half of them go by other steps than ++, up or down to an end."""
        if self.chance.random() < 0.5:
            return super().loop(deep)
        self.count += 1
        k = f"k{self.count}"
        start, test, step = self.chance.choice([("-20", "<= 40", "+= 3"), ("30", "> 0", "/= 2"), ("12", "!= 0", "-= 1"), ("1", "< 50", "*= 2")])
        self.put(deep, f"int64_t {k} = {start};")
        self.put(deep, f"while ({k} {test}) {{")
        self.put(deep + 1, f"{k} {step};")
        self.block(deep + 1)


def elision(text):
    """The serial elision of a module as plain LLVM IR, its @main renamed @kernel."""
    lines = []
    for line in text.splitlines():
        if line.strip().startswith(";!") or "llvm.syncregion.start" in line:
            continue
        line = re.sub(r"detach within %[\w.]+, label (%[\w.]+), label %[\w.]+", r"br label \1", line)
        line = re.sub(r"(?:reattach|sync) within %[\w.]+, label (%[\w.]+)", r"br label \1", line)
        lines.append(line.replace("@main(", "@kernel(").replace("@main.", "@kernel_"))
    return "\n".join(lines) + "\n"
