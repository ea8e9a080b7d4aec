"""Draws modules of plain instructions, and works out what they return by LLVM's rules, in numbers of Python."""
import random
import re

MOST = 30
WRAPPING = ("add", "sub", "mul", "and", "or", "xor")
DIVIDING = ("udiv", "urem", "sdiv", "srem")
SHIFTING = ("shl", "lshr", "ashr")
PREDICATES = ("eq", "ne", "ugt", "uge", "ult", "ule", "sgt", "sge", "slt", "sle")


# ---- what a module returns

def signed(number, bits):
    """The number of so many bits that is left of this one."""
    number %= 2 ** bits
    return number - 2 ** bits if number >= 2 ** (bits - 1) else number


def quotient(x, y):
    """Cut toward zero."""
    return abs(x) // abs(y) * (1 if (x < 0) == (y < 0) else -1)


def operate(operator, x, y, bits):
    a, b = x % 2 ** bits, y % 2 ** bits
    return signed({
        "add": lambda: x + y, "sub": lambda: x - y, "mul": lambda: x * y, "and": lambda: a & b, "or": lambda: a | b, "xor": lambda: a ^ b,
        "udiv": lambda: a // b, "urem": lambda: a % b, "sdiv": lambda: quotient(x, y), "srem": lambda: x - y * quotient(x, y),
        "shl": lambda: a << b, "lshr": lambda: a >> b, "ashr": lambda: x >> b}[operator](), bits)


def compare(predicate, x, y, bits):
    a, b = (x % 2 ** bits, y % 2 ** bits) if predicate[0] == "u" else (x, y)
    return {"eq": a == b, "ne": a != b, "gt": a > b, "ge": a >= b, "lt": a < b, "le": a <= b}[predicate[-2:]]


class Run:
    """Goes through a text, instruction by instruction; `count` says how many these were, phis left out."""

    def __init__(self, text, n):
        self.registers, self.cells, self.count = {"%n": n}, [0] * 16, 0
        self.blocks, name = {}, None
        for line in text.splitlines():
            if line.endswith(":"):
                name = line[:-1]
                self.blocks[name] = []
            elif name and line[:1] not in (";", "}"):
                self.blocks[name].append(re.split(r"[ ,()\[\]]+", line.strip(" ]")))

    def value(self, word):
        return self.registers[word] if word[0] == "%" else int(word)

    def result(self):
        before, here = None, "entry"
        while True:
            block = self.blocks[here]
            phis = [words for words in block if words[2:3] == ["phi"]]
            taken = [(words[0], self.value(words[words.index(f"%{before}") - 1])) for words in phis]
            self.registers.update(taken)
            for words in block[len(phis):-1]:
                self.step(words)
            self.count += 1
            last = block[-1]
            if last[0] == "ret":
                return self.value(last[2])
            before, here = here, self.target(last)[1:]

    def target(self, words):
        if words[0] == "switch":
            cases = dict(zip(words[6::4], words[8::4]))
            return cases.get(str(self.value(words[2])), words[4])
        if words[1] == "label":
            return words[2]
        return words[4] if self.value(words[2]) else words[6]

    def step(self, words):
        self.count += 1
        if words[0] in ("store", "atomicrmw"):
            at, new = (words[4], words[2]) if words[0] == "store" else (words[3], words[5])
            at, new = self.value(at), self.value(new)
            self.cells[at] = new if words[0] == "store" else signed(self.cells[at] + new, 64)
            return
        register, _, operator, *rest = [word for word in words if word not in ("nsw", "inbounds")]
        if operator == "icmp":
            made = int(compare(rest[0], self.value(rest[2]), self.value(rest[3]), int(rest[1][1:])))
        elif operator == "getelementptr":
            made = self.value(rest[4])
        elif operator == "load":
            made = self.cells[self.value(rest[2])]
        elif operator in ("trunc", "sext", "zext"):
            made = self.value(rest[1]) % 2 ** 32 if operator == "zext" else signed(self.value(rest[1]), 32)
        else:
            made = operate(operator, self.value(rest[1]), self.value(rest[2]), int(rest[0][1:]))
        self.registers[register] = made


# ---- modules

class Draw:
    """A loop whose body has straight code, maybe a branch or a switch whose arms join again, and phis that swap or go round."""

    def __init__(self, seed):
        self.chance, self.names = random.Random(seed), 0
        self.phis = [f"%p{k}" for k in range(self.chance.randrange(1, 5))]

    def number(self):
        return str(self.chance.choice((0, 1, -1, 2 ** 63 - 1, -2 ** 63, 2 ** 31, self.chance.randrange(-99, 99), self.chance.randrange(-2 ** 63, 2 ** 63))))

    def put(self, lines, text):
        self.names += 1
        lines.append(f"%v{self.names} = {text}")
        return f"%v{self.names}"

    def instruction(self, lines, wide):
        """Draws one instruction, with those that make its operands; adds what it gives to the 64-bit registers."""
        x, y = (self.chance.choice(wide) if self.chance.random() < 0.75 else self.number() for _ in range(2))
        some, kind = self.chance.choice(wide), self.chance.randrange(8)
        if kind < 3:
            wide.append(self.put(lines, f"{self.chance.choice(WRAPPING)} i64 {x}, {y}"))
        elif kind == 3:
            low = self.put(lines, f"and i64 {some}, 63")
            wide.append(self.put(lines, f"{self.chance.choice(SHIFTING)} i64 {x}, {low}"))
        elif kind == 4:
            low = self.put(lines, f"and i64 {some}, 63")
            low = self.put(lines, f"add nsw i64 {low}, 1")
            wide.append(self.put(lines, f"{self.chance.choice(DIVIDING)} i64 {x}, {low}"))
        elif kind == 5:
            small = self.put(lines, f"trunc i64 {some} to i32")
            small = self.put(lines, f"{self.chance.choice(WRAPPING)} i32 {small}, {self.chance.randrange(-2 ** 31, 2 ** 31)}")
            wide.append(self.put(lines, f"{self.chance.choice(('sext', 'zext'))} i32 {small} to i64"))
        else:
            low = self.put(lines, f"and i64 {some}, 15")
            cell = self.put(lines, f"getelementptr inbounds i64, ptr @g, i64 {low}")
            if kind == 6:
                wide.append(self.put(lines, f"load i64, ptr {cell}"))
            else:
                lines.append(self.chance.choice((f"store i64 {x}, ptr {cell}", f"atomicrmw add ptr {cell}, i64 {x} seq_cst")))

    def straight(self, wide, most):
        lines = []
        for _ in range(self.chance.randrange(most)):
            self.instruction(lines, wide)
        return lines

    def fork(self, lines, wide, arms):
        """The end of a block that goes on in one of the arms: the last compare stands just before the branch, or earlier."""
        if len(arms) == 1:
            lines.append(f"br label %{arms[0]}")
        elif len(arms) == 2:
            width = self.chance.choice((32, 64))
            x = self.chance.choice(wide)
            x = x if width == 64 else self.put(lines, f"trunc i64 {x} to i32")
            test = self.put(lines, f"icmp {self.chance.choice(PREDICATES)} i{width} {x}, {self.chance.randrange(-9, 9) if width == 32 else self.number()}")
            lines += self.straight(list(wide), 2) if self.chance.random() < 0.3 else []
            lines.append(f"br i1 {test}, label %{arms[0]}, label %{arms[1]}")
        else:
            low = self.put(lines, f"and i64 {self.chance.choice(wide)}, 3")
            cases = " ".join(f"i64 {k}, label %{arm}" for k, arm in enumerate(arms[1:]))
            lines.append(f"switch i64 {low}, label %{arms[0]} [ {cases} ]")

    def text(self):
        wide = ["%i", "%n", *self.phis]
        head = self.straight(wide, 5)
        arms = [f"a{k}" for k in range(self.chance.choice((2, 2, 3, 4)))]
        self.fork(head, wide, arms)
        bodies, joined = {}, []
        for arm in arms:
            inside = list(wide)
            bodies[arm] = [*self.straight(inside, 3), "br label %join"]
            joined.append(f"[ {self.chance.choice(inside)}, %{arm} ]")
        wide.append("%j")
        join = self.straight(wide, 3)
        news = [self.chance.choice([*self.phis, *self.phis, *wide, self.number()]) for _ in self.phis]
        join += ["%k = add nsw i64 %i, 1", "%c = icmp slt i64 %k, %n", "br i1 %c, label %head, label %out"]
        most = max(map(len, bodies.values()))
        each = len(head) + most + len(join)
        facts = [";! keeps %i >= 0", ";! keeps %i+1 <= %n", f";! keeps %n <= {MOST}"]

        def block(name, left, lines, phis=()):
            return [f"{name}:", *facts, f";! left 0 {left}", *phis, *lines]

        sums, result = [], "%p0"
        for k, phi in enumerate(self.phis[1:]):
            sums.append(f"%r{k} = xor i64 {result}, {phi}")
            result = f"%r{k}"
        loop = f"{each}*%n-{each}*%i"
        ends = len(sums) + 1
        phis = ["%i = phi i64 [ 0, %entry ], [ %k, %join ]"]
        phis += [f"{phi} = phi i64 [ {self.number()}, %entry ], [ {new}, %join ]" for phi, new in zip(self.phis, news)]
        lines = ["@g = global [16 x i64] zeroinitializer", "define i64 @main(i64 %n) {", ";! requires %n >= 1", f";! requires %n <= {MOST}", ";! writes @g 0 16",
                 f";! budget 0 {each * MOST + ends + 1}", "entry:", f";! left 0 {each}*%n+{ends + 1}", "br label %head",
                 *block("head", f"{loop}+{ends}", head, phis)]
        for arm in arms:
            lines += block(arm, f"{loop}+{ends - len(head)}".replace("+-", "-"), bodies[arm])
        lines += block("join", f"{loop}+{ends - len(head) - most}".replace("+-", "-"), join, [f"%j = phi i64 {', '.join(joined)}"])
        lines += ["out:", f";! left 0 {ends}", *sums, f"ret i64 {result}", "}"]
        return "\n".join(lines) + "\n"
