"""Expressions. In: nodes of the tree. Out: instructions over i64, and the values that they give. `int` is computed in
64 bits, which is the same where C leaves overflow undefined; `unsigned` is cut to its 32 bits, and bool is 0 or 1. The
tree has all of C's conversions as nodes."""
from collections import ChainMap
from contextlib import contextmanager
from functools import partial
from typing import Callable, Iterator, NamedTuple, Union

from .ir import MOST_TERMS, Block, Claim, Form, Function, Value
from .ssa import Builder, wrapped
from .tree import Node, Type

LOW = 0xFFFFFFFF
OPERATIONS = {"+": "add", "-": "sub", "*": "mul", "/": "sdiv", "%": "srem", "<<": "shl", ">>": "ashr"}
OPERATIONS |= {"&": "and", "|": "or", "^": "xor"}
OF_UNSIGNED = {"sdiv": "udiv", "srem": "urem", "ashr": "lshr"}
SIDES = {"eq": ("sle", "sge"), "ne": ("sgt", "slt")}
COMPARES = {"<": "slt", "<=": "sle", ">": "sgt", ">=": "sge", "==": "eq", "!=": "ne"}
SAME = {"LValueToRValue", "NoOp", "ArrayToPointerDecay", "BitCast"}  # casts that leave an address as it is
POINTER = "a pointer is an array or a parameter itself, not stored, chosen, moved or returned"
NO_POINTER = (POINTER, "keep the index in a variable, not the pointer")
NO_BYTES = ("char and bool are not taken in memory", "write int64_t or int")


class Cell(NamedTuple):
    object: str
    index: Value


class Expressions:
    """What a function's expressions come to. `self.objects` are the variables that lie in memory. What is made has the
    place of the node that is visited."""

    def __init__(self, unit, f: Function):
        self.unit, self.f, self.build, self.objects = unit, f, Builder(f, unit.refused), ChainMap({}, unit.objects)

    @contextmanager
    def at(self, node: Node) -> Iterator[None]:
        """What the header has stands where it is used."""
        before = self.build.place
        self.build.place = before if node.place.file.endswith("tapir.h") else node.place
        yield
        self.build.place = before

    def value(self, node: Node) -> Value:
        """What an expression comes to. (A statement comes to nothing.)"""
        node = node.bare
        if not node.kind:
            return 0
        visit = getattr(self, "of_" + node.kind, None)
        if node.kind != "FunctionDecl":
            node.type.check(node.place)
        change = "if, for and while" if node.kind.endswith("Stmt") else "numbers, arrays, and calls"
        node.place.refuse(visit is None, f"{node.kind} is not taken", f"write it with {change}")
        with self.at(node):
            return visit(node)

    def of_IntegerLiteral(self, node: Node) -> Value:
        return wrapped(int(node.data["value"]))

    of_CharacterLiteral = of_IntegerLiteral

    def of_UnaryExprOrTypeTraitExpr(self, node: Node) -> Value:
        type = node.inner[0].type if node.inner else node.type_at("argType")
        type.check(node.place)
        return type.bytes * type.cells

    def of_DeclRefExpr(self, node: Node) -> Value:
        node.place.refuse(node.declared.id not in node.tree.constants, *NO_POINTER)
        return node.tree.constants[node.declared.id]

    def of_ImplicitCastExpr(self, node: Node) -> Value:
        kind, inner = node.data["castKind"], node.inner[0]
        node.place.refuse(node.type.is_pointer, *NO_POINTER)
        if kind == "LValueToRValue":
            return self.load(self.target(inner), inner)
        if kind == "IntegralToBoolean":
            return self.chosen(partial(self.condition, inner))
        inner.type.check(inner.place)
        is_number = kind in ("IntegralCast", "NoOp", "ToVoid")
        node.place.refuse(not is_number, "a pointer is no number", "keep the index, not the pointer")
        return self.converted(self.value(inner), inner.type, node.type)

    of_CStyleCastExpr = of_ImplicitCastExpr

    def converted(self, value: Value, old: Type, new: Type) -> Value:
        new.check(self.build.place)
        if new.base == "int" and old.base in ("long", "ulong", "uint"):
            return self.build.cut(value)
        if new.base == "uint" and old.base in ("long", "ulong", "int"):
            return self.build.binary("and", value, LOW, hint="low")
        return value

    def of_BinaryOperator(self, node: Node) -> Value:
        left, right = node.inner
        if node.opcode == "=":
            return self.store(self.target(left), self.value(right), left)
        if node.opcode == ",":
            self.value(left)
            return self.value(right)
        if node.opcode in ("&&", "||", *COMPARES):
            return self.chosen(partial(self.condition, node))
        return self.operation(node.opcode, self.value(left), self.value(right), node.type)

    def operation(self, opcode: str, a: Value, b: Value, type: Type) -> Value:
        """Products and quotients in place of shifts, and quotients and rests of which more is known: there are rules
        for them. Where the two differ, what they rest on is shown first."""
        op, build = OPERATIONS[opcode], self.build
        if "u" in type.base:
            op = OF_UNSIGNED.get(op, op)
        if op in ("sdiv", "srem") and isinstance(b, str) and self.unit.is_thorough:
            return self.rest(op, a, b)
        if isinstance(a, str) and isinstance(b, int):
            if op == "shl" and type.base == "long" and 0 < b < 62:
                op, b = "mul", 1 << b
            elif op == "ashr" and 0 < b < 20 and not build.is_strange(a) and self.shown("shift", build.form(a)):
                op, b = "sdiv", 1 << b
            if op == "sdiv" and b > 1:
                return self.quotient(a, b)
        result = build.binary(op, a, b, op in ("add", "sub", "mul") and "u" not in type.base)
        is_narrow = op == "shl" and type.base == "int" or op in ("add", "sub", "mul", "shl") and type.base == "uint"
        return self.converted(result, Type("long"), type) if is_narrow else result

    def shown(self, word: str, *forms: Form) -> bool:
        """Has the next instruction show that forms are 0 or more, unless that was refused."""
        choice = self.build.tries(word)
        self.build.shown += [Claim(form, self.build.place, choice) for form in forms if choice]
        self.build.said += forms if choice else ()
        return choice is not None

    def quotient(self, a: str, b: int) -> Value:
        """a / b, with its bound, where a has one. (x + y) / 2 is x + (y - x) / 2, which lies between them. Of
        1 + (x - 2) / 2 it is known that it is below x and not 0, and of (x - 1) - (x - 1) / 2 that it is below x."""
        binary, form, x = self.build.binary, self.build.form(a), self.build.makers.get(a)
        if b == 2 and a in self.build.linear and x.op == "add" and all(isinstance(v, str) for v in x.args):
            low, high = x.args
            if self.shown("middle", self.build.form(high) - self.build.form(low), form):
                return binary("add", low, self.quotient(binary("sub", high, low, True), 2), True)
        if b == 2 and self.unit.is_thorough and self.shown("more", form - 2):
            return binary("add", binary("sdiv", binary("sub", a, 2, True), 2), 1, True)
        if b == 2 and self.unit.is_thorough and self.shown("less", form - 1):
            less = binary("sub", a, 1, True)
            return binary("sub", less, binary("sdiv", less, 2), True)
        quotient, most = binary("sdiv", a, b), self.f.most(form, self.build.said) if self.unit.is_thorough else None
        self.build.said += [Form.of(quotient), form - Form.of(quotient) * b] if self.unit.is_thorough else []
        return quotient if most is None else self.held(quotient, "slt", most // b + 1, form, -form + most)

    def held(self, value: Value, predicate: str, bound: Value, *forms: Form) -> Value:
        """A value, with a test that always holds where forms are 0 or more, by which it is known."""
        test = partial(self.build.branch, predicate, value, bound)
        return self.chosen(test, lambda: value) if self.shown("held", *forms) else value

    def rest(self, op: str, a: Value, b: str) -> Value:
        """a % b or a / b, which is from 0 to b - 1 or to a, where a >= 0 and b >= 1."""
        rest, forms = self.build.binary(op, a, b), (self.build.form(a), self.build.form(b) - 1)
        bound = ("slt", b) if op == "srem" else ("sle", a)
        return self.held(self.held(rest, "sge", 0, *forms), *bound, *forms)

    def of_CompoundAssignOperator(self, node: Node) -> Value:
        """Also ++ and --, which add 1, and of a bool are computed as those of an int."""
        left, *rest = node.inner
        own = Type("int") if node.type.base == "bool" else node.type
        target, type = self.target(left), node.type_at("computeLHSType") if rest else own
        old = self.load(target, left)
        value = self.converted(old, left.type, type)
        new = self.operation(node.opcode[:-1], value, self.value(rest[0]) if rest else 1, type)
        if left.type.base == "bool":  # (it is 1 where that is not 0)
            new = self.chosen(partial(self.build.branch, "ne", new, 0))
        new = self.store(target, self.converted(new, type, left.type), left)
        return old if node.data.get("isPostfix") else new

    def of_UnaryOperator(self, node: Node) -> Value:
        if node.opcode in ("++", "--"):
            return self.of_CompoundAssignOperator(node)
        if node.opcode == "!":
            return self.chosen(partial(self.condition, node))
        node.place.refuse(node.opcode not in ("+", "-", "~", "__extension__"), *NO_POINTER)
        value = self.value(node.inner[0])
        if node.opcode == "~":
            return self.build.binary("xor", value, LOW if node.type.base == "uint" else -1)
        return self.operation("-", 0, value, node.type) if node.opcode == "-" else value

    def of_ConditionalOperator(self, node: Node) -> Value:
        test, *arms = node.inner
        return self.chosen(partial(self.condition, test), *[partial(self.value, arm) for arm in arms])

    def chosen(self, condition: Callable, one: Callable = lambda: 1, other: Callable = lambda: 0) -> Value:
        """A value where a condition holds, and another one where it does not: as a number 1 and 0."""
        yes, no, out = [self.build.block(hint) for hint in ("one", "none", "chosen")]
        condition(yes, no)
        for block, value in ((yes, one), (no, other)):
            self.build.start(block)
            self.build.write(out.name, value(), "chosen")
            self.build.jump(out)
        self.build.start(out)
        return self.build.read(out.name)

    def condition(self, node: Node, yes: Block, no: Block) -> None:
        """Branches on a condition. (Blocks are started where all that leads to them is there.)"""
        node = node.bare
        cast = node.data.get("castKind")
        with self.at(node):
            if not node.kind:  # (`for (;;)` has none)
                self.build.jump(yes)
            elif node.kind == "UnaryOperator" and node.opcode == "!":
                self.condition(node.inner[0], no, yes)
            elif node.opcode in ("&&", "||"):
                more = self.build.block("also")
                self.condition(node.inner[0], *((more, no) if node.opcode == "&&" else (yes, more)))
                self.build.start(more)
                self.condition(node.inner[1], yes, no)
            elif node.opcode in COMPARES:
                pointers = [x for x in node.inner if x.type.is_pointer]
                node.place.refuse(pointers, "pointers are not compared", "compare the indices")
                predicate = COMPARES[node.opcode].replace("s", "u" if node.inner[0].type.base == "ulong" else "s")
                self.test(predicate, *map(self.value, node.inner), yes, no)
            elif cast == "IntegralToBoolean" or (cast == "IntegralCast" and node.inner[0].bare.opcode in COMPARES):
                self.condition(node.inner[0], yes, no)
            else:
                self.test("ne", self.value(node), 0, yes, no)

    def test(self, predicate: str, a: Value, b: Value, yes: Block, no: Block) -> None:
        """Branches on a compare. Of <= and >= both outcomes are facts, so they are tried for == and !=."""
        up = self.build.form(a) - self.build.form(b)
        if predicate in SIDES and 0 < len(up.terms) <= MOST_TERMS and not self.build.is_strange(a, b):
            ways = zip(("up", "down"), (up, -up), SIDES[predicate])
            predicate = next((side for word, gap, side in ways if self.shown(word, gap)), predicate)
        self.build.branch(predicate, a, b, yes, no)

    def of_CallExpr(self, node: Node) -> Value:
        name = node.callee()
        if name.startswith("__tapir_"):
            return self.marker(name[len("__tapir_") :], node)
        if name == "memset":
            at, value, size = [x.unconverted for x in node.inner[1:]]
            (object, index), bytes = self.address(at), at.type._replace(is_pointer=False).bytes
            is_whole = (index, self.value(value), self.value(size)) == (0, 0, bytes * self.f.extents[object])
            text = "memset clears a whole array at once, and sets to nothing else"
            node.place.refuse(not is_whole, text, "write a loop")
            return self.build.put("zero", object, object=object)
        node.place.refuse(not name, "a call through a pointer is not taken", "name the function")
        self.unit.need(name, node.place)
        args = []
        for x in node.inner[1:]:
            value, index = self.address(x) if x.type.is_pointer else (self.value(x), 0)
            x.place.refuse(index != 0, "a part of an array is passed", "pass the array, and the index where it begins")
            args.append(value)
        self.unit.passed.setdefault(name, []).append(args)
        return self.build.put("call", *args, callee="@" + name, hint=name if node.type.base != "void" else "")

    def target(self, node: Node) -> Union[Cell, str]:
        """What is read or set: a cell, or a variable that is none."""
        node = node.bare
        node.type.check(node.place)
        if node.kind == "DeclRefExpr" and node.declared.id not in self.objects:
            return node.declared.id
        node.place.refuse(node.type.base == "bool", *NO_BYTES)
        return self.address(node)

    def load(self, target: Union[Cell, str], node: Node) -> Value:
        if isinstance(target, str):
            return self.build.read(target)
        if target in self.unit.initial:
            return self.value(self.unit.initial[target])
        hint = node.bare.declared.name or "t"
        value = self.build.once(("load", *target), "load", hint=hint, object=target.object, index=target.index)
        return self.converted(value, Type("long"), node.type) if node.type.base == "uint" else value

    def store(self, target: Union[Cell, str], value: Value, node: Node) -> Value:
        if isinstance(target, str):
            self.build.write(target, value, node.bare.declared.name or node.name)
        else:
            kept = self.build.cut(value) if node.type.base == "uint" else value  # (as hosts see `int`)
            self.build.put("store", kept, object=target.object, index=target.index)
        return value

    def address(self, node: Node) -> Cell:
        """What an array, a cell or a pointer names."""
        node = node.bare
        if node.kind == "DeclRefExpr" and node.declared.id in self.objects:
            return self.objects[node.declared.id]
        is_same = node.data.get("castKind") in SAME and node.inner[0].type.base == node.type.base
        if is_same or node.kind == "UnaryOperator" and node.opcode in ("*", "&"):
            return self.address(node.inner[0])
        is_sum = node.kind == "BinaryOperator" and node.opcode in "+-" and node.inner[0].type.is_pointer
        node.place.refuse(node.kind != "ArraySubscriptExpr" and not is_sum, *NO_POINTER)
        with self.at(node):
            object, index = self.address(node.inner[0])
            step = self.build.binary("mul", self.value(node.inner[1]), node.type.cells, True, "row")
            return Cell(object, self.build.binary("sub" if node.opcode == "-" else "add", index, step, True, "at"))

    def gaps(self, node: Node) -> list[Form]:
        """What is 0 or more where a compare holds, or a number that falls to 0 is not there yet."""
        if node.opcode not in COMPARES:
            return [self.build.form(self.value(node)) - 1]
        left, right = [self.build.form(self.value(x)) for x in node.inner]
        up = right - left
        return {"<": [up - 1], "<=": [up], ">": [-up - 1], ">=": [-up], "==": [up, -up], "!=": [-up - 1]}[node.opcode]

    def claim(self, node: Node) -> list[tuple[Form, bool]]:
        """A claim as forms that are 0 or more, and whether they come from <= or >=."""
        node = node.bare
        if node.opcode == "&&":
            return self.claim(node.inner[0]) + self.claim(node.inner[1])
        change = "write one for each; ||, != and ! are not taken"
        node.place.refuse(node.opcode not in COMPARES.keys() - {"!="}, "a claim is compares joined by &&", change)
        node.place.refuse(node.inner[0].type.base == "ulong", "a claim is a signed compare", "write int64_t or int")
        forms = self.gaps(node)
        node.place.refuse(any(not form.terms and form.constant < 0 for form in forms), "this claim never holds")
        return [(form, node.opcode in ("<=", ">=")) for form in forms]
