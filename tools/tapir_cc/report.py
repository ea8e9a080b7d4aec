"""Tells faults as clang does. In: a fault of the translation, or a verdict with what `explain` says of it. Out:
`kernel.c:12:9: error: ..` with what to change, the source line and a caret, and what is known there, in the names of
the C."""
import pathlib
import re

from .expressions import OF_UNSIGNED, OPERATIONS
from .ir import Function, Instruction, Place
from .judge import Judge, Verdict
from .ssa import STRANGE

SIGNS = {op: sign for sign, signed in OPERATIONS.items() for op in (signed, OF_UNSIGNED.get(signed))}
MOST_FACTS = 6  # that are shown of one goal
SHOWN = r"\s*(known:|nearest:|to show:|touched:|still pending)(?!.*put `shows`)"
DOES = {"detach": "this SPAWN", "ret": "this return", "reattach": "the end of this SPAWN"}
VERBS = {"reads": "read", "writes": "write", "adds": "add to"}
OUTSIDE = "{what} is outside the zones that are said or found"
UNBOUND = "no bound is found for the rounds of a loop, a round costs over 1,000,000, or all costs more than BUDGET"
SPENT = "the search for what shows it is spent, or finds nothing; make functions of parts of this one"
DEPTH = "let a depth fall, by 1 for each halving, in place of a length"
OWN_CELLS = "let each SPAWN touch cells of its own, by its counter, or use ADD"
RULES = {  # what one means, and what to change. {what} is refused, {goal} to be shown, {may} is what may be instead
    206: (UNBOUND, "let a round do less, or make a function of a part of it with a BUDGET"),
    501: ("{what} may be outside the array: {may}", ""),
    **dict.fromkeys((502, 504), ("{what} may not be defined: {may}", "")),
    505: ("a round, or a way to here, does not keep {goal}", ""),
    506: ("{what} does not meet its REQUIRES: {may}", ""),
    507: ("this return does not meet ENSURES: {may}", ""),
    508: ("KEEPS is not shown: {may}", ""),
    602: ("race: {race}", "write SYNC before it, or let both touch cells of their own"),
    603: ("race: {race}", OWN_CELLS),
    **dict.fromkeys((601, 604), (OUTSIDE, "name the cells in READS, WRITES or ADDS of the function")),
    702: (UNBOUND, "write `for (k = 0; k < N && ..; k++)` or WHILE_AT_MOST(N, ..); or make a function of the round"),
    703: ("", "pass a depth that falls, depth - 1, with REQUIRES(0 <= depth && depth <= 20), or write MEASURE"),
    704: ("", "write REQUIRES(n <= 64) for what its loops and its calls of itself go by"),
    705: ("two calls of itself cost twice as much for each step of the measure: over 1,000,000,000,000", DEPTH),
}


class Names:
    """How the C writes what a register holds."""

    def __init__(self, f: Function):
        self.f, self.definitions = f, f.definitions()
        self.chosen = {f.c_names.get(x.result) for x in f.instructions() if x.op == "phi"}

    def of(self, value, deep: int = 4) -> str:
        x, variable = self.definitions.get(value), self.f.c_names.get(value)
        if not isinstance(value, str) or (variable and (x is None or x.op == "phi" or variable not in self.chosen)):
            return str(value) if variable is None else variable
        if x is None or x.op in ("phi", "alloca") or deep == 0:
            return variable or re.sub(r"(\.addr)?(\.\d+)*$", "", value[1:])
        return self.made_by(x, deep - 1)

    def made_by(self, x: Instruction, deep: int = 4) -> str:
        if x.op in SIGNS:
            return f"({self.of(x.args[0], deep)} {SIGNS[x.op]} {self.of(x.args[1], deep)})"
        if x.op == "load":
            return self.cell(x, deep)
        if x.op == "call":
            return f"{x.callee[1:]}(..)"
        return self.of(x.args[0], deep) if x.op in ("trunc", "sext") else x.result[1:]

    def cell(self, x: Instruction, deep: int = 4) -> str:
        is_single = x.index == 0 and self.f.extents.get(x.object) == 1
        index = "[" + re.sub(r"^[(](.*)[)]$", r"\1", self.of(x.index, deep)) + "]"
        return self.of(x.object) + ("" if is_single else index)

    def in_text(self, text: str) -> str:
        return re.sub(r"%[\w.]+", lambda m: "RESULT" if m[0] == "%.ret" else self.of(m[0]), text).replace("@", "")


def told(path: str, place: Place, text: str, change: str = "") -> str:
    """A message about a file of C, with the line and a caret."""
    file = pathlib.Path(place.file or path)
    lines = file.read_text(errors="replace").split("\n") if place.line and file.is_file() else []
    line = "".join(lines[place.line - 1 : place.line])
    head = f"{place.file or path}:{place.line or 1}:{place.column or 1}: error: {text}{'; ' if change else ''}{change}"
    caret = re.sub(r"\S", " ", line[: place.column - 1]) + "^"
    return head + (f"\n{place.line:5} | {line}\n      | {caret}" if line else "")


class Report:
    def __init__(self, path: str, judge: Judge, verdict: Verdict):
        self.path, self.printed, self.rule = path, judge.printed, verdict.rule
        self.line = self.printed[verdict.at]
        self.f, self.x = self.line.function or judge.unit.functions[-1], self.line.of
        self.names = Names(self.f)
        self.told = judge.ask("explain", "--annotate").stdout.split("\nalso ")[0].split("\n", 1)[-1]
        self.goals = re.findall(r"to show: (\S+ (?:<=|>=) \S+)", self.told)
        self.goal = self.names.in_text("".join(self.goals[:1]))
        self.nearest = "".join(re.findall(r"nearest: (.*)", self.told)[:1])

    def text(self) -> str:
        means, change = RULES.get(self.rule, ("", ""))
        if self.rule == 602 and self.x and self.x.op == "detach":
            change = self.cells_to_part()
        change = change or (self.claim_to_add() if self.goals else "")
        asked = [self.printed[int(number)] for number in re.findall(r"asked by line (\d+)", self.told)]
        places = [line.place for line in asked if self.rule == 505 and not line.of]  # (of an INVARIANT, not of an edge)
        place = next(place for place in [*places, self.line.place, self.f.place] if place.line)
        head = told(self.path, place, self.meaning(means), f"{change} [{self.rule}]")
        return "\n".join([head.replace(";  [", " ["), *self.facts()])

    def what(self) -> str:
        """What the refused instruction touches or does, as the C writes it."""
        x = self.x
        if x and x.object:
            return self.names.cell(x)
        if x and x.op == "call":
            return f"the call of {x.callee[1:]}"
        return self.names.made_by(x) if x and x.op in SIGNS else DOES.get(x and x.op, "this")

    def meaning(self, means: str) -> str:
        found = re.search(r"; (.*)$", self.nearest)
        may = self.names.in_text(found[1]) if found else f"nothing shows {self.goal}"
        if means and (self.goals or not re.search("{may}|{goal}", means)):
            return means.format(what=self.what(), goal=self.goal, may=may, race=self.race())
        said = "".join(re.findall(rf"^ *{self.rule}: (.*)", self.told, re.M)[:1])
        return (f"{self.what()}: " if self.rule in (502, 504) else "") + self.names.in_text(said) or SPENT

    def race(self) -> str:
        touched = re.search(r"touched: (\w+) ([@%][\w.]+)", self.told)
        pending = re.search(r"(?:pending \S+|still pending [^:]*:) (reads|writes|adds) ([@%][\w.]+)", self.told)
        if touched and pending:
            touches = f"this {touched[1]} {self.names.in_text(touched[2])}"
            return f"{touches}, cells that a SPAWN which may still run can {VERBS[pending[1]]}"
        object = f" of {self.names.in_text(pending[2])}" if pending else ""
        return "two SPAWNs that may run at once touch the same cells" + object

    def cells_to_part(self) -> str:
        """What to do where each of many SPAWNs touches all of an array, or one cell that is the same for all."""
        for mode, object, low, high in (touched := re.findall(r"touched: (\w+) ([@%][\w.]+) (\S+) (\S+)", self.told)):
            name, cell, own = self.names.in_text(object), self.names.in_text(low), set(re.findall(r"%[\w.]+", low))
            if low == "0" and high == str(self.f.extents.get(object)) != "1":
                return f"each may touch all of {name}: bound its index by its counter, or use ADD"
            written = [re.findall(r"%[\w.]+", x[2]) for x in touched if x[:2] == ("writes", object)]
            if mode == "reads" and high == f"{low}+1" and any(own.isdisjoint(registers) for registers in written):
                return f"read {name}[{cell}] into a local before, if that is meant"
        return OWN_CELLS

    def claim_to_add(self) -> str:
        """REQUIRES for parameters, INVARIANT for what a loop changes, a test for what comes from memory."""
        names, function = self.names, self.f.name[1:]
        parameters, registers = set(self.f.parameters), set(re.findall(r"%[\w.]+", self.goals[0]))
        required = self.requires_by_nearest() or (self.goal if registers <= parameters else "")
        if required:
            is_range = ".halves" in self.f.name  # (its parameters are not the author's)
            return f"let the range be such that {self.goal}" if is_range else f"add REQUIRES({required}) to {function}"
        made = [names.definitions[r] for r in sorted(registers & names.definitions.keys())]
        parts = made[:]
        for x in parts:  # (of a sum or a product in the end)
            if x.op == "call":
                return f"write ENSURES in {x.callee[1:]}: what its RESULT may be"
            if x.op == "load" and x not in made:
                return f"test {names.of(x.result)} before: memory may hold anything"
            is_sum = x.op in ("add", "sub", "mul", "sext", "trunc")
            parts += [names.definitions[value] for value in x.args if is_sum and value in names.definitions]
        for x in made:
            if x.op in ("add", "sub", "mul") and not x.nsw and isinstance(x.args[0], str):
                word = "REQUIRES" if x.args[0] in parameters else "INVARIANT or a test"
                sum = names.of(x.result)
                return f"bound {names.of(x.args[0])} from both sides by {word}, so that {sum} cannot overflow"
        if any(x.predicate[:1] == "u" and registers & set(x.args) for x in self.f.instructions()):
            return "write int64_t in place of unsigned: unsigned compares tell nothing"
        ways = [names.definitions[value] for x in made for value, _ in x.incoming if value in names.definitions]
        for x in [x for x in ways if x.op == "load"]:
            return f"test {names.of(x.result)} before the loop: memory may hold anything"
        ops = {x.op for x in made} | {x.op for x in ways if x.op in STRANGE}
        test, cells = f"test it before: if ({self.goal}) ..", self.f.extents.get(self.x and self.x.object, 0)
        if ops & {"load", "and", "or", "xor", "srem", "urem", "mul"}:
            return test + (f" , or mask the index with & {cells - 1}" if cells.bit_count() == 1 else "")
        if "phi" in ops and self.rule == 505:
            return "say more in INVARIANT, or test it in the loop"
        return f"add INVARIANT({self.goal}) in the loop" if "phi" in ops else test

    def requires_by_nearest(self) -> str:
        """The bound of a parameter with which the nearest facts would do."""
        found = re.search(r"may be (-?\d+)(?: more than \S+)?, and has to be at (most|least) (-?\d+)", self.nearest)
        for name, relation, bound in re.findall(r"(%[\w.]+) (<=|>=) (-?\d+) \(", self.nearest) if found else ():
            if name in self.f.parameters and (relation == "<=") == (found[2] == "most"):
                return f"{name[1:]} {relation} {int(bound) - int(found[1]) + int(found[3])}"
        return ""

    def facts(self) -> list[str]:
        """What is to be shown and what is known, at lines of the C."""
        out, known = [], 0
        for line in self.told.split("\n"):
            known = known + 1 if "known:" in line else 0
            if re.match(SHOWN, line) and known <= MOST_FACTS:
                line = re.sub(r"(reads|writes|adds) (\S+) (\S+) (\S+)$", r"\1 \2 from \3 to before \4", line[2:])
                c_line = lambda m: f"line {self.printed[int(m[1])].place.line}"
                out.append("  " + re.sub(r"\bline (\d+)(?: and put in)?", c_line, self.names.in_text(line)))
        return list(dict.fromkeys(out))
