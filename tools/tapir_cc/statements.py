"""Statements. In: a function of the tree, or a part of one that is to be a function. Out: its blocks. SPAWN becomes a
`detach` whose child ends with `reattach`, SYNC a `sync`; a variable that a SPAWN sets and others use lies in memory;
claims go to the blocks, and to the function. Each task syncs its region before it ends, where a child may still run.
Where the rounds of a loop are not counted by its step, a test before its own one may bound them."""
from collections import ChainMap
from dataclasses import dataclass, field
from functools import partial
from typing import Callable, Optional

from .expressions import COMPARES, NO_BYTES, Cell
from .ir import Block, Choice, Claim, Form, Function, Instruction, Value, Zone
from .ssa import Loop
from .tree import Node, Type
from .zones import Zones

CLAIMS = ("requires", "ensures", "keeps", "invariant")
TYPES = {"RecordDecl", "EnumDecl", "TypedefDecl"}  # what is told where it is used
SIMPLE = {"DeclRefExpr", "IntegerLiteral", "ImplicitCastExpr", "ParenExpr", "BinaryOperator"}
MOST_ROUNDS = 1 << 40
NOTHING = Node({}, None)
OUT = ("return, break, continue or goto leads out of a SPAWN", "set a variable in the SPAWN, and test it after SYNC")


@dataclass(eq=False)
class Task:
    """A function's own body, or a SPAWN."""
    first: Block
    region: str  # also a variable, which is 0 where no child is open
    known: set[str]
    given: list[Zone] = field(default_factory=list)  # the author's


class Statements(Zones):
    def __init__(self, unit, f: Function, body: Node):
        super().__init__(unit, f)
        pointed = [x.inner[0].bare.declared.id for x in body.walk() if x.kind == "UnaryOperator" and x.opcode == "&"]
        self.in_memory = set(pointed).union(*(spawn.ways().keys() - spawn.own() for spawn in body.spawns()))
        self.body, self.loops = body, self.build.loops
        self.is_child = False  # whether it is the body of a SPAWN
        self.returned: list[tuple[Value, list[Form]]] = []  # and what compares say there
        self.labels: dict[str, tuple[Block, Task]] = {}
        self.tasks: list[Task] = []
        self.new_task()
        f.extents = ChainMap({}, unit.extents)

    @property
    def task(self) -> Task:
        return self.build.tasks[0]

    def new_task(self) -> None:
        """What follows is of a task of its own."""
        self.tasks.append(Task(self.build.now, self.build.put("region", hint="region"), set(self.f.names)))
        self.build.tasks = [self.tasks[-1], *self.build.tasks]
        self.build.write(self.task.region, 0, "open")

    def run(self) -> None:
        self.value(self.body)
        self.sync()
        self.build.close("ret", *[0] * self.f.returns)
        self.f.zones = self.zones(self.tasks[0], set(self.f.parameters) - self.f.extents.keys(), False)
        for task in self.tasks[1:]:
            task.first.foot = self.zones(task, task.known, True)
        self.build.seal()
        self.conclude()
        self.f.drop_unused()
        self.unit.functions.append(self.f)

    def conclude(self) -> None:
        """Where the author says nothing, tries as ENSURES what compares say of a result, and takes as MEASURE a
        parameter that falls in each call of itself."""
        f, tried = self.f, self.build.common("%.ret", self.returned) if self.f.returns else []
        tried = [form for form in tried if form.terms.keys() <= {"%.ret", *f.parameters}]
        claims = [Claim(form, f.place, Choice(f.name, f"ensures {form}", f.place)) for form in tried[:8]]
        f.ensures += [claim for claim in claims if claim.choice not in self.unit.refused and not f.ensures]
        calls = [x for x in f.instructions() if x.callee == f.name]
        for k, own in enumerate(map(Form.of, f.parameters) if calls else ()):
            most, changes = f.most(own), [self.build.form(x.args[k]) - own for x in calls]
            if most is not None and all(not change.terms and change.constant < 0 for change in changes):
                f.notes = {"measure": f"{own} max {most}"} | f.notes

    def sync(self) -> None:
        if self.build.read(self.task.region) != 0:
            after = self.build.block("synced")
            self.build.close("sync", self.task.region, to=[after])
            self.build.start(after)
            self.build.write(self.task.region, 0, "open")

    def parameter(self, id: str, name: str, cells: int = 0) -> str:
        """A parameter of the function; of an array, its cells."""
        register = self.f.fresh(name, True)
        self.f.parameters.append(register)
        if cells:
            self.f.extents[register], self.objects[id] = cells, Cell(register, 0)
        else:
            target = self.local(id, name, 1) if id in self.in_memory else id
            self.store(target, register, Node({"name": name}, self.body.tree))
        return register

    def local(self, id: str, name: str, cells: int) -> Cell:
        object, place = self.f.fresh(name), self.f.place
        self.f.unset[object] = self.build.tries("unset")
        zeros = [] if self.f.unset[object] else [Instruction("zero", None, [object], place, object=object)]
        self.tasks[0].first.body[:0] = [Instruction("alloca", object, place=place), *zeros]
        self.f.extents[object], self.objects[id] = cells, Cell(object, 0)
        return self.objects[id]

    def of_CompoundStmt(self, node: Node) -> None:
        for x in [x for x in node.inner if x.kind not in TYPES]:
            self.value(x)

    of_DeclStmt = of_NullStmt = of_CompoundStmt

    def of_VarDecl(self, node: Node) -> None:
        first = next((x for x in node.inner if "init" in node.data and not x.kind.endswith("Attr")), NOTHING)
        type, place = node.type, node.place
        if node.data.get("storageClass") == "static":
            self.unit.add_global(node, f"{self.f.name[1:]}.{node.name}")
        elif type.is_pointer:
            moves = first is NOTHING or node.id in self.body.ways()
            place.refuse(moves, f"{node.name} is a pointer that moves", "keep the index, not the pointer")
            self.objects[node.id] = self.address(first)
        elif type.lengths:
            place.refuse(type.bytes < 4, *NO_BYTES)
            object = self.local(node.id, node.name, type.cells).object
            if first is not NOTHING:
                is_set = not self.unit.is_zero(first)
                first.place.refuse(is_set, "initial values of local arrays are not taken", "write a loop")
                self.build.put("zero", object, object=object)
        else:
            target = self.local(node.id, node.name, 1) if node.id in self.in_memory else node.id
            if first is not NOTHING or node.id == target:
                self.store(target, self.value(first), node)

    def of_IfStmt(self, node: Node) -> None:
        """What a SPAWN in a loop does is a function of its own if it has SPAWNs, which so are told apart."""
        test, *arms = node.inner
        if test.callee() == "__tapir_detach":
            self.spawn(partial(self.outline if self.loops and arms[0].spawns() else self.value, arms[0]))
        else:
            arms = [Node({"inner": [arm.data]}, arm.tree) for arm in arms]  # (which come to nothing)
            self.chosen(partial(self.condition, test), *[partial(self.of_CompoundStmt, arm) for arm in arms])

    def of_ForStmt(self, node: Node) -> None:
        first, _, test, step, body = node.inner
        self.value(first)
        if test.calls_of("__tapir_halves"):
            self.halve(first.inner[0], test.bare.inner[0].bare.inner[1], body.inner[1])
        else:
            self.loop(test, body, step)

    def of_WhileStmt(self, node: Node) -> None:
        self.loop(*node.inner)

    def of_DoStmt(self, node: Node) -> None:
        self.loop(NOTHING, node.inner[0], again=node.inner[1])

    def loop(self, test: Node, body: Node, step: Node = NOTHING, again: Optional[Node] = None) -> None:
        """A loop, which may be tested where a round begins, and where it ends. Only its step sets a counter, by one."""
        build, first, ways = self.build, self.first_of(test), step.ways()
        counters = {id: way for id, (way, *_) in ways.items() if way in ("++", "--") and id not in body.ways()}
        own = [id for id in test.ways(body, step) if id in build.values and id not in body.own()]
        starts, (end, counter) = {id: build.form(build.read(id)) for id in own}, self.bound(first, body, step)
        head, inside, latch, out = [build.block(hint) for hint in ("head", "body", "next", "end")]
        self.enter(test, first, counters, out)
        loop = Loop(out, latch, self.task, above=build.now, head=head, inside=inside, known=set(self.f.names))
        build.close("br", to=[head])
        build.start(head, set(build.values))
        self.loops.append(loop)
        made = dict(build.made)
        risen = {id: build.form(build.read(id)) - start for id, start in starts.items()}
        others = [risen[id] for id in own if id not in counters and self.unit.is_thorough]
        build.guess(head, *[form * sign for form in others for sign in (1, -1)])
        if end:
            self.test_bound(first, end, counter, loop)
        self.condition(test, inside, out)
        build.start(inside)
        known = self.known_inside(first, counters, body, risen)
        build.said = build.said + known
        ends = [build.form(build.read(id)) * sign for id in counters for sign in (1, -1)]
        build.guess(build.now, *[-end + most for end in ends if (most := self.f.most(end, build.said)) is not None])
        build.reaches, loop.inside = build.reaches + known, build.now
        self.value(body)
        build.jump(latch)
        build.start(latch)
        build.made = made  # (so a counter's next value is a register of its own, with few facts)
        self.loops.remove(loop)
        if counter:
            build.write(counter, build.binary("add", build.read(counter), 1, True), "rounds")
        self.value(step)
        if again:
            self.condition(again, head, out)
        else:
            self.go_on(loop)
        build.skip(loop.above, head, False)
        build.start(out)

    def bound(self, first: Node, body: Node, step: Node) -> tuple[int, str]:
        """Where the gap of a test falls at least as fast as a value rises, so that this is below an end wherever the
        test holds: the end, and the value, a variable that counts the rounds: there are at most as many as the gap
        begins with. Of `head < tail`, where tail grows up to 32, head is below 32, and there is no counter."""
        ways = body.ways(step)
        changed = [ways[id] for id, _ in first.named() if id in ways]
        if not self.unit.is_thorough or not changed or changed in ([{"++"}], [{"--"}]):
            return 0, ""
        if first.opcode == "<" and changed == [{"++"}, {"++"}]:
            tests = [x for x in body.walk() if x.opcode == "<" and x.inner[0].named() == first.inner[1].named()]
            ends = [x.inner[1].bare for x in tests if self.first_of(x) is x and not x.inner[1].named()]
            return self.value(ends[0]) if ends else 0, ""
        most, counter = self.f.most(self.gaps(first)[0]), "rounds " + first.id
        self.build.write(counter, 0, "rounds")
        return (most + 1, counter) if most is not None and 0 <= most < MOST_ROUNDS else (0, "")

    def first_of(self, test: Node) -> Node:
        """What holds first where a test does, if that is a signed form or compare. (The header puts a `sync` by it.)"""
        first, plain = test.bare, {"", "+", "-", "*", *COMPARES}
        while first.opcode == "&&" or first.calls_of("__tapir_sync"):
            first = first.inner[0].bare
        is_simple = all(x.kind in SIMPLE and (x.opcode in plain or not x.named()) for x in first.walk())
        return first if is_simple and "ulong" not in {x.type.base for x in first.walk()} else NOTHING

    def enter(self, test: Node, first: Node, counters: dict[str, str], out: Block) -> None:
        """Tests before a loop, too, that its counter does not begin past its end, where that is not known."""
        is_pure = not test.ways() and {x.callee() for x in test.walk()} <= {"", "__tapir_sync"}
        is_known = first is not NOTHING and self.f.shows(self.gaps(first)[0] + 1, self.build.said)
        if self.unit.is_thorough and is_pure and not is_known and counters.keys() & dict(test.named()):
            inside = self.build.block("entered")
            self.condition(test, inside, out)
            self.build.start(inside)

    def test_bound(self, test: Node, end: int, counter: str, loop: Loop) -> None:
        """Tests that the value is below the end, if it is shown that else the test itself does not hold: that the gap
        is then -1, and no less."""
        value = self.build.read(counter) if counter else self.value(test.inner[0])
        gap, risen = self.gaps(test)[0], self.build.form(value)
        room = -gap - risen + end - 1
        if self.shown("rounds", room, gap + 1):
            inside = self.build.block("rounds")
            self.build.branch("slt", value, end, inside, loop.out)
            self.build.start(inside)
            self.build.guess(loop.head, gap + 1, room, risen)

    def known_inside(self, first: Node, counters: dict[str, str], body: Node, risen: dict[str, Form]) -> list[Form]:
        """What is 0 or more in a round: a counter has not passed its start, and a test without effects holds."""
        for id in [id for id in risen if body.ways().get(id) == {"++"}]:  # (what is only raised now and then)
            self.build.reaches += [risen[id], *[risen[i] - risen[id] for i, way in counters.items() if way == "++"]]
        gaps = self.gaps(first) if first.opcode in ("<", "<=", ">", ">=") else []
        self.build.guess(self.build.now, *[gap for gap in gaps if len(gap.terms) > 2])
        return [risen[id] if way == "++" else -risen[id] for id, way in counters.items()] + gaps

    def go_on(self, loop: Loop) -> None:
        """Goes on to the head. What is to hold there is tried where the last block of a round begins, too."""
        build, made = self.build, {x.result for x in self.build.now.body}
        ends = {value: build.form(build.read(variable)) for variable, value, *_ in build.heads.get(loop.head.name, ())}
        forms = [claim.form.replaced(lambda r: ends.get(r, Form.of(r))) for claim in loop.head.keeps]
        build.guess(build.now, *[form for form in forms if not made & form.terms.keys()])
        build.jump(loop.head)

    def of_BreakStmt(self, node: Node) -> None:
        """Also `continue`, which is not of a switch."""
        loops = [loop for loop in self.loops if loop.latch or node.kind == "BreakStmt"]
        node.place.refuse(not loops or loops[-1].task is not self.task, *OUT)
        self.build.jump(loops[-1].out if node.kind == "BreakStmt" else loops[-1].latch)

    of_ContinueStmt = of_BreakStmt

    def of_ReturnStmt(self, node: Node) -> None:
        node.place.refuse(self.is_child or self.task is not self.tasks[0], *OUT)
        values = [self.value(x) for x in node.inner]
        self.returned += [(value, self.build.said) for value in values if self.build.is_reached]
        self.sync()
        self.build.close("ret", *values if self.f.returns else [])

    def of_GotoStmt(self, node: Node, word: str = "targetLabelDeclId") -> Block:
        block, task = self.labels.setdefault(node.data[word], (self.build.block("label"), self.task))
        node.place.refuse(task is not self.task, *OUT)
        self.build.jump(block)
        return block

    def of_LabelStmt(self, node: Node) -> None:
        changed = {*self.body.ways(), *[self.task.region for _ in self.body.spawns()]}
        self.build.start(self.of_GotoStmt(node, "declId"), changed, True)
        self.value(node.inner[0])

    def of_SwitchStmt(self, node: Node) -> None:
        value, build = self.value(node.inner[0]), self.build
        out, other = build.block("end"), build.block("default")
        end = build.close("switch", value, to=[other])
        self.loops.append(Loop(out, None, self.task, (end, build.edges[other.name][:], other)))
        self.value(node.inner[-1])
        self.loops.pop()
        build.jump(out)
        if other.name not in self.f.blocks:  # (there is no `default:`)
            build.start(other)
            build.jump(out)
        build.start(out)

    def of_CaseStmt(self, node: Node) -> None:
        """A case is reached from the switch and from what stands before it."""
        end, edges, block = next(loop.switch for loop in reversed(self.loops) if loop.switch)
        node.place.refuse(node.data.get("isGNURange"), "a range of cases is not taken", "write a case for each")
        if node.kind == "CaseStmt":
            block = self.build.block("case")
            end.args.append(self.value(node.inner[0]))
            end.targets.append(block.name)
        self.build.edges[block.name] = edges[:]
        self.build.jump(block)
        self.build.start(block)
        self.value(node.inner[-1])

    of_DefaultStmt = of_CaseStmt

    def spawn(self, body: Callable[[], None]) -> None:
        """A child that does this, and what follows it."""
        build, outer, region = self.build, self.build.tasks, self.task.region
        child, after = build.block("child"), build.block("continuation")
        build.close("detach", region, to=[child, after])
        build.start(child)
        self.new_task()
        body()
        self.sync()
        build.tasks = outer
        build.close("reattach", region, to=[after])
        build.start(after)
        build.write(self.task.region, 1, "open")

    def say(self, kind: str, node: Node) -> None:
        """Takes a claim."""
        said, f, block, place = self.claim(node), self.f, self.build.now, self.build.place
        claims = [Claim(form, place) for form, _ in said]
        registers = {register for form, _ in said for register in form.terms}
        if kind == "keeps":
            is_made_here = registers & {x.result for x in block.body}
            (self.build.shown if is_made_here else block.keeps).extend(claims)
        elif kind == "invariant":
            heads = [x for x in self.loops if x.head and registers <= x.known | {phi.result for phi in x.head.phis}]
            is_first = heads and heads[-1].task is self.task and block in (heads[-1].inside, self.loops[-1].inside)
            text = "INVARIANT stands first in a loop, and is about what is known where a round begins"
            place.refuse(not is_first, text, "write it first in the loop, before any if")
            heads[-1].head.keeps += claims
            phis = {phi.result for phi in heads[-1].head.phis}  # (of `i <= n` it is guessed that i is an index below n)
            for form, is_loose in said:
                self.build.reaches.append(form - int(is_loose and any(form.terms.get(r, 0) < 0 for r in phis)))
        else:
            about, result = ("parameters and RESULT", ["%.ret"]) if kind == "ensures" else ("parameters", [])
            is_first = block is self.tasks[0].first and registers <= {*f.parameters, *result}
            text = f"{kind.upper()} stands first in a function, and is about {about}"
            place.refuse(not is_first, text, "write one claim for each compare, before any if")
            (f.requires if kind == "requires" else f.ensures).extend(claims)

    def marker(self, word: str, node: Node) -> Value:
        args, f = node.inner[1:], self.f
        if word in CLAIMS:
            self.say(word, args[0])
        elif word == "result":
            return "%.ret"
        elif word == "sync":
            self.sync()
        elif word == "add":
            at = args[0].unconverted
            (object, index), type = self.address(at), at.type._replace(is_pointer=False)
            at.place.refuse(type.base in ("uint", "bool"), "ADD to unsigned or bool is not taken", "write int64_t")
            value = self.converted(self.value(args[1]), Type("long"), type)
            self.build.put("atomic", value, object=object, index=index)
        elif word in ("reads", "writes", "adds"):
            object, index = self.address(args[0].unconverted)
            ends = [self.build.form(self.value(x)) + self.build.form(index) for x in args[1:]]
            self.task.given.append(Zone(word, object, *ends))
        elif word in ("measure", "budget"):
            first, last = [self.build.form(self.value(x)) for x in args]
            is_open = word == "measure" and last.terms
            node.place.refuse(is_open, "the most of a MEASURE is a number", "write MEASURE(depth, 20)")
            f.notes[word] = f"{first} {'max ' if word == 'measure' else ''}{last}"
        elif word == "halved":
            self.build.put("call", *f.parameters[:-3], *map(self.value, args), callee=f.name)
        return 0
