"""Parts of a function that become functions of their own. In: a SPAWN in a loop that has SPAWNs within it, or a
PARALLEL_FOR_HALVES, for which tapir.h has a function that halves a range. Out: a function of that part, and a call of
it. What the part takes from outside it is given, and it requires what is known of that."""
import json
from functools import partial

from .ir import Claim, Form, Function, Value
from .statements import Statements
from .tree import Node

HALVINGS = 6  # a range is halved so often, unless its length is known to be small
MOST_PARAMETERS = 13


class Parts(Statements):
    def part(self, word: str, uses: Node, body: Node) -> tuple["Parts", list[Value]]:
        """A function of a part, and what is passed to it."""
        part = Parts(self.unit, Function(f"{self.f.name}.{self.f.fresh(word)[1:]}", self.build.place), body)
        inside, part.is_child, args = body.own() | self.unit.objects.keys(), True, []
        for id, name in {id: name for id, name in uses.named() if id not in inside}.items():
            cell = self.objects.get(id)
            args.append(cell.object if cell else self.build.read(id))
            part.parameter(id, name, self.f.extents[cell.object] if cell else 0)
        return part, args

    def make(self, part: "Parts", args: list[Value], own: dict[Value, Form] = {}, forms: list[Form] = []) -> None:
        """Makes the function. Of what is known here, and of forms that name its own, it requires what is about what is
        passed."""
        text = f"a parallel part uses more than {MOST_PARAMETERS} variables"
        self.build.place.refuse(len(part.f.parameters) > MOST_PARAMETERS, text, "make a function of it")
        passed = dict(zip(args, map(Form.of, part.f.parameters))) | own
        for form in forms + [claim.form for claim in self.f.requires] + self.build.said:
            strange = Form({r: factor for r, factor in form.terms.items() if r not in passed})
            most = self.f.most(strange)
            if most is not None and strange.terms != form.terms:
                part.f.requires.append(Claim((form - strange + most).replaced(passed.get), part.f.place))
        same = [Form.of(p) - value for value, p in zip(args, part.f.parameters) if isinstance(value, int)]
        part.f.requires += [Claim(form * sign, part.f.place) for form in same for sign in (1, -1)]
        part.run()

    def outline(self, body: Node) -> None:
        part, args = self.part("child", body, body)
        self.make(part, args)
        self.build.put("call", *args, callee=part.f.name)

    def halve(self, counter: Node, high: Node, body: Node) -> None:
        """Calls a function that halves a range, gives the left half to a child, and runs the body over what is left at
        depth 0."""
        ends, header = [self.value(counter.inner[0]), self.value(high)], self.halving(counter, body)
        part, args = self.part("halves", body, header.inner[-1])
        own = {p.name: Form.of(part.parameter(p.id, p.name)) for p in header.inner if p.kind == "ParmVarDecl"}
        first, last = map(self.build.form, ends)
        size, (lo, hi, depth) = self.f.most(last - first), map(Form.of, own)
        deepest = HALVINGS if size is None else max(1, min(HALVINGS, size.bit_length() - 3))
        forms = [hi - lo, depth, -depth + deepest] + ([] if size is None else [lo - hi + size])
        self.make(part, args, own, forms + [lo - first, last - hi])
        call = partial(self.build.put, "call", *args, *ends, deepest, callee=part.f.name)
        self.chosen(partial(self.build.branch, "slt", *ends), call)

    def halving(self, counter: Node, body: Node) -> Node:
        """The header's function, whose loop has this counter and this body."""
        header = self.unit.bodies["__tapir_halved"]
        own = next(x.id for x in header.walk() if x.name == "i")
        (leaf,) = header.calls_of("__tapir_leaf")
        text = json.dumps(header.data).replace(json.dumps(leaf.data), json.dumps(body.data))
        return Node(json.loads(text.replace(own, counter.id)), body.tree)
