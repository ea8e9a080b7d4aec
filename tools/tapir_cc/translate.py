"""From the tree of a C file to functions of our language. In: the tree, the function where the run begins, and the ways
that are not to be tried. Out: the functions that it needs, callees first, and the globals."""
import math
from typing import Iterator

from .expressions import NO_BYTES, NO_POINTER, Cell
from .ir import Choice, Claim, Form, Function, Place
from .parts import Parts
from .tree import Node, Tree, Type

MOST_CELLS = 1048576  # of a module's globals


class Unit:
    """What is made of a file; where it is thorough, with tests that may help, although they always hold."""

    def __init__(self, tree: Tree, entry: str, refused: set[Choice], is_thorough: bool, known: dict[str, list]):
        self.known, self.passed = known, {}  # a function -> what is passed to it: as was seen before, and now
        self.entry, self.refused, self.is_thorough = entry, refused, is_thorough
        self.objects: dict[str, Cell] = {}  # a global's id -> what it names
        self.extents: dict[str, int] = {}  # a global -> its cells
        self.initial: dict[Cell, Node] = {}  # a cell of what is const -> its number
        self.functions: list[Function] = []
        self.above = [entry]  # the functions that are being made, each called by the one before
        self.bodies = {x.name: x for x in tree.declarations if x.inner and x.inner[-1].kind == "CompoundStmt"}
        for node in [x for x in tree.declarations if x.kind == "VarDecl"]:
            self.add_global(node, node.name)

    def add_global(self, node: Node, name: str) -> None:
        type, place = node.type, node.place
        plain = node.tree.type_of(node.data["type"]["qualType"].replace("volatile ", ""))
        (plain if plain.is_number or plain.lengths else type).check(place)
        place.refuse(type.is_pointer, *NO_POINTER)
        place.refuse(plain.bytes < 4, *NO_BYTES)
        place.refuse(node.data.get("storageClass") == "extern", f"{name} is not in this file", "define it here")
        change = "make it const, or fill it in a function, or from the host (--set, --load)"
        is_const = "const" in node.data["type"]["qualType"] and name == node.name
        is_set = "init" in node.data and (is_const or not self.is_zero(node))
        place.refuse(is_set and not is_const, f"{name} has an initial value", change)
        object = "@" + name
        self.initial |= {Cell(object, at): x for at, x in self.numbers(node.inner[-1], plain.lengths)} if is_set else {}
        self.extents[object], self.objects[node.id] = plain.cells, Cell(object, 0)
        cells = sum(self.extents.values())
        change = f"a module has at most {MOST_CELLS}"
        place.refuse(cells > MOST_CELLS, f"with {name} the globals have {cells} cells", change)

    def numbers(self, node: Node, lengths: tuple[int, ...], at: int = 0) -> Iterator[tuple[int, Node]]:
        """The numbers of an initial value, each with its cell. (Those that are left out are 0.)"""
        for k, x in enumerate(node.inner if lengths else ()):
            yield from self.numbers(x, lengths[1:], at + k * math.prod(lengths[1:]))
        if not lengths and node.kind != "ImplicitValueInitExpr":
            yield at, node

    def is_zero(self, node: Node) -> bool:
        return all(x.data.get("value", "0") == "0" for x in node.walk())

    def need(self, name: str, place: Place) -> None:
        """Makes a function that the last one of `above` calls, unless it is there."""
        change = "make one function of them, with a parameter that says which"
        place.refuse(name not in self.bodies, f"{name} is not in this file", "put its code here")
        place.refuse(name in self.above[:-1], f"{self.above[-1]} and {name} call each other", change)
        if name not in (*self.above, *self.passed):
            self.above.append(name)
            self.lower(self.bodies[name])
            self.above.pop()

    def lower(self, node: Node) -> None:
        """A function's blocks."""
        type, is_entry = node.tree.type_of(node.data["type"]["qualType"].split("(")[0]), node.name == self.entry
        f = Function("@" + node.name, node.place, type.is_number)
        change = f"write int64_t {node.name}(..)"
        f.place.refuse(is_entry and not f.returns, f"{node.name} returns no number", change)
        is_taken, change = f.returns or type == Type("void"), "a result is int64_t, int, bool or void"
        f.place.refuse(not is_taken, f"what {node.name} returns is not taken", change)
        made = Parts(self, f, node.inner[-1])
        for k, p in enumerate([p for p in node.inner if p.kind == "ParmVarDecl"]):
            text = f"{p.name} is an array, and the host hands over globals alone"
            f.place.refuse(is_entry and p.type.is_pointer, text, "make it a global")
            p.type.check(f.place)
            rows = node.tree.length(node.name, p.name) if p.type.is_pointer else 0
            change = f"write int64_t {p.name}[static N]"
            f.place.refuse(p.type.is_pointer and not rows, f"the size of {p.name} is not said", change)
            own = Form.of(made.parameter(p.id, p.name, rows * p.type.cells))
            values = [args[k] for args in self.known.get(node.name, ()) if not is_entry]
            if values and all(isinstance(value, int) for value in values):
                f.requires += [Claim(form, f.place) for form in (own - min(values), -own + max(values))]
        table = [x for x in self.initial if is_entry and self.extents[x.object] > 1]
        for object in dict.fromkeys(cell.object for cell in table):  # (whatever the host handed over)
            made.build.put("zero", object, object=object)
        for object, index in table:
            made.build.put("store", made.value(self.initial[object, index]), object=object, index=index)
        made.run()


def translate(tree: Tree, entry: str, refused: set[Choice], is_thorough: bool) -> Unit:
    before, unit = None, Unit(tree, entry, refused, is_thorough, {})
    while (refused, unit.passed) != before:  # (until no variable changes in a loop that seems to)
        before, unit = (set(refused), unit.passed), Unit(tree, entry, refused, is_thorough, unit.passed)
        text = f"there is no function {entry}, where the run begins"
        Place(1, 1).refuse(entry not in unit.bodies, text, "name another one by --entry")
        unit.lower(unit.bodies[entry])
    return unit
