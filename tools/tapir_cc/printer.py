"""Prints a module. In: globals and functions with all that was found. Out: its lines, each with the place in the C and
what it stands for, by which refusals are mended and told."""
from typing import Iterator, NamedTuple, Optional

from .ir import BINARY, Block, Choice, Claim, Function, Instruction, Place

FORMATS = {
    **dict.fromkeys(BINARY, "{x.op}{nsw} i64 {0}, {1}"),
    **dict.fromkeys(("detach", "reattach", "sync"), "{x.op} within {0}, {labels}"),
    "alloca": "alloca [{cells} x i64]", "atomic": "atomicrmw add ptr {at}, i64 {0} seq_cst", "br": "br {labels}",
    "call": "call {type} {x.callee}({passed})", "cbr": "br i1 {0}, {labels}", "load": "load i64, ptr {at}",
    "icmp": "icmp {x.predicate} i64 {0}, {1}", "phi": "phi i64 {incoming}", "ret": "ret i64 {0}",
    "region": "call token @llvm.syncregion.start()", "sext": "sext i32 {0} to i64", "ret void": "ret void",
    "store": "store i64 {0}, ptr {at}",
    "switch": "switch i64 {0}, label %{x.targets[0]} [ {cases} ]", "trunc": "trunc i64 {0} to i32",
    "zero": "store [{cells} x i64] zeroinitializer, ptr {0}",
}  # fmt: skip


class Line(NamedTuple):
    """A line of the module, and the instruction that it is of or stands before; what an annotation tries."""
    text: str
    place: Place = Place()
    function: Optional[Function] = None
    of: Optional[Instruction] = None
    choice: Optional[Choice] = None


def print_module(unit) -> list[Line]:
    """The lines, which are numbered from 1 on: the first of all is none."""
    lines = [Line(""), *[Line(f"{g} = global [{n} x i64] zeroinitializer") for g, n in unit.extents.items()]]
    lines += [line for f in unit.functions for line in function(f)]
    return [line._replace(text=line.text.replace(f"@{unit.entry}(", "@main(")) for line in lines]


def claims(word: str, f: Function, claims: list[Claim], of: Optional[Instruction] = None) -> Iterator[Line]:
    for form, (_, place, choice) in {str(x.form): x for x in claims if x.form.terms or x.form.constant < 0}.items():
        yield Line(f"  ;! {word} {form} >= 0", place, f, of, choice)


def function(f: Function) -> Iterator[Line]:
    types = [f"ptr noalias dereferenceable({8 * f.extents[p]})" if p in f.extents else "i64" for p in f.parameters]
    parameters = ", ".join(f"{type} {p}" for type, p in zip(types, f.parameters))
    yield Line("", f.place, f)
    yield Line(f"define {'i64' if f.returns else 'void'} {f.name}({parameters}) {{", f.place, f)
    yield from claims("requires", f, f.requires)
    yield from claims("ensures", f, f.ensures)
    yield from [Line(f"  ;! {' '.join(map(str, zone))}", f.place, f) for zone in f.zones]
    for word, text in f.notes.items():
        yield Line(f"  ;! {word} {text}", f.place, f)
    for b in f.blocks.values():
        yield from block(f, b)
    yield Line("}", f.place, f)


def block(f: Function, block: Block) -> Iterator[Line]:
    """Addresses are taken before what goes through them."""
    addresses = {}  # of an object and an index
    first = next((x.place for x in [*block.body, block.end] if x.place.line), f.place)
    yield Line(block.name + ":", first, f)
    yield from claims("keeps", f, block.keeps)
    yield from [Line(f"  ;! foot {' '.join(map(str, zone))}", first, f) for zone in block.foot]
    for x in block.all():
        yield from claims("shows", f, x.shows, x)
        at = addresses.get((x.object, x.index), x.object)
        if at == x.object and x.index not in (None, 0):
            at = addresses[x.object, x.index] = f.fresh("p")
            yield Line(f"  {at} = getelementptr inbounds i64, ptr {x.object}, i64 {x.index}", x.place, f, x)
        yield Line("  " + instruction(f, x, at), x.place, f, x)


def instruction(f: Function, x: Instruction, at: Optional[str]) -> str:
    nsw, type, cells = " nsw" if x.nsw else "", "i64" if x.result else "void", f.extents.get(x.object or x.result)
    targets = [f"label %{target}" for target in x.targets]
    cases = " ".join(f"i64 {number}, {label}" for number, label in zip(x.args[1:], targets[1:]))
    passed = ", ".join(f"{'ptr' if value in f.extents else 'i64'} {value}" for value in x.args)
    ways = ", ".join(f"[ {value}, %{edge.block.name} ]" for value, edge in x.incoming)
    words = {"labels": ", ".join(targets), "cases": cases, "passed": passed, "incoming": ways}
    form = FORMATS[x.op if x.args or x.op != "ret" else "ret void"]
    text = form.format(*x.args, x=x, at=at, nsw=nsw, type=type, cells=cells, **words)
    return f"{x.result} = {text}" if x.result else text
