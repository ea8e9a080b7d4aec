"""Functions of blocks of instructions over i64, and linear forms over their registers: what stands between the C's tree
and our text."""
from __future__ import annotations

import itertools
import re
from dataclasses import dataclass, field
from typing import Callable, NamedTuple, Optional, Sequence, Union

BINARY = {"add", "sub", "mul", "sdiv", "udiv", "srem", "urem", "shl", "lshr", "ashr", "and", "or", "xor"}
PURE = BINARY | {"trunc", "sext", "icmp", "phi", "load", "alloca", "region"}
MOST_TERMS = 4  # of a form that is annotated
MOST_STEPS = 6  # from a register to what bounds it
MOST_NAME = 56  # letters of a name, before its number

Value = Union[int, str]  # a number, or the name of a register (`%x`) or a global (`@a`)


@dataclass(frozen=True)
class Form:
    """A sum of registers with factors, none of which is 0, and a constant, as annotations have it: `3*%n-%i+2`."""
    terms: dict[str, int] = field(default_factory=dict)
    constant: int = 0

    @staticmethod
    def of(value: Value) -> Form:
        return Form({value: 1}) if isinstance(value, str) else Form(constant=value)

    def plus(self, other: Union[Form, int], times: int = 1) -> Form:
        other = other if isinstance(other, Form) else Form(constant=other)
        terms = {r: self.terms.get(r, 0) + times * other.terms.get(r, 0) for r in self.terms | other.terms}
        return Form({r: factor for r, factor in terms.items() if factor}, self.constant + times * other.constant)

    __add__ = plus

    def __sub__(self, other: Union[Form, int]) -> Form:
        return self.plus(other, -1)

    def __mul__(self, factor: int) -> Form:
        return Form().plus(self, factor)

    def __neg__(self) -> Form:
        return self * -1

    def replaced(self, of: Callable[[str], Form]) -> Form:
        """The form with each register replaced by a form."""
        return sum((of(register) * factor for register, factor in self.terms.items()), Form(constant=self.constant))

    def __str__(self) -> str:
        parts = [f"{factor:+d}*{register}" for register, factor in sorted(self.terms.items())]
        text = "".join(parts).replace("+1*", "+").replace("-1*", "-").lstrip("+")
        return text + f"{self.constant:+d}" if text and self.constant else text or str(self.constant)


def reach(form: Form, facts: list[Form], known: set[str] = frozenset(), gone: tuple = ()) -> list[tuple[Form, int]]:
    """What a form is at most, over what is known, by facts, which are 0 or more, and how many that takes. What is gone
    does not come again."""
    register = next((r for r in reversed(form.terms) if r not in known), None)
    if register is None or register in gone or len(gone) == MOST_STEPS:
        return [(form, len(gone))] * (register is None and len(form.terms) <= MOST_TERMS)
    factor, facts_of = form.terms[register], [x for x in reversed(facts) if register in x.terms]
    ways = [(x, times) for x in facts_of for times in {1, abs(factor)} if x.terms[register] * times == -factor]
    ends = {str(end): end for end in [form.plus(*way) for way in ways]}
    return [most for end in ends.values() for most in reach(end, facts, known, (*gone, register))]


class Place(NamedTuple):
    """A place in the C; line 0 where it is not known."""
    line: int = 0
    column: int = 0
    file: str = ""

    def refuse(self, is_refused: object, text: str, change: str = "") -> None:
        """Tells C that is not taken: why, and what to write in its place."""
        if is_refused:
            raise Fault(self, text, change)


class Fault(Exception):
    """C that is not taken; its words are those of `report.told`."""


class Choice(NamedTuple):
    """A way that is only tried, the number of which is that of its kind in this place."""
    function: str
    word: str
    place: Place
    number: int = 0


class Claim(NamedTuple):
    """That a form is 0 or more: said by the author, or tried."""
    form: Form
    place: Place
    choice: Optional[Choice] = None


class Zone(NamedTuple):
    """Cells of an object from `low` to before `high`, and what is done to them: reads, writes or adds."""
    mode: str
    object: str
    low: Form
    high: Form


@dataclass(eq=False)
class Instruction:
    """An instruction or a terminator. Of LLVM's `br` has a target, `cbr` two (true, false), `switch` the default's
    first and its numbers behind its value. Tapir's are `detach` (child, continuation), `reattach` and `sync`. Ours:
    `region` (its start), `atomic` (addition), `zero` (of a whole object)."""
    op: str
    result: Optional[str] = None
    args: list[Value] = field(default_factory=list)
    place: Place = Place()
    predicate: str = ""  # of icmp
    nsw: Optional[Choice] = None  # that it does not overflow is tried
    incoming: list[tuple[Value, object]] = field(default_factory=list)  # of phi: each with the edge that brings it
    targets: list[str] = field(default_factory=list)
    callee: str = ""
    object: Optional[str] = None  # of memory's instructions: what they touch, and the cell
    index: Optional[Value] = None
    shows: list[Claim] = field(default_factory=list)  # what is shown before it
    tasks: Sequence = ()  # the SPAWNs that it is in, and the function's own body

    def uses(self) -> list[Optional[Value]]:
        own = [value for value, _ in self.incoming] + self.args + [self.index, self.object]
        return own + [register for claim in self.shows for register in claim.form.terms]


@dataclass(eq=False)
class Block:
    name: str
    phis: list[Instruction] = field(default_factory=list)
    body: list[Instruction] = field(default_factory=list)
    end: Instruction = None
    keeps: list[Claim] = field(default_factory=list)
    foot: list[Zone] = field(default_factory=list)  # the author's, of a child

    def all(self) -> list[Instruction]:
        return [*self.phis, *self.body, self.end]


@dataclass(eq=False)
class Function:
    name: str
    place: Place
    returns: bool = False
    parameters: list[str] = field(default_factory=list)
    blocks: dict[str, Block] = field(default_factory=dict)
    names: set[str] = field(default_factory=set)
    c_names: dict[str, str] = field(default_factory=dict)  # register -> variable
    extents: dict[str, int] = field(default_factory=dict)  # object -> cells
    requires: list[Claim] = field(default_factory=list)
    ensures: list[Claim] = field(default_factory=list)
    zones: list[Zone] = field(default_factory=list)  # the author's
    notes: dict[str, str] = field(default_factory=dict)  # measure and budget
    unset: dict[str, Choice] = field(default_factory=dict)  # a local -> that it is set before it is read
    tried: dict[str, Choice] = field(default_factory=dict)  # an object -> that its zones are less than the whole

    def fresh(self, hint: str, is_plain: bool = False) -> str:
        """A new name, as our language takes it; without a number where it may be."""
        stem = "%" + re.sub(r"\W", "_", hint, flags=re.ASCII)[:MOST_NAME]
        ends = itertools.chain([""] * is_plain, (f".{k}" for k in itertools.count(1)))
        name = next(stem + end for end in ends if stem + end not in self.names)
        self.names.add(name)
        return name

    def instructions(self) -> list[Instruction]:
        return [x for block in self.blocks.values() for x in block.all()]

    def definitions(self) -> dict[str, Instruction]:
        return {x.result: x for x in self.instructions() if x.result}

    def most(self, form: Form, facts: Sequence[Form] = ()) -> Optional[int]:
        """The greatest value of a form, by what the function requires, and by facts."""
        found = reach(form, [*[claim.form for claim in self.requires], *facts])
        return min((most.constant for most, _ in found), default=None)

    def shows(self, form: Form, facts: Sequence[Form]) -> bool:
        """Whether a form is 0 or more."""
        least = self.most(-form, facts)
        return least is not None and least <= 0

    def drop_unused(self) -> None:
        """Takes out what no effect and no claim rests on, also what only uses itself round a loop."""
        definitions, blocks, live = self.definitions(), self.blocks.values(), set()
        said = [claim.form for block in blocks for claim in block.keeps if not claim.choice]
        said += [form for block in blocks for zone in block.foot for form in (zone.low, zone.high)]
        work = [register for form in said for register in form.terms]
        work += [value for x in self.instructions() if x.op not in PURE for value in x.uses()]
        while work:
            value = work.pop()
            if value in definitions and value not in live:
                live.add(value)
                work += definitions[value].uses()
        for block in blocks:
            block.phis = [x for x in block.phis if x.result in live]
            block.body = [x for x in block.body if x.op not in PURE or x.result in live]
            block.keeps = [claim for claim in block.keeps if not claim.form.terms.keys() & definitions.keys() - live]
