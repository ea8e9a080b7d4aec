"""Zones and feet. In: what a function touches, in which SPAWNs, and what its loops show. Out: the cells that it may
touch, over its parameters, and those of each SPAWN, over what is known at its start. What the author says of an object
takes the place of what is found; where no bounds are found, a zone is the whole array."""
from itertools import product
from operator import attrgetter, itemgetter
from typing import Optional

from .expressions import Expressions
from .ir import Choice, Form, Instruction, Zone, reach

MODES = {"load": "reads", "store": "writes", "zero": "writes", "atomic": "adds"}


class Zones(Expressions):
    def zones(self, task, known: set[str], is_child: bool) -> list[Zone]:
        """The zones of a task, over registers that are known."""
        hidden = {zone.object for zone in task.given} | {o for o in self.f.unset if not is_child}
        touches = [x for x in self.f.instructions() if task in x.tasks]
        zones = [zone for x in touches for zone in self.touched(x, known) if zone.object not in hidden]
        return task.given + merged([self.over(known, zone) for zone in zones])

    def touched(self, x: Instruction, known: set[str]) -> list[Zone]:
        """What an instruction touches, by its index or by its callee's zones."""
        if x.op in MODES:
            low, cells = (Form(), self.f.extents[x.object]) if x.op == "zero" else (self.named(x.index, known), 1)
            return [Zone(MODES[x.op], x.object, low, low + cells)]
        callees = [g for g in [self.f, *self.unit.functions] if g.name == x.callee]
        passed = {p: value for g in callees for p, value in zip(g.parameters, x.args)}
        zones = [zone._replace(object=passed.get(zone.object, zone.object)) for g in callees for zone in g.zones]
        ends = [[end.replaced(lambda r: self.named(passed[r], known)) for end in (z.low, z.high)] for z in zones]
        return [zone._replace(low=low, high=high) for zone, (low, high) in zip(zones, ends)]

    def named(self, value, known: set[str]) -> Form:
        return Form.of(value) if value in known else self.build.form(value)

    def over(self, known: set[str], zone: Zone) -> Zone:
        """A zone over what is known: what it reaches at most, and the least that does not depend on more."""
        choice = self.f.tried.setdefault(zone.object, Choice(self.f.name, "zone of " + zone.object, self.f.place))
        lows, highs = reach(-zone.low, self.build.reaches, known), reach(zone.high, self.build.reaches, known)
        ends, whole = [], (Form(), Form(constant=self.f.extents[zone.object]))
        for (low, first), (high, last) in product(lows, highs) if choice not in self.unit.refused else ():
            size, terms = low + high, len(low.terms) + len(high.terms)
            ends.append((len(size.terms), terms if size.terms else size.constant, first + last, low, high))
        *_, low, high = min(ends, key=itemgetter(0, 1, 2), default=whole)
        return zone._replace(low=-low, high=high)


def merged(zones: list[Zone]) -> list[Zone]:
    """Joins zones, and leaves out what is read or added to where all of it is written."""
    out: list[Zone] = []
    for zone in sorted(zones, key=attrgetter("mode"), reverse=True):
        k = next((k for k, old in enumerate(out) if old[:2] == zone[:2] and joined(old, zone)), len(out))
        out[k : k + 1] = [joined(out[k], zone) if k < len(out) else zone]
    written = [zone for zone in out if zone.mode == "writes"]
    return [x for x in out if x in written or all(old.object != x.object or joined(old, x) != old for old in written)]


def joined(old: Zone, new: Zone) -> Optional[Zone]:
    """One zone of an object in place of two that overlap or touch by a known number of cells."""
    if not (old.low - new.low).terms and not (old.high - new.high).terms:
        at = attrgetter("constant")
        return old._replace(low=min(old.low, new.low, key=at), high=max(old.high, new.high, key=at))
    if new.low == old.high:
        return old._replace(high=new.high)
    return old._replace(low=new.low) if new.high == old.low else None
