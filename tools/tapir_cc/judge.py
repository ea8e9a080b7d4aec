"""Has `tapirvm verify --annotate` judge what was printed. In: the tree. Out: the file, and the last verdict. Where a
way is refused that was only tried, all is translated again without it; none changes what the module does."""
import pathlib
import re
import subprocess
from typing import NamedTuple, Optional

from .ir import Choice
from .printer import Line, print_module
from .translate import translate
from .tree import Tree

MOST_TRIES = 200
UNJUDGED = -1  # a rule's number, where there is no program


class Verdict(NamedTuple):
    output: str
    status: int
    rule: int = 0
    at: int = 0  # the line of the module


class Judge:
    """One way to translate a file, which may put in more tests. Without a program nothing that was tried stays."""

    def __init__(self, program: Optional[str], file: str, tree: Tree, entry: str, effort: str, is_thorough: bool):
        self.program, self.file, self.effort = program, file, f"--effort={effort}"
        self.tree, self.entry, self.is_thorough = tree, entry, is_thorough
        self.refused: set[Choice] = set()

    def ask(self, *words: str) -> subprocess.CompletedProcess:
        return subprocess.run([self.program, *words, self.file, self.effort], capture_output=True, text=True)

    def verdict(self) -> Verdict:
        self.unit = translate(self.tree, self.entry, self.refused, self.is_thorough)
        self.printed: list[Line] = print_module(self.unit)
        pathlib.Path(self.file).write_text("".join(line.text + "\n" for line in self.printed[1:]))
        if self.program is None:
            return Verdict("", 0, UNJUDGED)
        done = self.ask("verify", "--annotate")
        found = re.search(r"refused (\d+) line (\d+)", done.stdout)
        return Verdict(done.stdout + (done.stderr if done.returncode else ""), done.returncode, *map(int, found.groups() if found else ()))

    def judge(self) -> Verdict:
        for _ in range(MOST_TRIES):
            verdict = self.verdict()
            tried = self.tried(verdict) - self.refused if verdict.rule else set()
            if not tried:
                break
            self.refused |= tried
        return verdict

    def tried(self, verdict: Verdict) -> set[Choice]:
        """The ways on which what is refused rests."""
        line = self.printed[verdict.at]
        f, x, choices = line.function, line.of, {line.choice}
        if verdict.rule == UNJUDGED:
            choices = {line.choice for line in self.printed} | {line.of.nsw for line in self.printed if line.of}
        elif verdict.rule in (402, 503) and x:
            choices |= {x.nsw, *map(f.unset.get, [x.object, *x.args])}
        elif verdict.rule in (601, 604) and x:
            choices |= {f.tried.get(x.object)} if x.object else set(f.tried.values())
        elif verdict.rule in (505, 506, 507):
            asked = re.findall(r"asked by line (\d+)", self.ask("explain", "--annotate").stdout)
            choices |= {self.printed[int(number)].choice for number in asked}
        return choices - {None}
