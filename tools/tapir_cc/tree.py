"""The tree that clang makes of a C file. In: the file, and words for clang. Out: nodes, each with its kind, its type
and its place in the C; the constants of enumerations. What clang itself refuses it tells itself."""
import json
import math
import re
import shutil
import subprocess
import sys
from functools import cache, cached_property
from typing import Iterator, NamedTuple

from .ir import Place

FLAGS = ["-w", "-fsyntax-only", "-DTAPIR_CC"]
SETS = {"CompoundAssignOperator", "UnaryOperator", "BinaryOperator"}
VARIABLES = {"VarDecl", "ParmVarDecl"}
QUALIFIERS = re.compile(r"\b(?:const|restrict|__restrict|register)\b ?")
TYPE = re.compile(r"(\w[\w ]*?) ?(\*|\(\*\))? ?((?:\[\d+\])*)")
WORDS = {"long": "long", "long long": "long", "unsigned long": "ulong", "unsigned long long": "ulong", "int": "int"}
WORDS |= {"unsigned int": "uint", "_Bool": "bool", "bool": "bool", "void": "void"}
NOT_TAKEN = [  # where a type has it: what is told, and what to write
    (r"struct|union", "a struct is not taken", "make an array for each field"),
    (r"\(", "a call through a pointer is not taken", "name the function"),
    (r"volatile|_Atomic", "volatile and atomic memory is not taken, but for ADD",
     "write ADD(&x, v), or leave volatile out"),
    (r"\*", "a pointer in memory or to a pointer is not taken", "keep an index in place of a pointer"),
    (r"double|float", "{} is not taken", "compute in whole numbers, scaled (x * 4096)"),
    ("", "{} is not taken", "write int64_t, int or bool"),
]  # fmt: skip


class Type(NamedTuple):
    """long, ulong, int, uint, bool or void, or the text of a type that is not taken; an array's lengths; whether it is
    a pointer to that."""
    base: str
    lengths: tuple[int, ...] = ()
    is_pointer: bool = False

    @property
    def cells(self) -> int:
        return math.prod(self.lengths)

    @property
    def bytes(self) -> int:
        return 8 if self.is_pointer or "long" in self.base else 4 if "int" in self.base else 1

    @property
    def is_number(self) -> bool:
        return self.base in WORDS.values() and self.base != "void" and not self.lengths and not self.is_pointer

    def check(self, place: Place) -> None:
        """Tells a type that is not taken."""
        for word, text, change in NOT_TAKEN if self.base not in WORDS.values() else ():
            place.refuse(re.search(word, self.base), text.format(self.base), change)


class Node:
    def __init__(self, data: dict, tree: "Tree"):
        self.data, self.tree = data, tree
        self.kind = data.get("kind", "")
        self.name, self.id, self.opcode = data.get("name", ""), data.get("id", ""), data.get("opcode", "")

    @cached_property
    def inner(self) -> list["Node"]:
        return [Node(x, self.tree) for x in self.data.get("inner") or self.data.get("array_filler", [])[1:]]

    @cached_property
    def type(self) -> Type:
        return self.type_at("type")

    def type_at(self, word: str) -> Type:
        type = self.data.get(word, {})
        return self.tree.type_of(type.get("desugaredQualType") or type.get("qualType", "void"))

    @cached_property
    def place(self) -> Place:
        at = self.data.get("loc") or self.data.get("range", {}).get("begin", {})
        outside = at.get("expansionLoc", at)
        at = at["spellingLoc"] if outside.get("isMacroArgExpansion") else outside
        return Place(at.get("line", 0), at.get("col", 0), at.get("file", ""))

    @cached_property
    def declared(self) -> "Node":
        """What a name names, in short."""
        return Node(self.data.get("referencedDecl", {}), self.tree)

    @cached_property
    def bare(self) -> "Node":
        return self.inner[-1].bare if self.kind in ("ParenExpr", "ConstantExpr", "AttributedStmt") else self

    @property
    def unconverted(self) -> "Node":
        """What is passed as a pointer to anything."""
        is_cast = self.bare.data.get("castKind") in ("BitCast", "ArrayToPointerDecay")
        return self.bare.inner[0].unconverted if is_cast else self.bare

    def walk(self) -> Iterator["Node"]:
        yield self
        for node in self.inner:
            yield from node.walk()

    def callee(self) -> str:
        """The function that a call names; none where it is no call, or one through a pointer."""
        parts = list(self.inner[0].walk()) if self.kind == "CallExpr" else []
        named = [x.declared.name for x in parts if x.declared.kind == "FunctionDecl"]
        return named[0] if named and all(len(x.inner) < 2 for x in parts) else ""

    def calls_of(self, name: str) -> list["Node"]:
        return [x for x in self.walk() if x.callee() == name]

    def spawns(self) -> list["Node"]:
        return [x for x in self.walk() if x.kind == "IfStmt" and x.inner[0].callee() == "__tapir_detach"]

    def own(self) -> set[str]:
        """The variables that are declared in it."""
        return {x.id for x in self.walk() if x.kind in VARIABLES}

    def named(self) -> list[tuple[str, str]]:
        """The variables that it names, as often as it does: id and name."""
        named = [x.declared for x in self.walk() if x.kind == "DeclRefExpr"]
        return [(x.id, x.name) for x in named if x.kind in VARIABLES]

    def ways(self, *others: "Node") -> dict[str, set[str]]:
        """The variables that it sets, or others do, and how."""
        ways: dict[str, set[str]] = {}
        for x in [x for node in (self, *others) for x in node.walk() if x.kind in SETS]:
            if x.opcode in ("=", "++", "--") or x.kind == "CompoundAssignOperator":
                ways.setdefault(x.inner[0].bare.declared.id, set()).add(x.opcode)
        return ways


class Tree:
    def __init__(self, clang: str, words: list[str]):
        if not shutil.which(clang):
            sys.exit(f"tapir-cc: no {clang} here: install it (Debian: apt-get install clang), or name it by --clang")
        self.command = [clang, *FLAGS, *words, "-Xclang"]
        self.types: dict[str, str] = {}  # a typedef or an enumeration -> what it stands for
        self.constants: dict[str, int] = {}  # an enumerator's id -> its value
        self.file, self.line = "", 0
        self.declarations = Node(json.loads(self.printed("-ast-dump=json"), object_hook=self.filled), self).inner
        for node in self.declarations:
            if node.kind == "EnumDecl":
                value = -1
                for constant in [x for x in node.inner if x.kind == "EnumConstantDecl"]:
                    given = [int(x.data["value"]) for x in constant.inner if "value" in x.data]
                    self.constants[constant.id] = value = given[0] if given else value + 1
                is_signed = any(self.constants.get(x.id, 0) < 0 for x in node.inner)
                self.types[f"enum {node.name}"] = self.types[node.id] = "int" if is_signed else "unsigned int"
            elif node.kind == "TypedefDecl":
                owned = [x["ownedTagDecl"]["id"] for x in node.data.get("inner", []) if "ownedTagDecl" in x]
                self.types[node.name] = self.types.get("".join(owned), node.data["type"]["qualType"])

    @cache
    def printed(self, word: str) -> str:
        done = subprocess.run([*self.command, word], capture_output=True, text=True)
        if done.returncode:
            sys.exit(done.stderr.rstrip())
        return done.stdout

    def filled(self, data: dict) -> dict:
        """Of a place clang prints file and line only where they are not those of the place before."""
        if "col" in data:
            self.file, self.line = data.get("file", self.file), data.get("line", self.line)
            data["file"], data["line"] = self.file, self.line
        return data

    def type_of(self, text: str) -> Type:
        text = QUALIFIERS.sub("", text).strip()
        found = TYPE.fullmatch(text)
        if not found:
            return Type(text)
        base, lengths = found[1], tuple(map(int, re.findall(r"\d+", found[3])))
        named = self.type_of(self.types[base]) if self.types.get(base, base) != base else Type(WORDS.get(base, base))
        return Type(text) if named.is_pointer else Type(named.base, lengths + named.lengths, bool(found[2]))

    def length(self, function: str, parameter: str) -> int:
        """How many rows a function says that its array has; 0 where it does not say so. (The tree has pointers.)"""
        head = rf"^\S.*?\b{function}\(.*?\b{parameter}\[[^\]\d]*(\d+)\].*\)\s*\{{$"
        found = re.search(head, self.printed("-ast-print"), re.M)
        return int(found[1]) if found else 0
