"""The public face of a crate, as its root file makes it, and the files of specs/ that the contracts of public functions cite."""
import functools
import re
from common import TOP

USE = re.compile(r"^pub use ([^;]+);", re.M)
ITEM = re.compile(r'^pub (?:extern "C" )?(?:const )?(?:fn|struct|enum|trait) (\w+)', re.M)
OWNER = re.compile(r"impl(?:<[^>]*>)? (?:[\w:<>', ]+ for )?(\w+)")
FUNCTION = re.compile(r'( *)pub (extern "C" )?(?:const )?fn (\w+)')
CITED = re.compile(r"ghost use Rattle\.(\w+)\.specs\.([\w.]+?)(?:\.\{([^}]*)\}| as (\w+))?;")


def used(path):
    """The names that `pub use PATH` brings."""
    inner = re.search(r"\{(.*)\}", path, re.S)
    return {name.split(" as ")[-1].split("::")[-1].strip() for name in (inner.group(1).split(",") if inner else [path])} - {""}


def items(file, folder):
    """The public items of a module and of the public modules in it."""
    text = file.read_text()
    found = set(ITEM.findall(text)).union(*(used(path) for path in USE.findall(text)))
    for module in re.findall(r"^pub mod (\w+);", text, re.M):
        found |= items(folder / f"{module}.rt", folder / module)
    return found


@functools.cache
def face(crate):
    """The names of the items that a crate's root file makes public."""
    src = TOP / "crates" / crate / "src"
    root = next((file for file in (src / "lib.rt", src / "main.rt") if file.exists()), None)
    return items(root, src) if root else set()


def heads(text):
    """Of each function with `pub`: the type that it is a method of, if of one, whether it is a call from C, its name, and its head with its contract."""
    owner, lines = None, text.split("\n")
    for place, line in enumerate(lines):
        is_of = OWNER.match(line)
        owner = is_of.group(1) if is_of else None if line.startswith("}") else owner
        is_function = FUNCTION.match(line)
        if is_function:
            end = next(at for at in range(place, len(lines)) if lines[at].rstrip().endswith(("{", "{}")))
            yield owner if is_function.group(1) else None, bool(is_function.group(2)), is_function.group(3), "\n".join(lines[place:end])


@functools.cache
def functions(crate):
    """The public functions of a crate with the files that they stand in and their heads."""
    files = sorted((TOP / "crates" / crate / "src").rglob("*.rt"))
    return [(file, name, head) for file in files for owner, is_call, name, head in heads(file.read_text())
            if is_call or (owner or name) in face(crate)]


@functools.cache
def public_names(crate):
    return face(crate) | {name for _, name, _ in functions(crate)}


def spec_file(crate, path):
    """The file of specs/ that an import names, also by way of a crate that passes it on; none where it is no file of this repository."""
    parts = [crate, *path.split(".")]
    files = (TOP / "crates" / parts[first] / "specs" / ("/".join(parts[first + 1:]) + ".antt") for first in range(len(parts) - 1))
    return next((file for file in files if file.exists()), None)


def cited():
    """The files of specs/ of this repository that contracts of public functions cite, each with those functions."""
    found = {}
    for crate in sorted(path.parent.name for path in TOP.glob("crates/*/src")):
        for file, name, head in functions(crate):
            for of, path, names, alias in CITED.findall(file.read_text()):
                spec = spec_file(of, path)
                words = [word.split(" as ")[-1].strip() for word in (names or alias or path.split(".")[-1]).split(",")]
                if spec and any(re.search(rf"(?<![\w.]){re.escape(word)}(?!\w)", head) for word in words):
                    found.setdefault(spec, []).append(f"{crate}::{name}")
    return found
