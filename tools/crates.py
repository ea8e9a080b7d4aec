"""What crates.txt says of the crates, and where the kit is: for the scripts of tools/ and docs/."""
import pathlib
import shutil
import subprocess
import sys

TOP = pathlib.Path(__file__).resolve().parent.parent


def kit():
    """The folder of the kit that proves the repository. A script that wants one ends where there is none."""
    if not shutil.which("rt"):
        sys.exit("there is no `rt` on the path: this wants the Rattle kit (README says what that is)")
    return pathlib.Path(subprocess.run(["rt", "doc"], capture_output=True, text=True, check=True).stdout.strip()).parent


def lines(text=None):
    """By name of a crate, lowest first: its line of crates.txt, or of another text of it."""
    found = {}
    for line in (TOP / "crates.txt").read_text().splitlines() if text is None else text.splitlines():
        line = line.split("#")[0].strip()
        head, parted, _ = line.partition(":")
        if parted:
            found[head.split()[0]] = line
    return found


def named(text=None):
    """By name of a crate, lowest first: the crates that its line names, those of the kit too."""
    return {name: line.partition(":")[2].split() for name, line in lines(text).items()}


def layers():
    """The headings of crates.txt, each with its crates, lowest first."""
    found = []
    for line in (TOP / "crates.txt").read_text().splitlines()[1:]:
        head, parted, _ = line.partition(":")
        if line.startswith("# "):
            found.append((line[2:], []))
        elif parted:
            found[-1][1].append(head.split()[0])
    return found


def below(name, crates):
    """The crates of the repository that a crate stands on."""
    found = set()
    for other in crates[name]:
        if other in crates:
            found |= {other} | below(other, crates)
    return found


def paths(crates):
    """How many paths there are from a crate of the repository to it or to one below it, crate by crate."""
    found = {}
    for name in crates:
        found[name] = 1 + sum(found[it] for it in crates[name] if it in crates)
    return sum(found.values())
