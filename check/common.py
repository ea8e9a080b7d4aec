"""What the scripts of check/ and bench/ share: where things are, their words, the program, and how they end."""
import argparse
import os
import pathlib
import subprocess
import sys

sys.path.insert(0, str(pathlib.Path(__file__).resolve().parent.parent / "tools"))
from crates import TOP, kit

DATA = TOP / "crates/cases_machine/data"
EXAMPLES = DATA / "examples"
KERNELS = EXAMPLES / "kernels"


def parser(text):
    """A parser of a script's words. Its help is the script's own text."""
    return argparse.ArgumentParser(description=text, formatter_class=argparse.RawDescriptionHelpFormatter)


def parser_with_program(text):
    asked = parser(text)
    asked.add_argument("tapirvm", nargs="?", metavar="TAPIRVM", help="the program; where none is named, that of this checkout")
    return asked


def program(path=None, crate="tapirvm"):
    """The path of the program that is named, or of the crate's in this checkout, which is built where it is not there."""
    return os.path.realpath(path or subprocess.run([TOP / "tools/program", crate], check=True, capture_output=True, text=True).stdout.strip())


def end(bad, summary):
    """Prints what is wrong and the summary, and ends: with status 1 where something is wrong."""
    print("\n".join([*bad, summary]))
    sys.exit(1 if bad else 0)
