"""Cases for the hosts of check/, as lines of host_cases.h: modules of examples/ with arguments and cells to begin from."""
import kernel_answers
from common import EXAMPLES, KERNELS

# of the modules that are accepted and no kernels: their arguments
PLAIN = [("add-one", [41]), ("add-one", [101]), ("adding", [64]), ("fib", [12]), ("load", []), ("pair", [7]), ("pair", []), ("parallel-for", [64]), ("switch", [1])]


def line(path, arguments, cells):
    return " ".join(map(str, [path, len(arguments), *arguments, len(cells), *cells])) + "\n"


def sizes(path):
    """The names of the globals of a text, each with its number of cells."""
    parts = [part.split() for part in path.read_text().splitlines() if part.startswith("@") and " = global [" in part]
    return [(part[0], int(part[3].strip("["))) for part in parts]


def kernel_line(block):
    """A block of kernels.txt."""
    file, *lines = block.strip().split("\n")
    words = [it.split() for it in lines]
    starts = {values[0]: values[1:] for word, *values in words if word == "set"}
    cells = [v for name, count in sizes(KERNELS / file) for v in starts.get(name, []) + ["0"] * (count - len(starts.get(name, [])))]
    return line(KERNELS / file, [values[0] for word, *values in words if word == "arg"], cells)


def all_cases(each=None):
    """All cases, or at most so many of each kernel."""
    seen = {}
    found = [line(EXAMPLES / f"{name}.ll", arguments, []) for name, arguments in PLAIN]
    for block in filter(str.strip, kernel_answers.answers().split("\n\n")):
        name = block.strip().split("\n")[0]
        seen[name] = seen.get(name, 0) + 1
        if each is None or seen[name] <= each:
            found.append(kernel_line(block))
    return found
