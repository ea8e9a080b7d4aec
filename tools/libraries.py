"""The static and the shared library for hosts in C, made of what `rt lib` made, of the kit's C and of bindings/c: for tools/install and check/embed."""
import os
import pathlib
import re
import subprocess
import tempfile
from crates import TOP, kit

HEADERS = [TOP / "include/tapirvm.h", TOP / "bindings/c/tapirvm_threads.h"]
THREADS = TOP / "bindings/c/tapirvm_threads.c"
COMPILE = [os.environ.get("CC", "cc"), "-std=c11", "-D_GNU_SOURCE", "-O2", "-pthread", "-I", str(TOP / "include"), "-I", str(TOP / "bindings/c")]
NAMES = "TAPIRVM_{major} {{ global: tapirvm_*; local: *; }};\n"


def version():
    """The major and the minor number that the header gives its calls."""
    text = HEADERS[0].read_text()
    return tuple(int(re.search(rf"^#define TAPIRVM_{part} (\d+)$", text, re.M).group(1)) for part in ("MAJOR", "MINOR"))


def archive(library, to):
    """One static library that holds `rt lib`'s, all that it needs of the kit, and the threads."""
    to.unlink(missing_ok=True)
    with tempfile.TemporaryDirectory() as room:
        threads = pathlib.Path(room, "tapirvm_threads.o")
        subprocess.run([*COMPILE, "-Wall", "-Wextra", "-fPIC", "-c", THREADS, "-o", threads], check=True)
        parts = [f"addlib {part}\n" for part in (library, kit() / "c/liblibc_c.a", kit() / "c/libos_c.a")]
        script = "".join([f"create {to}\n", *parts, f"addmod {threads}\n", "save\nend\n"])
        subprocess.run(["ar", "-M"], input=script, text=True, check=True)


def shared(library, folder):
    """The shared library of a static one: the file of its version, the name that programs ask the loader for, and the one that the linker looks for."""
    major, minor = version()
    name = f"libtapirvm.so.{major}"
    with tempfile.NamedTemporaryFile("w", suffix=".map") as names:
        names.write(NAMES.format(major=major))
        names.flush()
        words = [COMPILE[0], "-shared", "-pthread", f"-Wl,-soname,{name}", f"-Wl,--version-script={names.name}", "-Wl,-z,defs"]
        subprocess.run([*words, "-Wl,--whole-archive", library, "-Wl,--no-whole-archive", "-o", folder / f"{name}.{minor}"], check=True)
    for link, to in [(name, f"{name}.{minor}"), ("libtapirvm.so", name)]:
        (folder / link).unlink(missing_ok=True)
        (folder / link).symlink_to(to)
    return folder / name
