"""What the tests of the library for firmware share: what is built, and how programs in C are made over it."""
import os

from library_tests.common import ROOT, ended, needs, same
from library_tests.common import PROGRAM as PROVED

HERE = f"{ROOT}/tests/node_tests"
NODE = f"{ROOT}/node"
TARGETS = ("aarch64", "riscv32", "riscv64", "thumbv7em", "thumbv7m", "x86_64")
BUILT = f"{NODE}/out/{os.uname().machine}"
LIBRARY = f"{BUILT}/lib/libsorachest_node.a"
PROGRAM = os.environ.get("SORACHEST_PROGRAM", PROVED)

# The library's own files in C, compiled anew, over the program as it is.
PARTS = [f"{NODE}/{it}.c" for it in ("sorachest_node", "turns", "system", "values")] + [f"{BUILT}/program.o", f"{BUILT}/switch.o"]
WARNINGS = ["-std=c11", "-D_POSIX_C_SOURCE=200809L", "-O1", "-g", "-Wall", "-Wextra", "-Werror", f"-I{NODE}"]
SANITIZED = ["-fsanitize=address,undefined", "-fno-sanitize-recover=all", "-DSORACHEST_WATCHED"]
WAYS = {
    "plain": [LIBRARY],
    "sanitized": [*SANITIZED, *PARTS],
    "watched": ["-DSORACHEST_WATCHED", *PARTS],
    "threads": ["-DTHREADS", "-pthread", LIBRARY],
    "races": ["-DTHREADS", "-pthread", "-fsanitize=thread", *PARTS],
}


def compiled(name, way="plain"):
    """The path of a program of this folder over the library."""
    needs("cc", *(["valgrind"] if way == "watched" else []))
    made = os.path.abspath(f"{name}-{way}")
    status, _, said = ended(["cc", *WARNINGS, f"{HERE}/{name}.c", f"{HERE}/chip.c", *WAYS[way], "-o", made])
    same((status, said), (0, ""), f"what the compiler said of {name} {way}")
    return made


def program(*words):
    """The status of the program, and what it wrote."""
    return ended([PROGRAM, *words])[:2]
