"""The library and the page that `try` compiles without their proofs."""
import os
import shutil

from library_tests.common import EXAMPLES, HERE, ROOT, all_forms_beside, ended, needs, read, same
from library_tests.in_a_page import has_long_addresses


def clone():
    """A clone of which nothing is built."""
    os.mkdir("clone")
    for name in ("crates", "crates.txt"):
        os.symlink(f"{ROOT}/{name}", f"clone/{name}")
    for name in (".ci", "c", "page"):
        shutil.copytree(f"{ROOT}/{name}", f"clone/{name}", ignore=shutil.ignore_patterns("out"))
    shutil.copy(f"{ROOT}/VERSION", "clone")
    return os.path.abspath("clone")


def compiled(root, source, name):
    """The path of a program in C over the library of a clone."""
    words = ["cc", "-std=c11", "-D_POSIX_C_SOURCE=200809L", "-DSTACK_KIB=256", f"-I{root}/c", source]
    status, _, said = ended([*words, f"{root}/c/out/libsorachest.a", "-o", name, "-pthread"])
    same((status, said), (0, ""), f"what the compiler said of {source}")
    return os.path.abspath(name)


def test_a_library_without_proofs_answers_as_the_program():
    needs("cc", "rt")
    root = clone()
    same(ended([f"{root}/c/build", "try"]), (0, b"", ""), "what the build said")
    example = compiled(root, f"{root}/c/example.c", "example")
    done = ended(["sh", "-c", f'exec "$0" chip.img <"{EXAMPLES}/first.aql"', example])
    same(done, (0, read(f"{EXAMPLES}/first.expected"), ""), "what the example wrote")
    calls = compiled(root, f"{HERE}/calls.c", "calls")
    all_forms_beside(lambda *words: ended([calls, *words]))


def test_a_page_without_proofs_answers_as_the_program_and_says_what_it_is():
    needs("node", "rt")
    has_long_addresses()
    root = clone()
    same(ended([f"{root}/page/build", "try"]), (0, b"", ""), "what the build said")
    version = read(f"{ROOT}/VERSION").decode().strip()
    foot = f"Version {version}, compiled without its proofs. "
    same(foot in read(f"{root}/page/out/index.html").decode(), True, "what the page says at its foot")
    held = ["node", "--experimental-wasm-memory64", f"{HERE}/calls.mjs", f"{root}/page/out"]
    all_forms_beside(lambda *words: ended([*held, *words]))
