"""What the tests of the library share: what is built, how it is called beside the program, and how it is compared."""
import atexit
import os
import shutil
import subprocess
import tempfile

ROOT = os.path.dirname(os.path.dirname(os.path.dirname(os.path.realpath(__file__))))
HERE = f"{ROOT}/tests/library_tests"
EXAMPLES = f"{ROOT}/examples"
PROGRAM = os.environ.get("SORACHEST_PROGRAM", f"{ROOT}/crates/antelope_cli/out/antelope_cli")
MODULE = os.environ.get("SORACHEST_MODULE")
ARCHIVE = f"{ROOT}/c/out/libsorachest.a"
SITE = f"{ROOT}/page/out"
if MODULE:
    # a module that was named by hand stays out of the folder of the proved one
    SITE = tempfile.mkdtemp(prefix="sorachest-")
    atexit.register(shutil.rmtree, SITE)


class Skipped(Exception):
    """What a test needs is not here."""


def needs(*tools):
    for it in tools:
        if not shutil.which(it):
            raise Skipped(f"there is no {it}")


def same(got, wanted, what):
    if got != wanted:
        raise AssertionError(f"{what}: {got!r:.400}, and not {wanted!r:.400}")


def read(path):
    with open(path, "rb") as file:
        return file.read()


def write(path, content):
    with open(path, "wb") as file:
        file.write(content)


def erased(path, sectors=256):
    write(path, bytes(sectors * 4096))


def ended(command, **how):
    """The status of a command, what it wrote, and what it said."""
    done = subprocess.run(command, stdin=subprocess.DEVNULL, stdout=subprocess.PIPE, stderr=subprocess.PIPE, **how)
    return done.returncode, done.stdout, done.stderr.decode()


def program(*words):
    """The status of the program, and what it wrote."""
    return ended([PROGRAM, *words])[:2]


def example(name):
    return f"{EXAMPLES}/{name}.aql"


def beside(call, image, *words):
    """Makes a call on an image and lets the program do the same on a copy: both end, write and leave the same."""
    shutil.copy(image, f"{image}.other")
    wanted = program(words[0], f"{image}.other", *words[1:])
    same(call(words[0], image, *words[1:])[:2], wanted, f"status and replies of {words}")
    if read(image) != read(f"{image}.other"):
        raise AssertionError(f"the image after {words} is not the program's")
    return wanted


def all_forms_beside(call):
    """Every form, on images that are new, filled, full, cut and not sound."""
    erased("image")
    for name in ("first", "station", "joins", "cursors"):
        same(beside(call, "image", "run", example(name))[0], 0, f"the status of {name}")
    for words in (["dump"], ["look"], ["plan", "0"], ["plan", "32767"], ["check"], ["repair"], ["collect"]):
        same(beside(call, "image", *words)[0], 0, f"the status of {words}")
    write("line", b"\1SELECT MAX(celsius) FROM readings\xc0\2FETCH 1\xc0\7\xc0\3SELECT\xc0unfinished")
    same(beside(call, "image", "serve", "line")[0], 0, "the status of serve")
    program("gen", "image", "5", "2000")
    same(beside(call, "image", "dump")[0], 0, "the status of a long dump")
    write("many", b"CREATE RELATION n; CREATE ATTRIBUTE v DOMAIN LONG IN n;" + b"INSERT (1) INTO n;" * 900)
    erased("small", 4)
    same(beside(call, "small", "run", "many"), (3, b"ok\n" * 814 + b"no space 32\n"), "a flash that is full")
    not_sound(call)


def not_sound(call):
    """An image that a cut left is refused and put right; one that no cut leaves is refused by the repair, too."""
    erased("cut")
    program("run", "cut", example("first"))
    image = bytearray(read("cut"))
    image[1583:1585] = b"\x1e\0"
    write("cut", image)
    same(beside(call, "cut", "run", example("first"))[0], 6, "the status over an image that was cut")
    same(beside(call, "cut", "check"), (0, b"row of readings taken back\nto be repaired\n"), "what a check foretells")
    same(beside(call, "cut", "repair"), (0, b"row of readings taken back\nrepaired\n"), "its repair")
    image[9] = 1
    write("cut", image)
    for form in ("look", "check", "repair", "collect"):
        same(beside(call, "cut", form)[0], 6, f"the status of {form} over an image that is not sound")
