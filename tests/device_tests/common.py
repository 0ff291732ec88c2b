"""What the tests of boards share: boards that are built, switched on and cut off, and what their chips hold."""
import concurrent.futures
import contextlib
import importlib.machinery
import importlib.util
import os
import re
import shutil
import signal
import subprocess

ROOT = os.path.dirname(os.path.dirname(os.path.dirname(os.path.realpath(__file__))))
PORT = f"{ROOT}/port"
EXAMPLES = f"{ROOT}/examples"
PACKAGES = {
    "aarch64": "qemu-system-arm",
    "riscv64": "qemu-system-misc",
    "riscv32": "qemu-system-misc",
    "thumbv7em": "qemu-system-arm",
    "thumbv7m": "qemu-system-arm",
}
SYSTEMS = {it: f"qemu-system-{'arm' if it.startswith('thumb') else it}" for it in PACKAGES}
BLOCK, SECTOR = 0x40000, 4096
SECTORS = {"aarch64": 256, "riscv64": 128, "riscv32": 128, "thumbv7em": 128, "thumbv7m": 128}
# the boards on which nearly all is tried; on the others the examples are
MAIN = ("aarch64", "riscv64", "thumbv7em")


def loaded(name):
    """The functions of another file of tests, which is a program, too."""
    loader = importlib.machinery.SourceFileLoader(f"tests_{name}", f"{ROOT}/tests/{name}")
    module = importlib.util.module_from_spec(importlib.util.spec_from_loader(loader.name, loader))
    loader.exec_module(module)
    return module


linux = loaded("program")
same, read, write, Skipped = linux.same, linux.read, linux.write, linux.Skipped


def processors(wanted=tuple(PACKAGES)):
    """The processors whose boards run here, of those that are wanted."""
    found = [it for it in wanted if shutil.which(SYSTEMS[it])]
    lacking = {f"{SYSTEMS[it]} (Debian's package {PACKAGES[it]})" for it in wanted if it not in found}
    if not found:
        raise Skipped(f"there is no {' or '.join(sorted(lacking))}")
    for it in sorted(lacking):
        print(f"there is no {it}, so its boards are not tried here")
    return found


# what was linked by now, and the sizes of its parts
built = {}
OBJECTS = (("aarch64",), ("riscv64",), ("thumbv7em",), ("riscv32",), ("thumbv7em", "small"), ("thumbv7m",))
FOR_COMPUTERS = ("x86_64",)


def make_objects():
    """Makes the program for each processor whose board is here, two at a time, the module that all are made from first."""
    wanted = [it for it in OBJECTS if shutil.which(SYSTEMS[it[0]])]
    make = lambda words: subprocess.run([f"{PORT}/object", *words], stdout=subprocess.DEVNULL, stderr=subprocess.DEVNULL)
    if subprocess.run([f"{PORT}/object", "ready"], stderr=subprocess.DEVNULL).returncode == 0:
        make(OBJECTS[0])
        with concurrent.futures.ThreadPoolExecutor(2) as pool:
            list(pool.map(make, [*wanted, FOR_COMPUTERS]))


def can_be_built():
    """Skips what wants the program of a board where that is not built, and its libraries are not proved either."""
    ended = subprocess.run([f"{PORT}/object", "ready"], stdout=subprocess.PIPE, stderr=subprocess.PIPE)
    if ended.returncode:
        raise Skipped(ended.stderr.decode().strip())


def build(processor, *what):
    """What `port/build` links, once: its name."""
    name = "-".join((processor, *what))
    if name not in built:
        can_be_built()
        ended = subprocess.run([f"{PORT}/build", processor, *what, "sizes"], stdout=subprocess.PIPE, stderr=subprocess.PIPE)
        same((ended.returncode, ended.stderr), (0, b""), f"the end of port/build {processor} {what}")
        print(ended.stdout.decode(), end="", flush=True)
        built[name] = {part: int(size) for part, size in re.findall(r"(\w[\w ]*) (\d+)", ended.stdout.decode().partition(": ")[2])}
    return name


def begin(board, *words, **how):
    """A board that is switched on, whose line is a pipe on each side."""
    # what `boot` cannot remove when it is cut off goes with the folder of the test
    pipes = {"stdin": subprocess.PIPE, "stdout": subprocess.PIPE, "env": {**os.environ, "TMPDIR": os.getcwd()}, **how}
    return subprocess.Popen([f"{PORT}/boot", board, *words], bufsize=0, start_new_session=True, **pipes)


def cut_off(begun):
    """Cuts the power of a board."""
    os.killpg(begun.pid, signal.SIGKILL)
    begun.wait()


def boot(board, *words, script=b"", status=0):
    """What a board wrote, which ended with this status."""
    begun = begin(board, *words)
    try:
        output, _ = begun.communicate(script)
    except BaseException:
        cut_off(begun)
        raise
    same(begun.returncode, status, f"status of {words} on {board}, which wrote {output!r:.300}")
    return output


def image_of(chip, *sectors):
    """The image that a chip holds, and nothing beside it."""
    ended = subprocess.run([f"{PORT}/image", chip, *sectors], stdout=subprocess.PIPE, stderr=subprocess.PIPE)
    same((ended.returncode, ended.stderr), (0, b""), f"what holds {chip}")
    return ended.stdout


def chip_of(image, processor):
    """Makes a chip that holds an image, of which the rest is erased."""
    inverted = bytes(255 - byte for byte in range(256))
    block = SECTOR if processor.startswith("thumb") else BLOCK
    with open("chip", "wb") as file:
        for at in range(0, len(image), SECTOR):
            file.write(image[at:at + SECTOR].translate(inverted) + b"\xff" * (block - SECTOR))
        file.write(b"\xff" * (block * SECTORS[processor] - file.tell()))


class Pair:
    """A board and the program for Linux, each on its own flash of as many sectors, which do the same."""

    def __init__(self, board):
        self.board = board
        # a serial chip has more sectors than are used
        self.sectors = ["128"] if "serial" in board else []
        with contextlib.suppress(FileNotFoundError):
            os.remove("chip")
        linux.length("image", SECTORS[board.split("-")[0]] * SECTOR)

    def do(self, form, *words, script=b"", status=0):
        """What both write, after which both hold the same bytes."""
        wanted = linux.run(form, "image", *words, script=script, status=status)
        got = boot(self.board, form, "chip", *words, script=script, status=status)
        same(got, wanted, f"what {form} {words} writes on {self.board}")
        same(image_of("chip", *self.sectors) == read("image"), True, f"that {form} {words} leaves the same bytes on {self.board}")
        return got


def examples():
    return sorted(it[:-4] for it in os.listdir(EXAMPLES) if it.endswith(".aql"))
