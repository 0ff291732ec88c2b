"""What a board needs: memory and instructions."""
import os
import re
import subprocess

from .common import EXAMPLES, PORT, ROOT, SECTOR, Pair, boot, build, built, chip_of, examples, image_of, linux, processors, read, same


def figures(board, *words, script=b""):
    """What a board that tells it took: instructions, stack and heap."""
    output = boot(board, *words, script=script).decode()
    return {name: int(number) for name, number in re.findall(r"(\w+) (\d+)", output.splitlines()[-1])}


KEYED = b"CREATE RELATION n; CREATE ATTRIBUTE k DOMAIN INT IN n; CREATE ATTRIBUTE v DOMAIN INT IN n;"
KEYED += b"CREATE INDEX n.k TYPE INLINE;"


def work(board, script=b""):
    """The instructions of a script over a flash of 128 sectors with a thousand rows, and of opening it, as qemu counts them."""
    linux.length("image", 128 * SECTOR)
    linux.run("run", "image", "-", script=KEYED + b"".join(b"INSERT (%d, 7) INTO n;" % it for it in range(1000)))
    chip_of(read("image"), board.split("-")[0])
    os.environ["BOARD"] = "-icount shift=0"
    try:
        return figures(board, "run", "chip", "-", script=script)["instructions"]
    finally:
        del os.environ["BOARD"]


# the boards whose figures port/README.md has
MEASURED = (("aarch64",), ("riscv64",), ("riscv32",), ("thumbv7em",), ("thumbv7em", "small"))


def measured():
    """The words by which the boards that are measured are built."""
    found = processors(tuple(dict.fromkeys(it[0] for it in MEASURED)))
    return [it for it in MEASURED if it[0] in found]


# the KiB of RAM with which `port/build` links: 4 more for what is compiled for size
USUAL = int(re.search(r"usual=(\d+)", read(f"{PORT}/build").decode())[1])


def deepest(board):
    """The most bytes of stack that a board can take, by the calls in its machine code."""
    out = os.environ.get("PORT_OUT", f"{PORT}/out")
    told = subprocess.run([f"{PORT}/stack", f"{out}/{board}.elf"], stdout=subprocess.PIPE, check=True).stdout.decode()
    return int(re.match(r"board_start takes (\d+) bytes", told)[1])


def test_the_stack_of_a_board_is_as_large_as_any_calls_need():
    """So no input makes it overflow."""
    for words in measured():
        board = build(*words)
        sizes = built[board]
        most = 1024 * (USUAL + 4 * ("small" in words))
        same(sizes["stack"] + sizes["static data"] <= most, True, f"that {board} has at most {most} bytes of RAM")
        most = deepest(board)
        print(f"{board}: stack {most} bytes at most by its calls, and with static data {sizes['static data'] + most} of RAM")
        same(most <= sizes["stack"], True, f"that {most} bytes fit into the stack of {board}, which has {sizes['stack']}")


def test_the_memory_of_the_library_is_as_large_as_any_calls_need():
    """The program is the same; the library's own calls and interrupts take what is left."""
    lent = 1024 * int(re.search(r"SORACHEST_MEMORY = (\d+) \* 1024", read(f"{ROOT}/node/sorachest_node.h").decode())[1])
    guard, heap, left = 64, 5 * 256 + 96, 2048
    for words in measured():
        most = deepest(build(*words))
        same(most + guard + heap + left <= lent, True, f"that {lent} bytes are enough on {words}, where calls take {most}")


def test_every_form_fits_into_the_memory_of_a_board():
    for words in measured():
        # where a run is measured, board_start keeps up to 16 bytes more
        bound = deepest(build(*words)) + 16
        board, most = build(*words, "measure"), {"stack": 0, "heap": 0}
        runs = [("run", f"{EXAMPLES}/{it}.aql") for it in examples()]
        runs += [("gen", "7", "100"), ("plan", "100"), ("dump",), ("look",), ("check",), ("repair",), ("collect",)]
        # as many words as a form has
        runs += [("plan", *(f"a2345678901234{it}=32767" for it in range(8)))]
        for form, *given in runs:
            told = figures(board, form, "chip", *given)
            most = {it: max(most[it], told[it]) for it in most}
        print(f"{' '.join(words)}: of the stack {most['stack']} bytes were used, of the heap {most['heap']}")
        same(most["stack"] <= bound, True, f"that {most['stack']} bytes of stack are no more than {bound}")
        os.remove("chip")


def test_the_work_of_a_command_is_counted():
    for words in measured():
        sectors = [] if words[0].startswith("thumb") else ["sectors=128"]
        board = build(*words, "measure", *sectors)
        opened = work(board)
        query = work(board, b"SELECT v FROM n WHERE k = 500;") - opened
        insert = work(board, b"INSERT (1000, 7) INTO n;") - opened
        # the least and the most that such a command can need
        same(all(1000 < it < 1_000_000 for it in (query, insert)), True, f"that {query} and {insert} are the work of commands")
        print(f"{' '.join(words)}: instructions to open 128 sectors {opened}, a point query {query}, an insert {insert}")


def test_a_stack_that_is_too_small_ends_the_board():
    for processor in processors():
        both = Pair(build(processor))
        both.do("run", "-", script=read(f"{EXAMPLES}/first.aql"))
        same(boot(build(processor, "ram=48"), "run", "chip", "-", script=b"CREATE RELATION n;", status=99), b"", "what it writes")
        same(image_of("chip") == read("image"), True, "that it leaves the flash as it was")
