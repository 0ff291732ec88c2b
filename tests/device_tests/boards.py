"""Boards without the proved program: what stands in its place makes each call of a board."""
import os
import subprocess

from .common import PORT, ROOT, SECTOR, SECTORS, image_of, processors, same, write

WELL, BEGIN = 42, 2 * SECTOR
SERIAL = ("riscv32", "riscv64")


def linked(processor, *what):
    """Links a board with what makes the calls: its name."""
    write("module.ll", b"")
    how = f'. "{PORT}/targets" && "$(dirname "$(readlink -f "$(command -v rt)")")/../toolchain/bin/clang" $(flags_of {processor})'
    os.makedirs("out", exist_ok=True)
    words = f'-Os -ffreestanding -fno-builtin -isystem "{PORT}/include" -I"{PORT}" -c "{ROOT}/tests/device_tests/calls.c"'
    subprocess.run(["bash", "-c", f'{how} {words} -o out/{processor}.o'], check=True)
    subprocess.run([f"{PORT}/build", processor, *what], env=own(), check=True)
    return "-".join((processor, *what))


def own():
    return {**os.environ, "PORT_MODULE": f"{os.getcwd()}/module.ll", "PORT_OUT": f"{os.getcwd()}/out"}


def boards():
    """Each board that is here: its processor, and the words by which it is built."""
    for processor in processors():
        yield processor, []
        yield processor, ["task"]
        if processor in SERIAL:
            yield processor, ["serial"]


def test_the_calls_of_each_board_reach_its_chip_and_its_line():
    line = bytes(range(5, 256)) * 3
    for processor, what in boards():
        board = linked(processor, *what)
        ended = subprocess.run([f"{PORT}/boot", board, "run", "chip", "-"], env=own(), input=line, stdout=subprocess.PIPE)
        same((ended.returncode, ended.stdout), (WELL, line), f"the end of {board}, and its line")
        wanted = bytearray(SECTORS[processor] * SECTOR)
        wanted[BEGIN + 5:BEGIN + 12] = b"\1\1\3\3\5\5\7"
        wanted[-3:] = b"\1\1\3"
        sectors = ["128"] if "serial" in what else []
        same(image_of("chip", *sectors) == wanted, True, f"what the chip of {board} holds")
        os.remove("chip")


def test_a_stack_that_grows_too_far_ends_each_board():
    for processor, what in boards():
        if "task" not in what:
            board = linked(processor, *what)
            ended = subprocess.run([f"{PORT}/boot", board, "dump", "chip"], env=own(), stdin=subprocess.DEVNULL, timeout=60)
            same(ended.returncode, 99, f"the end of {board}")
            os.remove("chip")
