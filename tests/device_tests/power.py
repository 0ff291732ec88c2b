"""Boards that lose their power."""
import os
import random
import select
import subprocess
import time

from .common import begin, boot, build, cut_off, image_of, linux, processors, same, write

KINDS = ("MAXHEAP", "INLINE", "MEMHASH", "MAXHEAP", "MAXHEAP", "INLINE", "MEMHASH", "MAXHEAP")


def made(relations):
    """The commands that make so many relations, each with an index."""
    script = "".join(f"CREATE RELATION n{it}; CREATE ATTRIBUTE v DOMAIN LONG IN n{it}; CREATE INDEX n{it}.v TYPE {KINDS[it]};"
        for it in range(relations))
    return script.encode()


def inserts(first, many, relations):
    """Rows from a number on, each in the next relation."""
    return "".join(f"INSERT ({it}) INTO n{it % relations};\n" for it in range(first, first + many)).encode()


def acknowledged(begun, many):
    """Reads replies until this many have arrived, or none arrives any more."""
    got = b""
    while got.count(b"ok\n") < many and select.select([begun.stdout], [], [], 20)[0]:
        part = os.read(begun.stdout.fileno(), 65536)
        if not part:
            break
        got += part
    return got


def load_and_cut(board, rows, many, relations):
    """Inserts rows until this many are acknowledged, cuts the power during the next ones, and returns how many were acknowledged."""
    # before the board begins, which reads it at once
    write("script", inserts(rows, many + 400, relations))
    begun = begin(board, "run", "chip", "script", stdin=subprocess.DEVNULL)
    got = acknowledged(begun, many)
    time.sleep(random.uniform(0, 0.02))
    cut_off(begun)
    return (got + begun.stdout.read()).count(b"ok\n")


def rows_on(chip, relations):
    """How many rows there are: each relation has those whose turn it was."""
    write("image", image_of(chip))
    script = "".join(f"SELECT v FROM n{it};" for it in range(relations)).encode()
    lines = linux.run("run", "image", "-", script=script).decode().splitlines()
    rows = sorted(int(it) for it in lines if not it.startswith("rows "))
    same(rows, list(range(len(rows))), "the rows")
    return len(rows)


def cut_and_repair(board, times, relations):
    boot(board, "run", "chip", "-", script=made(relations))
    rows, mended = 0, 0
    for _ in range(times):
        written = rows + load_and_cut(board, rows, random.randrange(1, 40), relations)
        foretold = boot(board, "check", "chip").decode().splitlines()
        said = boot(board, "repair", "chip").decode().splitlines()
        same(["repaired" if it == "to be repaired" else it for it in foretold], said, "what a check foretold")
        mended += said != ["sound"]
        rows = rows_on("chip", relations)
        if not written <= rows <= written + 1:
            raise AssertionError(f"{written} rows were acknowledged, and {rows} are there; repair said {said}")
    print(f"of {times} boards {board} that lost their power {mended} were to be repaired; {rows} rows are there")
    counted = boot(board, "run", "chip", "-", script=b"".join(b"SELECT COUNT(v) FROM n%d WHERE v >= 0;" % it for it in range(relations)))
    same(sum(map(int, counted.split(b"\nrows 1\n")[:-1])), rows, "the rows by the indexes")


def test_boards_of_eight_relations_that_lose_their_power_are_repaired():
    cut_and_repair(build(processors(("aarch64",))[0]), 12, 8)


def test_a_hundred_microcontrollers_that_lose_their_power_are_repaired():
    cut_and_repair(build(processors(("thumbv7em",))[0]), 100, 1)
