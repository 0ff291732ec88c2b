"""`port/stack`: what it finds is the stack that calls take, and where there is no bound it says so."""
import os
import re
import shutil
import subprocess

from .common import PORT, same, write

KIT = os.path.dirname(os.path.dirname(os.path.realpath(shutil.which("rt") or "rt")))
LINKERS = {"aarch64": "aarch64elf", "riscv64": "elf64lriscv", "riscv32": "elf32lriscv", "thumbv7em": "armelf", "thumbv7m": "armelf"}
CALLED = """
extern void use(void *bytes, int count);
__attribute__((noinline)) static void deep(int count) { char bytes[4000]; use(bytes, count); }
__attribute__((noinline)) static void flat(int count) { char bytes[3000]; use(bytes, count); }
"""


def linked(processor, source, *options):
    """The path of an executable of a few functions, of which `use` takes next to nothing."""
    write("source.c", (CALLED + source).encode())
    write("use.c", b"void use(void *bytes, int count) { *(volatile char *)bytes = (char)count; }")
    flags = f'$(. "{PORT}/targets"; flags_of {processor}) -O2 -ffreestanding -fno-builtin {" ".join(options)}'
    for it in ("source", "use"):
        subprocess.run(["bash", "-c", f'"{KIT}/toolchain/bin/clang" {flags} -c {it}.c -o {it}.o'], check=True)
    words = ["-m", LINKERS[processor], "-e", "first", "source.o", "use.o", "-o", "linked"]
    subprocess.run([f"{KIT}/toolchain/bin/ld.lld", *words], check=True)
    return os.path.abspath("linked")


def told(processor, *source):
    """The end of `port/stack` over these functions, of which `first` is asked for."""
    ended = subprocess.run([f"{PORT}/stack", linked(processor, *source), "first"], stdout=subprocess.PIPE, stderr=subprocess.PIPE)
    return ended.returncode, ended.stdout.decode(), ended.stderr.decode()


def test_the_stack_is_that_of_the_deepest_calls():
    for processor in LINKERS:
        status, said, _ = told(processor, "void first(int count) { flat(count); deep(count); flat(count); }")
        most = int(re.match(r"first takes (\d+) bytes", said)[1])
        frames = [(int(size), name) for size, name in re.findall(r"^ +(\d+) (\w+)$", said, re.M)]
        same((status, most), (0, sum(size for size, _ in frames)), f"what is told for {processor}")
        same(([name for _, name in frames][:2], 4000 <= most < 4200), (["first", "deep"], True), f"{frames} for {processor}")


def test_a_stack_without_a_bound_is_told():
    again = "void first(int count) { char bytes[100]; use(bytes, count); if (count) first(count - 1); use(bytes, count); }"
    both = "void first(int); __attribute__((noinline)) void second(int it) { char bytes[100]; first(it); use(bytes, it); }"
    both += "__attribute__((noinline)) void first(int it) { char bytes[100]; if (it) second(it - 1); use(bytes, it); }"
    computed = "void (*volatile to)(int); void first(int it) { char bytes[100]; use(bytes, it); to(it); use(bytes, it); }"
    for processor in LINKERS:
        for source, why in ((again, "first calls first"), (both, "second calls first"), (computed, "first calls an address")):
            same(told(processor, source), (1, "", f"stack: there is no bound: {why}\n"), f"what is told for {processor} of {source}")
        unknown = "stack: there is no bound: the frame of first is not written down\n"
        same(told(processor, computed, "-fno-stack-size-section"), (1, "", unknown), f"what is told for {processor} without sizes")
