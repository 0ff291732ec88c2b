"""The library on boards of qemu, each with a processor of its own: what its calls answer, and what they take."""
import os
import shutil

from library_tests.common import ROOT, ended, erased, needs, read, same, write
from node_tests.common import HERE, NODE, program

EXAMPLES, PORT = f"{NODE}/examples", f"{ROOT}/port"
INVERTED = bytes(255 - byte for byte in range(256))
BLOCK, SECTOR = 0x40000, 4096
KEYED = "CREATE RELATION n; CREATE ATTRIBUTE k DOMAIN INT IN n; CREATE ATTRIBUTE v DOMAIN INT IN n; CREATE INDEX n.k TYPE INLINE;"

# Of a processor: the header of its board, its start, its linker's name, further files, how many blocks its chips have, and qemu.
BOARDS = {
    "aarch64": ("virt_aarch64.h", "aarch64", "aarch64elf", [], 256, "qemu-system-aarch64 -cpu cortex-a53 -semihosting -kernel elf"),
    "riscv64": ("virt_riscv.h", "riscv", "elf64lriscv", [], 128, "qemu-system-riscv64 -bios none -device loader,file=elf"),
    "riscv32": ("virt_riscv.h", "riscv", "elf32lriscv", ["divide.c"], 128, "qemu-system-riscv32 -bios none -device loader,file=elf"),
}


def keyed_image(sectors):
    """An image with a relation of a thousand rows and an index."""
    write("script", (KEYED + "".join(f"INSERT ({it}, 7) INTO n;" for it in range(1000))).encode())
    erased("image", sectors)
    same(program("run", "image", "script")[0], 0, "the status of the program")
    return read("image").translate(INVERTED)


def linked(target):
    """What a board runs: figures.c over the library."""
    header, kind, emulation, further, _, _ = BOARDS[target]
    built = ended([f"{NODE}/build", target])
    same(built[0], 0, f"the status of node/build {target}, which said {built[2]}")
    tools = f"{os.path.dirname(os.path.dirname(os.path.realpath(shutil.which('rt'))))}/toolchain/bin"
    flags = ended(["bash", "-c", f'. "{PORT}/targets"; flags_of {target}'])[1].decode().split()
    sources = [f"{PORT}/{it}" for it in (f"start_{kind}.S", "node.c", "virt.c", "chip.c", *further)]
    sources += [f"{EXAMPLES}/board_qemu.c", f"{HERE}/figures.c"]
    words = [*flags, "-std=c11", "-Os", "-ffreestanding", "-fno-builtin", "-ffunction-sections", "-Wall", "-Wextra", "-Werror"]
    words += ["-isystem", f"{PORT}/include", f"-I{PORT}", f"-I{EXAMPLES}", f'-DBOARD="{header}"', "-DSECTORS=128"]
    for source in sources:
        done = ended([f"{tools}/clang", *words, "-c", source, "-o", f"{os.path.basename(source)}.o"])
        same((done[0], done[2]), (0, ""), f"the end of the compiler of {source}")
    objects = [os.path.abspath(f"{os.path.basename(it)}.o") for it in sources]
    objects += [f"{NODE}/out/{target}/lib/sorachest_node.o", "-o", os.path.abspath("elf")]
    places = ["--gc-sections", "--defsym=ram_size=0x28000", "--defsym=stack_size=0x4000", "-T", f"{kind}.ld"]
    done = ended([f"{tools}/ld.lld", "-m", emulation, *places, *objects], cwd=PORT)
    same((done[0], done[2]), (0, ""), "the end of the linker")


def figures(told):
    same((b"FAILED" in told, told.count(b"\n")), (False, 10), f"that {told} is of calls that were well")
    return told.decode()


def on_virt(target):
    sectors, qemu = BOARDS[target][4], BOARDS[target][5].split()
    needs(qemu[0])
    chip = keyed_image(128)
    linked(target)
    with open("chip", "wb") as file:
        for at in range(0, len(chip), SECTOR):
            file.write(chip[at:at + SECTOR] + b"\xff" * (BLOCK - SECTOR))
        file.write(b"\xff" * (BLOCK * sectors - file.tell()))
    words = [*qemu, "-M", "virt", "-m", "16M", "-drive", "if=pflash,unit=1,format=raw,file=chip", "-icount", "shift=0"]
    words += ["-nic", "none", "-nographic", "-monitor", "none", "-serial", "stdio"]
    status, told, said = ended(words)
    same((status, said), (0, ""), f"the end of the board, which told {told}")
    print(f"{target}:\n{figures(told)}", end="")


def test_calls_on_64_bit_arm():
    on_virt("aarch64")


def test_calls_on_64_bit_riscv():
    on_virt("riscv64")


def test_calls_on_32_bit_riscv():
    on_virt("riscv32")


def test_calls_on_a_microcontroller():
    needs("qemu-system-arm")
    write("chip", keyed_image(128))
    how = {"env": {**os.environ, "LOGGER_SOURCE": f"{HERE}/figures.c", "BOARD": "-icount shift=0"}}
    done = ended([f"{EXAMPLES}/stm32", "build"], **how)
    same(done[0], 0, f"the status of the build, which said {done[2]}")
    done = ended([f"{EXAMPLES}/stm32", "chip"], **how)
    same(done[0], 0, f"the status of the board, which said {done[2]}")
    print(f"thumbv7em:\n{figures(done[1])}", end="")
