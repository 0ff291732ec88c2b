"""Boards that answer as the program for Linux does, and leave the same bytes."""
from random_scripts import script

from .common import EXAMPLES, MAIN, SECTOR, Pair, boot, build, chip_of, examples, linux, processors, read, same, write


def test_a_board_answers_as_linux_does():
    """The examples one after another on one chip, and each command of the program."""
    for processor in processors():
        both = Pair(build(processor))
        for name in examples():
            replies = both.do("run", "-", script=read(f"{EXAMPLES}/{name}.aql"))
            if name == examples()[0]:
                same(replies, read(f"{EXAMPLES}/{name}.expected"), f"the replies to {name}")
        for words in (("plan", "100"), ("plan", "readings=100"), ("plan", "none=1"), ("dump",), ("look",), ("check",), ("repair",), ("collect",)):
            both.do(*words)


def test_a_board_that_is_built_for_size_answers_as_linux_does():
    both = Pair(build(processors(("thumbv7em",))[0], "small"))
    for name in examples():
        both.do("run", "-", script=read(f"{EXAMPLES}/{name}.aql"))


def test_a_board_with_a_serial_chip_answers_as_linux_does():
    """Over a controller and a chip that are qemu's own."""
    both = Pair(build(processors(("riscv32",))[0], "serial"))
    for name in examples():
        both.do("run", "-", script=read(f"{EXAMPLES}/{name}.aql"))
    both.do("gen", "5", "60")
    both.do("look")


# after this many generated commands the next ones collect the flash
FILLING = {"aarch64": "1325", "riscv64": "1235", "thumbv7em": "1235"}


def test_generated_commands_collect_the_same_sectors():
    for processor in processors(MAIN):
        both = Pair(build(processor))
        linux.run("gen", "image", "2", FILLING[processor])
        was = read("image")
        chip_of(was, processor)
        both.do("gen", "3", "40")
        erased = {at // SECTOR for at, (old, new) in enumerate(zip(was, read("image"))) if old & ~new}
        same(len(erased) > 50, True, f"that of {len(erased)} sectors many were erased")


def test_generated_commands_leave_the_same_bytes_on_a_microcontroller():
    board = build(processors(("thumbv7em",))[0])
    for seed in range(20, 60):
        both = Pair(board)
        both.do("gen", str(seed), str(6 * (seed - 19)))


def test_random_scripts_leave_the_same_bytes_on_a_microcontroller():
    board, lines = build(processors(("thumbv7em",))[0]), 0
    for seed in range(40):
        # eight scripts one after another on one chip
        if seed % 8 == 0:
            both = Pair(board)
        lines += both.do("run", "-", script=script(seed, 100).encode()).count(b"\n")
    print(f"{lines} lines of 40 random scripts were the same")
    same(lines > 40 * 100, True, f"that {lines} lines are many")


def refuses(processor):
    both = Pair(build(processor))
    same(boot(both.board, "gen", "chip", "1", "0", status=1), b"", "wrong arguments")
    same(boot(both.board, "fly", "chip", status=1), b"", "wrong arguments")
    both.do("run", "-", script=read(f"{EXAMPLES}/first.aql"))
    image = bytearray(read("image"))
    image[9] = 1
    write("image", image)
    chip_of(image, processor)
    for words in (("run", "-"), ("dump",), ("check",), ("repair",), ("collect",)):
        same(both.do(*words, status=6), b"no image 1 0\n", f"{words}")


def test_words_and_flashes_that_are_refused_end_as_on_linux():
    for processor in processors(("aarch64", "thumbv7em")):
        refuses(processor)


def fills(processor):
    both = Pair(build(processor))
    insert = b"INSERT ('%s') INTO n;" % (b"x" * 32)
    script = b"CREATE RELATION n; CREATE ATTRIBUTE s DOMAIN STRING(32) IN n;" + insert * 9_000
    rows = linux.run("run", "image", "-", script=script, status=3).count(b"ok\n") - 2
    both = Pair(both.board)
    linux.run("run", "image", "-", script=script[:len(script) - (9_000 - rows + 3) * len(insert)])
    chip_of(read("image"), processor)
    replies = both.do("run", "-", script=insert * 10, status=3).splitlines()
    same((replies[:-1], replies[-1][:9]), ([b"ok"] * 3, b"no space "), "the replies")


def test_a_flash_without_room_ends_with_3():
    for processor in processors(("aarch64", "thumbv7em")):
        fills(processor)


def test_a_firmware_feeds_the_program_byte_by_byte():
    for processor in processors():
        both = Pair(build(processor, "task"))
        for name in examples():
            both.do("run", "-", script=read(f"{EXAMPLES}/{name}.aql"))
