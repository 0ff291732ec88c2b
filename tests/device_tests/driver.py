"""`port/node.c` alone, over a chip in memory, and `port/divide.c`."""
import ctypes
import os
import random
import shutil
import subprocess

from .common import PORT, ROOT, SECTOR, Skipped, same

RENAMED = "memcpy memmove memset memcmp bcmp read write pread pwrite open close statx __sysv_signal".split()
WELL, IDLE, HALF, LIES, MUTE = range(5)
IN, OUT, FLASH = 0, 1, 3


def driver():
    """node.c for this machine, over an erased flash of four sectors in memory: its calls, and the bytes of the chip."""
    if not shutil.which("cc"):
        raise Skipped("there is no cc")
    words = ["cc", "-shared", "-fPIC", "-fno-builtin", *(f"-D{it}=node_{it}" for it in RENAMED), "-o", "node.so"]
    subprocess.run([*words, f"{PORT}/node.c", f"{ROOT}/tests/device_tests/board.c"], check=True)
    calls = ctypes.CDLL(f"{os.getcwd()}/node.so")
    for name in ("pread", "pwrite", "read", "write"):
        getattr(calls, f"node_{name}").restype = ctypes.c_int64
    chip = (ctypes.c_uint8 * (4 * SECTOR)).in_dll(calls, "chip")
    ctypes.memset(chip, 0xff, 4 * SECTOR)
    return calls, chip


def put(calls, at, content, file=FLASH):
    return calls.node_pwrite(file, content, ctypes.c_size_t(len(content)), ctypes.c_int64(at))


def taken(calls, at, count, file=FLASH):
    into = ctypes.create_string_buffer(max(count, 1))
    answer = calls.node_pread(file, into, ctypes.c_size_t(count), ctypes.c_int64(at))
    return into.raw[:count] if answer == count else answer


def test_the_driver_programs_and_erases_and_writes_nothing_else():
    calls, chip = driver()
    same(taken(calls, 0, SECTOR), bytes(SECTOR), "an erased sector")
    same(put(calls, SECTOR + 254, b"\1\x80"), 2, "a program up to a page's end")
    same(bytes(chip), b"\xff" * (SECTOR + 254) + b"\xfe\x7f" + b"\xff" * (3 * SECTOR - 256), "the chip")
    same(taken(calls, SECTOR + 253, 3), b"\0\1\x80", "what stands there")
    same(put(calls, SECTOR + 254, b"\3"), 1, "a further bit")
    was = bytes(chip)
    for at, content, what in (
        (SECTOR + 254, b"\1", "a bit taken back"),
        (SECTOR + 254, b"\3\x80\1", "a program across the end of a page"),
        (0, bytes(257), "more than a page"),
        (256, bytes(SECTOR), "an erase beside the start of a sector"),
        (0, bytes(SECTOR - 1) + b"\1", "a sector that is not all zeros"),
        (4 * SECTOR, b"\1", "a program beyond the flash"),
        (4 * SECTOR - 1, b"\1\1", "a program across the end of the flash"),
        (-1, b"\1", "a program before the flash"),
    ):
        same((put(calls, at, content), bytes(chip) == was), (-1, True), what)
    same(put(calls, 0, b"\1", file=OUT), -1, "another file")
    same(taken(calls, 4 * SECTOR - 1, 2), -1, "a read across the end of the flash")
    same(put(calls, SECTOR, bytes(SECTOR)), SECTOR, "an erase")
    same(bytes(chip), b"\xff" * 4 * SECTOR, "the chip")


def test_the_driver_tells_what_a_chip_has_not_done():
    calls, chip = driver()
    state = ctypes.c_int.in_dll(calls, "chip_is")
    same(put(calls, SECTOR + 9, b"\1"), 1, "a byte that an erase takes away")
    for state.value in (IDLE, HALF, LIES, MUTE):
        same(put(calls, 0, b"\1\2"), -1, "a program")
        same(put(calls, SECTOR, bytes(SECTOR)), -1, "an erase")
    same(taken(calls, 0, 2), -1, "a read")
    state.value = WELL
    same(put(calls, 0, b"\1\2"), 2, "the program again")


def test_the_byte_4_ends_a_script_and_no_line_of_frames():
    calls, _ = driver()
    form, byte = ctypes.c_char_p.in_dll(calls, "form"), ctypes.c_int.in_dll(calls, "next_byte")
    into = ctypes.create_string_buffer(8)
    take = lambda: (calls.node_read(IN, into, ctypes.c_size_t(8)), into.raw[0])
    form.value, byte.value = b"serve", 4
    same(take(), (1, 4), "a client's number")
    form.value, byte.value = b"run", 65
    same(take(), (1, 65), "a byte of a script")
    byte.value = 4
    same(take()[0], 0, "the end of a script")
    byte.value = 65
    same(take()[0], 0, "what comes after it")
    same(calls.node_read(OUT, into, ctypes.c_size_t(8)), -1, "another file")


# numbers of 64 bits around each power of two that a case of divide.c begins or ends with
EDGES = sorted({(1 << bits) + it & (1 << 64) - 1 for bits in (0, 1, 15, 16, 17, 31, 32, 33, 47, 48, 63, 64) for it in (-2, -1, 0, 1)})


def test_numbers_of_64_bits_are_divided():
    if not shutil.which("cc"):
        raise Skipped("there is no cc")
    words = ["-fsanitize=undefined", "-fsanitize-undefined-trap-on-error", "-o", "divide.so"]
    subprocess.run(["cc", "-shared", "-fPIC", "-O1", *words, f"{PORT}/divide.c"], check=True)
    calls, left = ctypes.CDLL(f"{os.getcwd()}/divide.so"), ctypes.c_uint64()
    calls.divide_unsigned.restype, calls.divide_signed.restype = ctypes.c_uint64, ctypes.c_int64
    pairs = [(number, by) for number in EDGES for by in EDGES if by]
    pairs += [(random.getrandbits(random.randrange(1, 65)), random.getrandbits(random.randrange(1, 65)) or 1) for _ in range(20_000)]
    for number, by in pairs:
        got = calls.divide_unsigned(ctypes.c_uint64(number), ctypes.c_uint64(by), ctypes.byref(left))
        same((got, left.value), divmod(number, by), f"{number} by {by}")
        signed, by = ctypes.c_int64(number).value, ctypes.c_int64(by).value
        got = calls.divide_signed(ctypes.c_int64(signed), ctypes.c_int64(by), ctypes.byref(left))
        # the quotient goes towards 0, and what is too large is cut
        quotient = abs(signed) // abs(by) * (1 if (signed < 0) == (by < 0) else -1)
        rest = ctypes.c_int64(left.value).value
        same((got, rest), (ctypes.c_int64(quotient).value, signed - quotient * by), f"{signed} by {by}")
