"""`port/nor.c`, the driver of serial NOR chips, over a simulated chip that judges each command."""
import ctypes
import os
import random
import shutil
import subprocess

from .common import PORT, Skipped, same

SECTOR, PAGE, MOST_POLLS = 4096, 256, 50
BYTES = ctypes.POINTER(ctypes.c_uint8)
EXCHANGE = ctypes.CFUNCTYPE(ctypes.c_int, ctypes.c_void_p, BYTES, ctypes.c_size_t, BYTES, BYTES, ctypes.c_size_t)


class Nor(ctypes.Structure):
    """`struct nor` of nor.h."""

    _fields_ = [
        ("exchange", EXCHANGE),
        ("context", ctypes.c_void_p),
        ("most_polls", ctypes.c_uint32),
        ("sectors_of_chip", ctypes.c_uint32),
        ("sectors", ctypes.c_uint32),
        ("erase", ctypes.c_uint8),
        ("address_bytes", ctypes.c_uint8),
    ]


def parameters(first, density, place=0x30):
    """What a chip tells of itself: the head, and the first two words of the basic table."""
    head = b"SFDP\x06\x01\x00\xff" + b"\x00\x06\x01\x10" + place.to_bytes(3, "little") + b"\xff"
    return head.ljust(place, b"\xff") + first.to_bytes(4, "little") + density.to_bytes(4, "little")


class Chip:
    """A serial NOR chip: it notes each command, and each that no chip would take."""

    def __init__(self, sectors=16, numbers=b"\xef\x40\x10", told=b"", erase=0x20, address_bytes=3):
        self.cells = bytearray(b"\xff" * (sectors * SECTOR))
        self.numbers, self.told, self.erase, self.address_bytes = numbers, told, erase, address_bytes
        self.may_write, self.busy, self.work = False, 0, 2
        self.is_protected, self.fails_at = False, None
        self.commands, self.wrong, self.wrapped = [], [], 0

    def answer(self, head, sent, count):
        """What the chip sends back for a command; nothing where the bus fails."""
        self.commands.append((head.hex(), len(sent)))
        if self.fails_at is not None and len(self.commands) > self.fails_at:
            return None
        command = head[0]
        lengths = {0x05: 1, 0x06: 1, 0x9f: 1, 0x5a: 5, 0x02: 1 + self.address_bytes, 0x03: 1 + self.address_bytes, self.erase: 1 + self.address_bytes}
        if lengths.get(command) != len(head) or self.busy and command != 0x05:
            self.wrong.append(head.hex())
            return bytes(count)
        place = int.from_bytes(head[1:], "big")
        if command == 0x05:
            status = (self.busy > 0) + 2 * self.may_write
            self.busy = max(0, self.busy - 1)
            return bytes([status]) * count
        if command == 0x9f:
            return (self.numbers * 100)[:count]
        if command == 0x5a:
            return self.told[place >> 8:].ljust(count, b"\xff")[:count]
        if command == 0x03:
            return bytes(self.cells[place:place + count])
        if command == 0x06:
            self.may_write = not self.is_protected
        else:
            self.change(command, place, sent)
        return b""

    def change(self, command, place, sent):
        if not self.may_write or place >= len(self.cells):
            self.wrong.append(f"{command:02x} at {place}")
            return
        self.may_write, self.busy = False, self.work
        if command == self.erase:
            begin = place // SECTOR * SECTOR
            self.cells[begin:begin + SECTOR] = b"\xff" * SECTOR
            return
        page = place // PAGE * PAGE
        self.wrapped += place % PAGE + len(sent) > PAGE
        for at, byte in enumerate(sent):
            self.cells[page + (place + at) % PAGE] &= byte

    def exchange(self, _, head, head_count, out, into, count):
        answer = self.answer(bytes(head[:head_count]), bytes(out[:count]) if out else b"", count if into else 0)
        if answer is None:
            return 0
        if into:
            ctypes.memmove(into, answer, count)
        return 1


def driver(chip):
    """The calls of nor.c, and its own of a chip that it has begun with. What it does out of bounds or order of C ends it."""
    if not os.path.exists("nor.so"):
        if not shutil.which("cc"):
            raise Skipped("there is no cc")
        words = ["cc", "-std=c11", "-shared", "-fPIC", "-O1", "-fsanitize=undefined", "-fsanitize-undefined-trap-on-error"]
        subprocess.run([*words, "-o", "nor.so", f"{PORT}/nor.c"], check=True)
    nor = Nor(exchange=EXCHANGE(chip.exchange), most_polls=MOST_POLLS)
    return ctypes.CDLL(f"{os.getcwd()}/nor.so"), nor


def begun(chip):
    calls, nor = driver(chip)
    same(calls.nor_begin(ctypes.byref(nor)), 1, "that a chip begins")
    chip.commands.clear()
    return calls, nor


def taken(calls, nor, at, count):
    """What was read, or that it was not, and that nothing else was written."""
    into = ctypes.create_string_buffer(b"\xa5" * (count + 16), count + 16)
    is_read = calls.nor_read(ctypes.byref(nor), at, into, ctypes.c_size_t(count))
    same(into.raw[count:], b"\xa5" * 16, "what stands after the place")
    return into.raw[:count] if is_read else None


def program(calls, nor, at, content):
    return calls.nor_program(ctypes.byref(nor), at, content, ctypes.c_size_t(len(content)))


def test_a_serial_chip_is_sent_jedecs_commands():
    chip = Chip()
    calls, nor = begun(chip)
    same(program(calls, nor, 0x10fa, b"0123456789"), 1, "a program across a page's end")
    polls = [("05", 0)] * 3
    wanted = [("06", 0), ("05", 0), ("020010fa", 6), *polls, ("06", 0), ("05", 0), ("02001100", 4), *polls]
    same(chip.commands, wanted, "the commands of a program")
    chip.commands.clear()
    same(taken(calls, nor, 0x10fa, 10), b"0123456789", "what stands there")
    same(chip.commands, [("030010fa", 0)], "the commands of a read")
    chip.commands.clear()
    same(calls.nor_erase(ctypes.byref(nor), 0x1000), 1, "an erase")
    same(chip.commands, [("06", 0), ("05", 0), ("20001000", 0), *polls], "the commands of an erase")
    same((bytes(chip.cells) == b"\xff" * len(chip.cells), chip.wrapped, chip.wrong), (True, 0, []), "the chip")


def test_a_serial_chip_holds_what_was_programmed():
    chip, random_bytes = Chip(), random.Random(7)
    calls, nor = begun(chip)
    wanted = bytearray(chip.cells)
    for _ in range(600):
        at, count = random_bytes.randrange(16 * SECTOR), random_bytes.choice((1, 2, 255, 256, 257, 700))
        if random_bytes.random() < 0.2:
            at = at // SECTOR * SECTOR
            same(calls.nor_erase(ctypes.byref(nor), at), 1, "an erase")
            wanted[at:at + SECTOR] = b"\xff" * SECTOR
        elif at + count <= len(wanted):
            content = random_bytes.randbytes(count)
            same(program(calls, nor, at, content), 1, "a program")
            wanted[at:at + count] = bytes(old & new for old, new in zip(wanted[at:], content))
            same(taken(calls, nor, at, count), bytes(wanted[at:at + count]), "what is read")
    same((chip.cells == wanted, chip.wrapped, chip.wrong), (True, 0, []), "the chip")
    # the simulated chip does come round in a page where it is asked to
    chip.answer(b"\x06", b"", 0)
    chip.answer(b"\x02\x00\x00\xff", b"\0\0", 0)
    same((chip.wrapped, chip.cells[0], chip.cells[255]), (1, 0, 0), "a program that comes round")


def test_a_serial_chip_outside_of_which_nothing_is_asked():
    chip = Chip()
    calls, nor = begun(chip)
    size = len(chip.cells)
    for at, count in ((size, 1), (size - 1, 2), (0, size + 1), (0xffffffff, 1), (0xffffffff, 2)):
        same(taken(calls, nor, at, count), None, f"a read of {count} at {at}")
        same(program(calls, nor, at, bytes(count)), 0, f"a program of {count} at {at}")
    for at in (size, 1, SECTOR + 256, 0xfffff000):
        same(calls.nor_erase(ctypes.byref(nor), at), 0, f"an erase at {at}")
    same((taken(calls, nor, size, 0), program(calls, nor, size, b"")), (b"", 1), "nothing at the end")
    same(chip.commands, [], "the commands")


def test_a_serial_chip_that_is_busy_is_waited_for_and_no_longer():
    chip = Chip()
    calls, nor = begun(chip)
    operations = (lambda: program(calls, nor, 0, b"\0"), lambda: calls.nor_erase(ctypes.byref(nor), 0))
    for does in operations:
        chip.work = MOST_POLLS - 1
        same(does(), 1, "a chip that is ready at the last look")
        chip.work = 10**6
        chip.commands.clear()
        same((does(), len(chip.commands)), (0, 3 + MOST_POLLS), "a chip that stays busy, and its commands")
        chip.commands.clear()
        same((does(), chip.commands), (0, [("06", 0), ("05", 0)]), "one that is busy before")
        same(chip.wrong, ["06"], "what a busy chip was sent")
        chip.busy, chip.wrong = 0, []
    chip.busy = 10
    same(calls.nor_begin(ctypes.byref(nor)), 1, "a chip that erases when the board goes on")
    same(chip.wrong, [], "what a busy chip was sent")
    chip.busy = 10**6
    same(calls.nor_begin(ctypes.byref(nor)), 0, "a chip that never gets ready")


def test_a_serial_chip_that_is_protected_is_sent_no_change():
    chip = Chip()
    calls, nor = begun(chip)
    chip.is_protected = True
    same((program(calls, nor, 0, b"\0"), calls.nor_erase(ctypes.byref(nor), 0)), (0, 0), "both")
    same(chip.commands, [("06", 0), ("05", 0)] * 2, "the commands")


def test_a_serial_bus_that_fails_is_told():
    works = Chip(told=parameters(0xfff120e5, 16 * SECTOR * 8 - 1))
    calls, nor = begun(works)
    operations = {
        "begin": lambda: calls.nor_begin(ctypes.byref(nor)),
        "read": lambda: taken(calls, nor, 0, 9) is not None,
        "program": lambda: program(calls, nor, 250, bytes(10)),
        "erase": lambda: calls.nor_erase(ctypes.byref(nor), 0),
    }
    for name, does in operations.items():
        works.commands.clear()
        same(bool(does()), True, name)
        for works.fails_at in range(len(works.commands)):
            works.commands.clear()
            works.busy = 0
            same((bool(does()), len(works.commands)), (False, works.fails_at + 1), f"{name} at exchange {works.fails_at}")
        works.fails_at, works.busy, works.wrong = None, 0, []
        same(calls.nor_begin(ctypes.byref(nor)), 1, "the chip after that")


def test_a_serial_chip_tells_what_it_is():
    """The numbers that are wanted: sectors of the chip and sectors that are used, the erase, bytes of an address."""
    cases = {
        "not told, 64 KiB": (Chip(), (16, 16, 0x20, 3)),
        "not told, 16 MiB": (Chip(numbers=b"\xc2\x20\x18"), (4096, 4095, 0x20, 3)),
        "told as bits": (Chip(told=parameters(0xfff120e5, 128 * SECTOR * 8 - 1)), (128, 128, 0x20, 3)),
        "told as a power of two": (Chip(told=parameters(0xfff120e5, 0x80000000 | 32)), (131072, 4095, 0x20, 3)),
        "another erase": (Chip(told=parameters(0xfff1d7e5, 128 * SECTOR * 8 - 1), erase=0xd7), (128, 128, 0xd7, 3)),
        "4 bytes alone": (Chip(told=parameters(0xfff520e5, 128 * SECTOR * 8 - 1), address_bytes=4), (128, 128, 0x20, 4)),
        "the table elsewhere": (Chip(told=parameters(0xfff120e5, 64 * SECTOR * 8 - 1, place=0x80)), (64, 64, 0x20, 3)),
    }
    for name, (chip, wanted) in cases.items():
        calls, nor = driver(chip)
        same((calls.nor_begin(ctypes.byref(nor)), chip.wrong), (1, []), name)
        same((nor.sectors_of_chip, nor.sectors, nor.erase, nor.address_bytes), wanted, name)
        same((program(calls, nor, 3 * SECTOR, b"\1"), calls.nor_erase(ctypes.byref(nor), 0), chip.wrong), (1, 1, []), name)
        same(chip.cells[3 * SECTOR], 1, f"what stands in the chip: {name}")
    for name, chip in {
        "no chip, 0": Chip(numbers=b"\0\0\0"),
        "no chip, ff": Chip(numbers=b"\xff\xff\xff"),
        "12 KiB": Chip(numbers=b"\xef\x40\x0d"),
        "no size": Chip(numbers=b"\xef\x40\x55"),
        "no erase of 4 KiB": Chip(told=parameters(0xffffffe7, 128 * SECTOR * 8 - 1)),
        "3 sectors": Chip(told=parameters(0xfff120e5, 3 * SECTOR * 8 - 1)),
        "a power that is none": Chip(told=parameters(0xfff120e5, 0x80000000 | 77)),
    }.items():
        calls, nor = driver(chip)
        same((calls.nor_begin(ctypes.byref(nor)), nor.sectors), (0, 0), name)
