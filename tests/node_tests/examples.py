"""The logger, on a computer and on a board of qemu, which lose their power while it stores and answers."""
import os
import random
import signal
import subprocess
import time

from library_tests.common import ended, needs, read, same, write
from node_tests.common import LIBRARY, NODE, WARNINGS, program

EXAMPLES = f"{NODE}/examples"
INVERTED = bytes(255 - byte for byte in range(256))


def made(every):
    """The logger on this machine, which stores a reading every so many milliseconds."""
    needs("cc")
    words = ["cc", *WARNINGS, f"-DLOGGER_EVERY={every}", f"{EXAMPLES}/logger.c", f"{EXAMPLES}/board_host.c", LIBRARY]
    status, _, said = ended([*words, "-o", os.path.abspath("logger")])
    same((status, said), (0, ""), "what the compiler said of the logger")
    return [os.path.abspath("logger"), "chip"]


class Logger:
    """A logger that is switched on; its power goes at the end."""

    def __init__(self, command):
        self.begun = subprocess.Popen(command, stdin=subprocess.PIPE, stdout=subprocess.PIPE, bufsize=0, start_new_session=True)
        self.said = []
        while (line := self.line()) != "ready":
            self.said.append(line)

    def __enter__(self):
        return self

    def __exit__(self, *_):
        os.killpg(self.begun.pid, signal.SIGKILL)
        self.begun.wait()

    def line(self):
        line = b""
        while not line.endswith(b"\n"):
            byte = self.begun.stdout.read(1)
            if not byte:
                raise AssertionError(f"it ended with {self.begun.wait()}, and had said {self.said} and {line}")
            line += byte
        return line.decode().rstrip("\r\n")

    def send(self, text):
        self.begun.stdin.write(text.encode())

    def ask(self, command):
        """The lines of a reply, the last of which is no row."""
        self.send(command + "\n")
        lines = [self.line()]
        while not lines[-1].startswith(("ok", "no ", "rows ", "memory ")):
            lines.append(self.line())
        return lines

    def count(self, condition="number >= 0"):
        return int(self.ask(f"SELECT COUNT(celsius) FROM readings WHERE {condition}")[0])


def shell_and_timer(command):
    """A timer stores while a shell asks, and the rows are there when the power comes back."""
    with Logger(command) as one:
        same(one.ask("SELECT kelvin FROM readings"), ["no attribute 1"], "what is refused")
        same(one.ask("SELECT " + "k," * 300), ["no long"], "what is said of a line that is too long")
        while one.count() < 3:
            time.sleep(0.05)
        first = ["0,18", "1,20", "2,22", "rows 3"]
        same(one.ask("SELECT number, celsius FROM readings WHERE number < 3"), first, "the first readings")
        same(int(one.ask("?")[0].split()[1]) > 10_000, True, "that the memory is told")
        first = one.count()
    with Logger(command) as other:
        again = other.count()
        same(again >= first, True, f"that of {first} readings {again} are there")
        rows = other.ask("SELECT number FROM readings")[:-1]
        same(rows, [str(it) for it in range(len(rows))], "the numbers of the readings")
    write("image", read("chip").translate(INVERTED))
    looked = program("look", "image")[1]
    same(looked.startswith(b"relation readings (number LONG, celsius INT) rows "), True, f"that {looked} is what stands there")


def cut(command, times, many, unheard=0):
    """The power goes in the midst of inserts: each one whose `ok` came is there, and one more at most, but for `unheard` ones."""
    answered = repaired = 0
    rnd = random.Random(7)
    for turn in range(times):
        with Logger(command) as one:
            repaired += "repairing" in one.said
            stands = one.count("celsius = 77")
            if not answered <= stands <= answered + 1 + unheard:
                raise AssertionError(f"of {answered} readings that were answered {stands} are there; it said {one.said}")
            answered = stands
            one.send("".join(f"INSERT ({2_000_000 + turn * 1000 + it}, 77) INTO readings\n" for it in range(many)))
            said = [one.line() for _ in range(rnd.randrange(1, many // 4))]
            time.sleep(rnd.random() * 0.01)
            os.killpg(one.begun.pid, signal.SIGKILL)
            said += one.begun.stdout.read().decode().split("\n")[:-1]
            same({it.strip() for it in said}, {"ok"}, f"what is said of {said[:3]}")
            answered += len(said)
    print(f"{times} loggers lost their power, {repaired} were repaired, {answered} readings were answered and are there")
    same(answered > 10 * times, True, f"that {answered} readings are many")


def test_the_logger_stores_and_answers():
    shell_and_timer(made(20))


def test_a_logger_that_loses_its_power_loses_no_reading():
    cut(made(3_600_000), 40, 300)


def on_the_board(every):
    """The command that switches a board on, on which the logger stores a reading every so many milliseconds."""
    needs("qemu-system-arm")
    command = ["env", f"LOGGER_EVERY={every}", f"{EXAMPLES}/stm32"]
    done = ended([*command, "build"])
    same(done[0], 0, f"the status of the build, which said {done[2]}")
    return [*command, "chip"]


def test_the_logger_runs_on_a_microcontroller():
    shell_and_timer(on_the_board(100))


def test_a_microcontroller_that_loses_its_power_loses_no_reading():
    # what is on its way from the board when its power goes is not heard
    cut(on_the_board(3_600_000), 15, 300, unheard=300)
