"""What the tests of clients share: the program, stations on lines, tools, and what they are compared with."""
import contextlib
import os
import pty
import subprocess
import sys
import tty

import antelope

ROOT = os.path.dirname(os.path.dirname(os.path.dirname(os.path.realpath(__file__))))
CLIENTS = f"{ROOT}/clients"
EXAMPLES = f"{ROOT}/examples"
PROGRAM = os.environ.get("SORACHEST_PROGRAM") or f"{ROOT}/crates/antelope_cli/out/antelope_cli"
# what the clients start on an image
os.environ["SORACHEST_PROGRAM"] = PROGRAM

SENSORS = (
    "CREATE RELATION s; CREATE ATTRIBUTE k DOMAIN LONG IN s; CREATE ATTRIBUTE t DOMAIN STRING(5) IN s;"
    "INSERT (5, 'abc') INTO s; INSERT (-1, '') INTO s; INSERT (7, 'it?,-') INTO s;"
)
ROWS = [(5, "abc"), (-1, ""), (7, "it?,-")]


class Skipped(Exception):
    """The machine lacks what a test needs."""


def same(got, wanted, what):
    if got != wanted:
        raise AssertionError(f"{what}: {got!r:.400}, and not {wanted!r:.400}")


def refuses(kind, call, *words, says=""):
    """The call raises this exception, and no other."""
    try:
        came = call(*words)
    except Exception as error:
        same((type(error), says in str(error)), (kind, True), f"{words}: {error}")
        return
    raise AssertionError(f"{words}: {came!r:.200} came, and not {kind.__name__}")


def write(path, text):
    with open(path, "w", encoding="utf-8", newline="") as file:
        file.write(text)


def read(path):
    with open(path, "rb") as file:
        return file.read()


def program(*words, script=""):
    """What the program wrote, which ended with 0."""
    ended = subprocess.run([PROGRAM, *words], input=script.encode(), stdout=subprocess.PIPE)
    same(ended.returncode, 0, f"status of {words}")
    return ended.stdout.decode()


def made(image, script, sectors=256):
    """Makes a new image by a script, whose replies are returned."""
    with open(image, "wb") as file:
        file.truncate(sectors * 4096)
    return program("run", image, "-", script=script)


def tool(name, *words, status=0):
    """What a tool wrote on its output and on standard error."""
    command = [sys.executable, "-B", f"{CLIENTS}/{name}.py", *words]
    ended = subprocess.run(command, stdin=subprocess.DEVNULL, stdout=subprocess.PIPE, stderr=subprocess.PIPE)
    said = ended.stderr.decode()
    same((ended.returncode, "Traceback" in said), (status, False), f"status of {name} {words}: {said}")
    if not status:
        same(said, "", f"standard error of {name}")
    return ended.stdout.decode(), said


def begin(code, *words):
    """A process that runs code over the module, with pipes for what it writes."""
    code = f"import sys, time; sys.path.insert(0, {CLIENTS!r}); import antelope\n{code}"
    command = [sys.executable, "-B", "-c", code, *words]
    return subprocess.Popen(command, stdout=subprocess.PIPE, stderr=subprocess.PIPE)


def station(script=SENSORS, sectors=256):
    """The line of a program that serves a new image."""
    made("image", script, sectors)
    return f"run:{PROGRAM} serve image -"


def connect(script=SENSORS, **how):
    return antelope.connect(station(script), **how)


@contextlib.contextmanager
def on_a_pty(script=SENSORS):
    """The path of a pty on which the program serves a new image."""
    made("image", script)
    near, far = pty.openpty()
    tty.setraw(far)
    begun = subprocess.Popen([PROGRAM, "serve", "image", "-"], stdin=near, stdout=near)
    os.close(near)
    try:
        yield os.ttyname(far)
    finally:
        os.close(far)
        begun.kill()
        begun.wait()
