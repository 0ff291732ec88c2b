"""What the tests of boards, `tests/device`, take from these."""
import subprocess
import tty

from .common import length, read, run, same, write
from .pages import commands_of
from .repairs import inserts
from .serial import open_pty

__all__ = ("commands_of", "follow", "inserts", "length", "open_pty", "read", "run", "same", "tty", "write")


def follow(command, shown, how):
    """Runs a command, and compares what it writes with what is shown."""
    ended = subprocess.run(["sh", "-c", command], stdout=subprocess.PIPE, stderr=subprocess.PIPE, **how)
    output, said = ended.stdout.decode(), ended.stderr.decode()
    wanted = [it for it in shown if not it.startswith("antelope: ")]
    told = [it for it in shown if it not in wanted]
    same(output, "".join(f"{it}\n" for it in wanted), f"what {command!r} wrote")
    same([it for it in told if it not in said.splitlines()], [], f"lines that {command!r} did not say")
    same([it for it in said.splitlines() if not it.startswith("antelope: ")], [], f"what {command!r} said")
    same(told != [] or ended.returncode == 0, True, f"that {command!r} ended with {ended.returncode} and said {said!r} is right")
