"""Boards that are served over their line."""
import contextlib
import os
import subprocess
import sys

from .common import EXAMPLES, MAIN, Pair, begin, build, cut_off, image_of, linux, processors, read, same

@contextlib.contextmanager
def served(start):
    """The path of a line that is served until its power goes."""
    near, far = linux.open_pty()
    path = os.ttyname(far)
    linux.tty.setraw(far)
    begun = start(near)
    os.close(near)
    try:
        yield path
    finally:
        os.close(far)
        cut_off(begun)


def ask(line, client, query):
    words = [sys.executable, "-B", f"{EXAMPLES}/client.py", line, query, "--client", client, "--timeout", "60"]
    ended = subprocess.run(words, stdin=subprocess.DEVNULL, stdout=subprocess.PIPE, stderr=subprocess.PIPE)
    same((ended.returncode, ended.stderr), (0, b""), f"the end of the client that asked {query}")
    return ended.stdout


def test_a_client_asks_a_board_over_its_line():
    for processor in processors(MAIN):
        both = Pair(build(processor))
        both.do("run", "-", script=read(f"{EXAMPLES}/first.aql"))
        with served(lambda near: begin(both.board, "serve", "chip", "-", stdin=near, stdout=near)) as line:
            # client 4 is the byte that ends a script
            for client in ("1", "4"):
                same(ask(line, client, "SELECT minute FROM readings"), b"0\n10\n20\n", f"the rows of client {client}")
        same(image_of("chip") == read("image"), True, "that asking leaves the flash as it was")
        both.do("run", "-", script=b"SELECT COUNT(minute) FROM readings;")
