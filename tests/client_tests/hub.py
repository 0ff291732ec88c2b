"""Tests of the hub: clients that share a line, are killed, say nonsense, or take nothing."""
import contextlib
import os
import pty
import socket
import subprocess
import sys
import time

import antelope
from client_tests.common import (
    CLIENTS, PROGRAM, ROWS, SENSORS, begin, made, on_a_pty, read, refuses, same, station, tool, write,
)


@contextlib.contextmanager
def hub(path, *words, at="hub", status=0):
    """A hub that lends the line; it ends with this status, and its socket goes."""
    command = [sys.executable, "-B", f"{CLIENTS}/antelope.py", "hub", path, at, "--timeout", "5", *words]
    begun = subprocess.Popen(command, stderr=subprocess.PIPE)
    wait_for(at, begun)
    try:
        yield begun
    finally:
        begun.terminate()
        _, said = begun.communicate()
    ended = begun.returncode, b"Traceback" in said, os.path.exists(at)
    same(ended, (status, False, False), f"how the hub ended: {said}")


def wait_for(at, begun):
    """Waits until the socket of a hub that was begun takes clients."""
    for _ in range(1000):
        with socket.socket(socket.AF_UNIX) as probe:
            if probe.connect_ex(at) == 0:
                return
        if begun.poll() is not None:
            raise AssertionError(f"the hub ended with {begun.returncode}: {begun.stderr.read()}")
        time.sleep(0.01)
    raise AssertionError("the hub does not come")


def test_four_share_a_hub():
    code = (
        "n = int(sys.argv[1])\n"
        "with antelope.connect('hub', timeout=10) as line:\n"
        "    cursor = line.cursor()\n"
        "    for at in range(40):\n"
        "        cursor.execute('INSERT (?, ?) INTO s', (n * 1000 + at, f'c{n}'))\n"
        "        rows = cursor.execute('SELECT k FROM s WHERE t = ?', (f'c{n}',)).fetchall()\n"
        "        assert rows == [(n * 1000 + it,) for it in range(at + 1)], rows\n"
    )
    with on_a_pty() as path, hub(path):
        begun = [begin(code, str(it)) for it in range(4)]
        same([it.communicate()[1].decode() for it in begun], [""] * 4, "what went wrong")
        with antelope.connect("hub") as line:
            same(line.cursor().execute("SELECT COUNT(k) FROM s").fetchall(), [(163,)], "rows")


def test_clients_of_a_hub_have_cursors_of_their_own():
    with on_a_pty() as path, hub(path), contextlib.ExitStack() as lines:
        cursors = [lines.enter_context(antelope.connect("hub", client=it)).cursor() for it in (1, 1, 4, 2)]
        for cursor in cursors:
            cursor.execute("SELECT k, t FROM s")
        same([[it.fetchone() for it in cursors] for _ in range(4)], [[it] * 4 for it in (*ROWS, None)], "rows")
        # a fifth waits until one of the four has left
        refuses(antelope.OperationalError, lambda: antelope.connect("hub", timeout=0.3), says="in time")
        cursors[2].connection.close()
        with antelope.connect("hub", timeout=5) as line:
            same(line.cursor().execute("SELECT k, t FROM s").fetchall(), ROWS, "rows of the fifth")


def test_a_client_of_a_hub_that_was_killed_locks_no_one_out():
    code = (
        "import os; line = antelope.connect('hub')\n"
        "row = line.cursor().execute('SELECT k FROM s').fetchone()\n"
        "os.write(line._line.fileno(), b'\\x01REMOVE FROM s')\n"
        "print(row, flush=True); time.sleep(60)"
    )
    with on_a_pty() as path, hub(path), antelope.connect("hub", timeout=5) as line:
        cursor = line.cursor()
        for _ in range(6):
            begun = begin(code)
            same(begun.stdout.readline(), b"(5,)\n", "what it fetched")
            refuses(antelope.OperationalError, cursor.execute, "REMOVE FROM s WHERE k = 100", says="no inuse ")
            begun.kill()
            begun.communicate()
            deadline = time.monotonic() + 10
            while is_refused(cursor) and time.monotonic() < deadline:
                time.sleep(0.01)
            same(is_refused(cursor), False, "the cursor of the one who was killed is in the way")
            same(cursor.execute("SELECT k, t FROM s").fetchall(), ROWS, "rows")


def is_refused(cursor):
    """Whether another's cursor is in the way of a REMOVE."""
    try:
        cursor.execute("REMOVE FROM s WHERE k = 100")
    except antelope.OperationalError:
        return True
    return False


def hub_says(link, frames, count):
    """Sends bytes to a hub, and reads this many replies."""
    link.sendall(frames)
    came = b""
    while came.count(b"\xc0") < count:
        came += link.recv(4096)
    return came


def test_a_hub_answers_frames_as_the_program_does():
    with on_a_pty() as path, hub(path), socket.socket(socket.AF_UNIX) as link:
        link.settimeout(10)
        link.connect("hub")
        for frames, replies in (
            (b"\xc0\xc0\x05A\xc0\x01\xdbA\xc0\x01\xdb\xc0", b"\0no frame\n\xc0" * 3),
            (b"\x03SELECT MAX(k) FROM s\xc0\x01SELECT k FR", b"\x037\nrows 1\n\xc0"),
            (b"OM s\xc0\x02SELECT\xc0", b"\x015\n-1\n7\nrows 3\n\xc0\x02no syntax 6\n\xc0"),
            (b"\x04" + b" " * 513 + b"\xc0", b"\x04no long\n\xc0"),
            (b"\x01" + b"x" * 100_000 + b"\xc0\x01FETCH 1\xc0", b"\x01no long\n\xc0\x01no cursor\n\xc0"),
            (b"x" * 5000 + b"\xc0", b"\0no frame\n\xc0"),
            (b"\x01INSERT (\xdb\xdc) INTO s\xc0\x01FETCH 2\xc0", b"\x01no syntax 8\n\xc0\x01no cursor\n\xc0"),
        ):
            same(hub_says(link, frames, replies.count(b"\xc0")), replies, f"replies to {frames[:40]}")


def test_noise_on_the_line_of_a_hub_costs_no_command():
    with on_a_pty() as path, hub(path), antelope.connect("hub", timeout=5) as line:
        noisy = os.open(path, os.O_RDWR | os.O_NOCTTY)
        cursor = line.cursor()
        for noise in (b"\xff", b"\xff\xc0", b"\x01x\xc0", b"\x01", b"\x02REMOVE FROM s"):
            for pause in (0, 0.02):
                os.write(noisy, noise)
                time.sleep(pause)
                same(cursor.execute("SELECT k, t FROM s").fetchall(), ROWS, f"rows after {noise}")
        os.close(noisy)


def test_a_client_that_takes_no_replies_keeps_no_one_waiting():
    script = SENSORS + "".join(f"INSERT ({it}, 'abcde') INTO s;" for it in range(3000))
    with on_a_pty(script) as path, hub(path), socket.socket(socket.AF_UNIX) as link:
        link.connect("hub")
        link.setblocking(False)
        sent, deadline = 0, time.monotonic() + 1
        while time.monotonic() < deadline:
            with contextlib.suppress(BlockingIOError):
                sent += link.send(b"\x01SELECT k, t FROM s\xc0\x01INSERT (1, 'x') INTO s\xc0" * 100)
        # nor are its frames or its replies kept without end
        same(sent < 2_000_000, True, f"{sent} bytes were taken")
        with antelope.connect("hub", timeout=5) as line:
            counts = [line.cursor().execute("SELECT COUNT(k) FROM s").fetchall()[0][0] for _ in range(20)]
        same((counts[0] < 3100, counts[0]), (True, counts[-1]), "the counts of rows")


def processor_seconds(begun):
    """What a process has taken of the processors so far."""
    fields = read(f"/proc/{begun.pid}/stat").rpartition(b")")[2].split()
    return (int(fields[11]) + int(fields[12])) / os.sysconf("SC_CLK_TCK")


def test_a_client_that_sends_ends_alone_keeps_no_one_waiting():
    with on_a_pty() as path, hub(path) as begun:
        with contextlib.ExitStack() as links:
            for _ in range(3):
                link = links.enter_context(socket.socket(socket.AF_UNIX))
                link.connect("hub")
                link.sendall(b"\xc0" * 2_000_000)
            with antelope.connect("hub", timeout=5) as line:
                same(line.cursor().execute("SELECT k, t FROM s").fetchall(), ROWS, "rows")
        # their places are free again, and nothing of theirs is left to do
        with contextlib.ExitStack() as lines:
            for _ in range(4):
                lines.enter_context(antelope.connect("hub", timeout=5))
            before = processor_seconds(begun)
            time.sleep(0.5)
            same(processor_seconds(begun) - before < 0.2, True, "it rests")


def test_a_silent_client_loses_its_place_to_one_that_waits():
    with on_a_pty() as path, hub(path, "--idle", "0.6"), contextlib.ExitStack() as lines:
        silent, *others = [lines.enter_context(antelope.connect("hub")).cursor() for _ in range(4)]
        deadline = time.monotonic() + 1.2
        while time.monotonic() < deadline:
            for cursor in others:
                cursor.execute("SELECT MAX(k) FROM s")
            time.sleep(0.02)
        # while no one waits all stay
        same(silent.execute("SELECT MAX(k) FROM s").fetchall(), [(7,)], "the silent one")
        time.sleep(0.7)
        for cursor in others:
            cursor.execute("SELECT MAX(k) FROM s")
        with antelope.connect("hub", timeout=5) as line:
            same(line.cursor().execute("SELECT MAX(k) FROM s").fetchall(), [(7,)], "the fifth")
            refuses(antelope.OperationalError, silent.execute, "SELECT MAX(k) FROM s", says="closed")
            for cursor in others:
                same(cursor.execute("SELECT MAX(k) FROM s").fetchall(), [(7,)], "one of the others")


def test_a_client_that_takes_no_replies_loses_its_place_to_one_that_waits():
    script = SENSORS + "".join(f"INSERT ({it}, 'abcde') INTO s;" for it in range(3000))
    with on_a_pty(script) as path, hub(path, "--idle", "0.5"), contextlib.ExitStack() as links:
        for _ in range(4):
            link = links.enter_context(socket.socket(socket.AF_UNIX))
            link.connect("hub")
            # more replies than a socket keeps
            link.sendall(b"\x01SELECT k, t FROM s\xc0" * 30)
        with antelope.connect("hub", timeout=20) as line:
            same(line.cursor().execute("SELECT COUNT(k) FROM s").fetchall(), [(3003,)], "the fifth")


def test_who_may_connect_to_a_hub_is_told_by_the_mode_of_its_socket():
    before = os.umask(0)
    try:
        with on_a_pty() as path:
            for words, mode in (((), 0o600), (("--mode", "660", "--group", str(os.getgid())), 0o660)):
                with hub(path, *words):
                    same(os.stat("hub").st_mode & 0o777, mode, f"the mode with {words}")
            tool("antelope", "hub", path, "hub", "--group", "no_such_group", status=1)
            same(os.listdir("."), ["image"], "the files")
    finally:
        os.umask(before)


def test_a_hub_leaves_what_has_taken_its_path():
    with on_a_pty() as path:
        command = [sys.executable, "-B", f"{CLIENTS}/antelope.py", "hub", path, "hub"]
        begun = subprocess.Popen(command, stderr=subprocess.PIPE)
        wait_for("hub", begun)
        os.unlink("hub")
        write("hub", "kept")
        begun.terminate()
        same((begun.communicate()[1], begun.returncode, read("hub")), (b"", 0, b"kept"), "how the hub ended")


def test_a_hub_has_its_path_alone():
    with on_a_pty() as path:
        with hub(path):
            made("other", SENSORS)
            says = tool("antelope", "hub", f"run:{PROGRAM} serve other -", "hub", status=1)[1]
            same("another hub is there" in says, True, says)
            says = tool("antelope", "hub", path, "other.hub", "--timeout", "0.2", status=1)[1]
            same("another program reads it" in says, True, says)
        for at in ("none/hub", "x" * 200):
            says = tool("antelope", "hub", path, at, status=1)[1]
            same(says.startswith(f"antelope.py: {at}: "), True, says)
        write("file", "kept")
        tool("antelope", "hub", path, "file", status=1)
        same(read("file"), b"kept", "the file")
        with socket.socket(socket.AF_UNIX) as stale:
            stale.bind("hub")
        with hub(path), antelope.connect("hub") as line:
            same(line.cursor().execute("SELECT k, t FROM s").fetchall(), ROWS, "rows")
    same(sorted(os.listdir(".")), ["file", "image", "other"], "the files")


def test_a_hub_does_not_begin_on_a_line_without_an_answer():
    near, far = pty.openpty()
    begun = time.monotonic()
    says = tool("antelope", "hub", os.ttyname(far), "hub", "--timeout", "0.3", status=1)[1]
    same((says, time.monotonic() - begun < 3), ("antelope.py: no reply came in time\n", True), "what it said, and when")
    os.close(near)
    os.close(far)
    same(os.listdir("."), [], "the files")


def test_a_hub_ends_with_its_line():
    script = "CREATE RELATION n; CREATE ATTRIBUTE v DOMAIN LONG IN n;" + "INSERT (1) INTO n;" * 800
    with hub(station(script, sectors=4), status=1) as begun, antelope.connect("hub", timeout=5) as line:
        # the program ends where its flash is full
        values = ((it,) for it in range(100))
        refuses(antelope.OperationalError, line.cursor().executemany, "INSERT (?) INTO n", values)
        begun.wait(10)
