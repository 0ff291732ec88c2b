"""Tests of the lines themselves: how they are opened, noise, clients that were killed, and waits that end."""
import contextlib
import os
import pathlib
import pty
import random
import select
import socket
import subprocess
import sys
import threading
import time
import tty

import antelope
import antelope_line
from client_tests.common import EXAMPLES, PROGRAM, ROWS, SENSORS, begin, on_a_pty, refuses, same, station, write


def takes(seconds, most, where, timeout):
    """A connection that never opens, which is reported after this many seconds."""
    begun = time.monotonic()
    refuses(antelope.OperationalError, lambda: antelope.connect(where, timeout=timeout))
    took = time.monotonic() - begun
    if not seconds <= took <= most:
        raise AssertionError(f"it took {took:.2f} seconds, and not {seconds} to {most}")


@contextlib.contextmanager
def answered_by(say):
    """The path of a pty on which all that comes is answered by the texts of a call."""
    near, far = pty.openpty()
    tty.setraw(far)
    os.set_blocking(near, False)
    is_over = threading.Event()

    def give(text):
        while text and not is_over.is_set():
            if select.select([], [near], [], 0.02)[1]:
                text = text[os.write(near, text):]

    def answer():
        while not is_over.is_set():
            if select.select([near], [], [], 0.02)[0]:
                for text in say(os.read(near, 4096)):
                    give(text)

    thread = threading.Thread(target=answer)
    thread.start()
    try:
        yield os.ttyname(far)
    finally:
        is_over.set()
        thread.join()
        os.close(far)
        os.close(near)


# Lines


@contextlib.contextmanager
def behind_a_socket(listener):
    """Serves an image to the first that connects."""

    def serve():
        link, _ = listener.accept()
        subprocess.run([PROGRAM, "serve", "image", "-"], stdin=link, stdout=link)
        link.close()

    thread = threading.Thread(target=serve)
    thread.start()
    with listener:
        yield
        thread.join()


def test_sockets_are_lines():
    station()
    with socket.socket(socket.AF_UNIX) as unix, socket.create_server(("127.0.0.1", 0)) as inet:
        unix.bind("socket")
        unix.listen()
        for listener, where in ((unix, "socket"), (inet, f"tcp:127.0.0.1:{inet.getsockname()[1]}")):
            with behind_a_socket(listener), antelope.connect(where) as line:
                same(line.cursor().execute("SELECT k, t FROM s").fetchall(), ROWS, f"rows over {where}")


def test_a_line_that_cannot_be_opened_is_told():
    write("file", "")
    for where, says in (
        ("none", "none: "),
        (".", ".: "),
        # no image is so short
        ("file", "ended with 10"),
        ("/dev/null", "/dev/null: it is not a port, a socket or an image"),
        ("tcp:127.0.0.1:1", "refused"),
        ("tcp:127.0.0.1:x", "tcp:HOST:PORT"),
        ("tcp:127.0.0.1", "tcp:HOST:PORT"),
        ("tcp:127.0.0.1:99999", "tcp:127.0.0.1:99999: "),
        ("run:", "no program is named"),
        ("run:./none", "./none"),
        ("run:'x", "run:'x: "),
        ("run:/bin/true", "closed: /bin/true ended with 0"),
    ):
        refuses(antelope.OperationalError, antelope.connect, where, says=says)
    refuses(antelope.InterfaceError, lambda: antelope.connect("none", client=5))
    with on_a_pty() as path:
        refuses(antelope.OperationalError, lambda: antelope.connect(path, speed=7), says="a speed of 7 bits a second")
        with antelope.connect(pathlib.Path(path), speed=9600) as line:
            same(line.cursor().execute("SELECT k, t FROM s").fetchall(), ROWS, "rows")


def test_an_image_is_a_line():
    station()
    with antelope.connect(pathlib.Path("image")) as line:
        cursor = line.cursor().execute("SELECT k, t FROM s")
        same(cursor.fetchall(), ROWS, "the rows")
    os.environ["SORACHEST_PROGRAM"], before = "./none", os.environ["SORACHEST_PROGRAM"]
    try:
        refuses(antelope.OperationalError, antelope.connect, "image", says="./none")
    finally:
        os.environ["SORACHEST_PROGRAM"] = before


def test_a_program_is_started_anew_before_it_has_taken_all_it_takes():
    where = station("CREATE RELATION n; CREATE ATTRIBUTE v DOMAIN INT IN n;" + "INSERT (1) INTO n;" * 9, sectors=1024)
    # more bytes than one run takes
    count = 32700
    same(count * 514 > antelope_line.MOST_INPUT, True, "the bytes that are sent")
    with antelope.connect(where) as line:
        reading = line.cursor().execute("SELECT v FROM n")
        same(reading.fetchone(), (1,), "a row that was fetched before")
        line.cursor().executemany(f"INSERT (?{' ' * 491}) INTO n", ((it % 10000 + 10000,) for it in range(count)))
        same(reading.fetchall(), [(1,)] * 8, "the rest of the answer")
        query = "SELECT COUNT(v), SUM(v) FROM n WHERE v >= 10000"
        total = sum(it % 10000 + 10000 for it in range(count))
        same(line.cursor().execute(query).fetchall(), [(count, total)], "what was inserted")


def test_a_line_of_several_clients_starts_its_program_anew():
    with contextlib.closing(antelope_line.Line(station())) as line:
        same(line.ask(2, b"OPEN 1 SELECT k FROM s"), "ok\n", "a cursor")
        line._sent = antelope_line.MOST_INPUT - 4000
        same([line.ask(3, b"SELECT MAX(k) FROM s"), line.ask(2, b"FETCH 1")], ["7\nrows 1\n", "no cursor\n"], "replies")
        same(line.room() > antelope_line.MOST_INPUT - 4000, True, "the room")


def test_an_answer_of_many_rows_comes_whole():
    script = SENSORS + "".join(f"INSERT ({it}, '{it % 100}') INTO s;" for it in range(4000))
    wanted = ROWS + [(it, str(it % 100)) for it in range(4000)]
    with on_a_pty(script) as path:
        for whole in (True, False):
            with antelope.connect(path, whole=whole) as line:
                same(line.cursor().execute("SELECT k, t FROM s").fetchall() == wanted, True, "the rows are right")


# Noise, and clients that were killed


NOISE = (
    b"\xff",
    b"\x01",
    b"\x01SELECT k FROM",
    b"\x01OPEN 1 SELECT k FROM s",
    b"\x01REMOVE FROM s",
    b"\x01INSERT (9, '') INTO s",
    b"\xdb",
    b"\x01\xdb",
    b"\xc0\xc0\x01CLOSE 1\xc0\x02FETCH 1\xc0\xff\xc0",
    b"\x01OPEN 1 SELECT k FROM s\xc0\x01FETCH 1\xc0\x01FET",
    b"x" * 5000,
    b"\x01SELECT k, t FROM s\xc0" * 20,
)


def test_noise_before_a_client_is_drained():
    with on_a_pty() as path:
        for noise in NOISE:
            port = os.open(path, os.O_RDWR | os.O_NOCTTY)
            os.write(port, noise)
            os.close(port)
            for _ in range(2):
                with antelope.connect(path, timeout=5) as line:
                    same(line.cursor().execute("SELECT k, t FROM s").fetchall(), ROWS, f"rows after {noise[:40]}")


def test_random_noise_is_drained():
    chance = random.Random(7)
    often = b"\x00\x01\x02\x03\x04\xc0\xdb\xdc\xdd\xff\x80 SELCT';()9"
    with on_a_pty() as path:
        for _ in range(12):
            port = os.open(path, os.O_RDWR | os.O_NOCTTY)
            os.write(port, bytes(chance.choices(often, k=700)))
            os.close(port)
            with antelope.connect(path, timeout=5) as line:
                same(line.cursor().execute("SELECT k, t FROM s").fetchall(), ROWS, "rows after noise")


def test_noise_within_a_connection_costs_no_command():
    noises = (b"\xff", b"\xff\xc0", b"\xdb", b"\x07\xc0\x05", b"\x01", b"\x01x\xc0", b"\x02")
    noises += (b"\x01REMOVE FROM s", b"x" * 600)
    with on_a_pty() as path, antelope.connect(path, timeout=5) as line:
        noisy = os.open(path, os.O_RDWR | os.O_NOCTTY)
        cursor = line.cursor()
        for pause in (0, 0.02):
            for at, noise in enumerate(noises):
                os.write(noisy, noise)
                time.sleep(pause)
                cursor.execute("INSERT (?, 'n') INTO s", (at,))
            cursor.execute("SELECT k FROM s WHERE t = 'n'")
            for at in range(len(noises)):
                os.write(noisy, noises[at])
                time.sleep(pause)
                same(cursor.fetchone(), (at,), f"the row after {noises[at]}")
            same(cursor.fetchall(), [], "the rest")
            same(cursor.execute("REMOVE FROM s WHERE t = 'n'").rowcount, len(noises), "rows that were inserted")
        os.close(noisy)


def test_a_client_that_was_killed_locks_no_one_out():
    code = "it = antelope.connect(sys.argv[1]).cursor().execute('SELECT k FROM s')\n"
    code += "print(it.fetchone(), flush=True); time.sleep(60)"
    with on_a_pty() as path:
        for _ in range(3):
            begun = begin(code, path)
            same(begun.stdout.readline(), b"(5,)\n", "what it fetched")
            begun.kill()
            begun.communicate()
            with antelope.connect(path, timeout=5) as line:
                cursor = line.cursor()
                same(cursor.execute("SELECT k, t FROM s").fetchall(), ROWS, "rows")
                cursor.execute("INSERT (1, 'x') INTO s")
                same(cursor.execute("REMOVE FROM s WHERE t = 'x'").rowcount, 1, "a row that was removed")


def test_two_at_once_on_a_port_take_turns():
    with on_a_pty() as path:
        ask = [sys.executable, "-B", f"{EXAMPLES}/client.py", path, "SELECT k FROM s"]
        for client in ("1", "2"):
            pipes = {"stdout": subprocess.PIPE, "stderr": subprocess.PIPE}
            begun = [subprocess.Popen([*ask, "--client", client], **pipes) for client in ("1", client, "1")]
            same([it.communicate() for it in begun], [(b"5\n-1\n7\n", b"")] * 3, "what they wrote")
        with antelope.connect(path):
            takes(0.3, 10, path, 0.3)


def test_the_example_asks_and_tells():
    with on_a_pty() as path:
        for query, status, wrote, says in (
            ("SELECT t, k FROM s", 0, b"'abc',5\n'',-1\n'it?,-',7\n", b""),
            ("SELECT k FROM s WHERE k > 10", 0, b"", b""),
            ("SELECT x FROM s", 1, b"", b"client.py: OPEN 1 SELECT x FROM s: no attribute 1\n"),
        ):
            ask = [sys.executable, "-B", f"{EXAMPLES}/client.py", path, query, "--client", "3", "--timeout", "5"]
            ended = subprocess.run(ask, stdout=subprocess.PIPE, stderr=subprocess.PIPE)
            same((ended.returncode, ended.stdout, ended.stderr), (status, wrote, says), query)


# Waits have an end


def test_a_line_without_an_answer_is_given_up():
    with answered_by(lambda _: ()) as path:
        takes(0.3, 10, path, 0.3)
    near, far = pty.openpty()
    path = os.ttyname(far)
    takes(0.3, 10, path, 0.3)
    # nor does it hang where the line takes no byte more
    os.set_blocking(far, False)
    tty.setraw(far)
    with contextlib.suppress(BlockingIOError):
        while True:
            os.write(far, b"x" * 1000)
    takes(0.3, 10, path, 0.3)
    os.close(near)
    takes(0, 10, path, 0.3)
    os.close(far)


def test_a_line_that_babbles_is_given_up():
    for text in ("x", "\x01ok\n\udcc0", "\x02ok\n\udcc0", "\udcc0"):
        takes(0, 5, f"run:yes '{text}'", 0.3)
    most = antelope_line.MOST_BYTES
    antelope_line.MOST_BYTES = 100_000
    try:
        takes(0, 5, "run:yes x", 30)
    finally:
        antelope_line.MOST_BYTES = most


def in_step(answer):
    """Answers the frames of a client by a call, but for those that bring it in step."""

    def say(came):
        for part in came.split(b"\xc0")[:-1]:
            if part.endswith(b" SELECT"):
                yield b"\x01no syntax %d\n\xc0" % (len(part) - 1)
            elif part != b"\xdb":
                yield answer(part)

    return say


def framed(*replies):
    """Answers the frames of a client by these texts, the last one again and again."""
    frames = [b"" if it is None else b"\x01" + it + b"\xc0" for it in replies]
    return in_step(lambda _: frames.pop(0) if len(frames) > 1 else frames[0])


def test_a_reply_that_comes_too_late_is_no_other_reply():
    replies = framed(b"ok\n", b"7\nrows 1\n", b"-1\nrows 1\n")

    def say(came):
        for text in replies(came):
            time.sleep(1 if b"7" in text and b"no" not in text else 0)
            yield text

    with answered_by(say) as path, antelope.connect(path, timeout=0.7) as line:
        cursor = line.cursor()
        refuses(antelope.OperationalError, cursor.execute, "SELECT MAX(k) FROM s", says="in time")
        time.sleep(0.6)
        same(cursor.execute("SELECT MIN(k) FROM s").fetchall(), [(-1,)], "the next reply")


def test_a_reply_that_came_broken_is_none():
    for reply in (b"o\n", b"ok", b"5\nrows 2\n", b"ok\nok\n", b"", b"\xff\n", b"no\n", b"rows \n"):
        with answered_by(framed(reply)) as path:
            refuses(antelope.OperationalError, lambda: antelope.connect(path, timeout=2), says="which is not a reply")
    with answered_by(framed(b"ok\n", b"ok\n", b"5\nrows 1\n", b"5x\nrows 1\n")) as path:
        with antelope.connect(path, timeout=2) as line:
            cursor = line.cursor().execute("SELECT k FROM s")
            refuses(antelope.OperationalError, cursor.fetchall, says="'5x' came")
    for row in ("5x", "'a", "5,", "'K\u00fcche'", "5 ,6", ""):
        refuses(antelope.OperationalError, antelope.row_of, row, says="which is not a row")


def test_what_was_carried_out_is_not_sent_again():
    done = b"\x01ok\n\xc0"
    for noise in (b"\x00no frame\n\xc0", b"\x02no syntax 0\n\xc0", b"\x01no syntax 0\n\xc0"):
        for behind, times in ((done, 1), (b"", 2)):
            heard = []

            def answer(part):
                heard.extend([part] if b"INSERT" in part else [])
                return noise + behind if len(heard) == 1 and b"INSERT" in part else done

            with answered_by(in_step(answer)) as path, antelope.connect(path, timeout=5) as line:
                line.cursor().execute("INSERT (1) INTO s")
            same(len(heard), times, f"how often it was sent where {noise + behind} came")


def test_behind_a_row_that_did_not_come_no_row_is_fetched():
    with answered_by(framed(b"ok\n", b"ok\n", b"5\nrows 1\n", None, b"7\nrows 1\n")) as path:
        with antelope.connect(path, timeout=0.3) as line:
            cursor = line.cursor().execute("SELECT k FROM s")
            same(cursor.fetchone(), (5,), "the first row")
            refuses(antelope.OperationalError, cursor.fetchone, says="in time")
            refuses(antelope.InterfaceError, cursor.fetchone)
