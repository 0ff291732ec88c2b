"""Ways to the other end of a line: how each is opened, read, written and closed.

A line is named in one of these ways:

    /dev/ttyUSB0                          a serial port, a pty or a Unix socket, by its path
    station.img                           an image, on which the program is started; it ends with the line
    tcp:HOST:PORT                         a TCP socket
    run:./antelope serve station.img -    a command that is started; it ends with the line
"""
import fcntl
import os
import re
import shlex
import shutil
import signal
import socket
import stat
import subprocess
import termios
import time
import tty

TIMEOUT = 10.0
# the environment variable that names the program for images
PROGRAM = "SORACHEST_PROGRAM"


class LineFailed(Exception):
    """A line could not be opened, or a reply did not arrive."""


class LineClosed(LineFailed):
    """The line was closed: no reply can arrive any more."""


class Way:
    """Two descriptors, and a call that closes both."""

    can_start_anew = False

    def __init__(self, source, sink, close):
        self.source = source
        self.sink = sink
        self.close = close

    def ending(self):
        """Why the other end is gone, as far as known."""
        return ""


class Program(Way):
    """A program on two pipes."""

    can_start_anew = True

    def __init__(self, words):
        if not words:
            raise LineFailed("no program is named")
        pipes = {"stdin": subprocess.PIPE, "stdout": subprocess.PIPE, "bufsize": 0}
        # it gets no signals of the terminal, which could interrupt a write
        self._program = subprocess.Popen(words, start_new_session=True, **pipes)
        self._words = words
        for pipe in (self._program.stdin, self._program.stdout):
            os.set_blocking(pipe.fileno(), False)
        super().__init__(self._program.stdout.fileno(), self._program.stdin.fileno(), self._close)

    def ending(self):
        try:
            status = self._program.wait(1)
        except subprocess.TimeoutExpired:
            return ""
        return f"{self._words[0]} ended with {status}"

    def start_anew(self):
        """Ends the program, and starts it again."""
        self._close()
        return Program(self._words)

    def _close(self):
        self._program.stdin.close()
        self._program.stdout.close()
        # it ends when its input ends, after the commands that it has received
        try:
            self._program.wait(TIMEOUT)
        except subprocess.TimeoutExpired:
            os.killpg(self._program.pid, signal.SIGKILL)
            self._program.wait()


def lock(port, deadline):
    """Waits until this process is the only reader of a port."""
    while True:
        try:
            fcntl.flock(port, fcntl.LOCK_EX | fcntl.LOCK_NB)
            return
        except BlockingIOError:
            if time.monotonic() > deadline:
                raise LineFailed("another program reads it; a hub would serve both") from None
        time.sleep(0.02)


def set_raw(port, speed):
    """Sets a port to raw bytes, and to this speed."""
    tty.setraw(port, termios.TCSANOW)
    settings = termios.tcgetattr(port)
    settings[2] |= termios.CLOCAL | termios.CREAD
    if speed:
        if not hasattr(termios, f"B{speed}"):
            raise LineFailed(f"ports do not have a speed of {speed} bits a second")
        settings[4] = settings[5] = getattr(termios, f"B{speed}")
    termios.tcsetattr(port, termios.TCSANOW, settings)


def open_port(path, speed, seconds):
    port = os.open(path, os.O_RDWR | os.O_NOCTTY | os.O_NONBLOCK)
    try:
        if not os.isatty(port):
            raise LineFailed("it is not a port, a socket or an image")
        lock(port, time.monotonic() + seconds)
        set_raw(port, speed)
    except BaseException:
        os.close(port)
        raise
    return Way(port, port, lambda: os.close(port))


def open_socket(link):
    link.setblocking(False)
    return Way(link.fileno(), link.fileno(), link.close)


def open_unix(path, seconds):
    link = socket.socket(socket.AF_UNIX)
    try:
        link.settimeout(seconds)
        link.connect(path)
    except BaseException:
        link.close()
        raise
    return open_socket(link)


def open_tcp(address, seconds):
    host, _, port = address.rpartition(":")
    if not host or not re.fullmatch("[0-9]{1,5}", port):
        raise LineFailed("a TCP line is written tcp:HOST:PORT")
    return open_socket(socket.create_connection((host.strip("[]"), int(port)), seconds))


def program():
    """The program for images: the one that the environment names, or the clone's launcher, or one on the path."""
    folder = os.path.dirname(os.path.dirname(os.path.dirname(os.path.realpath(__file__))))
    beside = os.path.join(folder, "antelope")
    if os.environ.get(PROGRAM):
        return os.environ[PROGRAM]
    if os.path.isfile(beside) and os.access(beside, os.X_OK):
        return beside
    found = shutil.which("sorachest") or shutil.which("antelope")
    if not found:
        raise LineFailed(f"there is no program for images: name one in {PROGRAM}")
    return found


def kind_of(where):
    """The kind of a line: `run`, `tcp`, `socket`, `image` or `port`."""
    kind = where.partition(":")[0]
    if kind in ("run", "tcp"):
        return kind
    mode = os.stat(where).st_mode
    if stat.S_ISSOCK(mode):
        return "socket"
    return "image" if stat.S_ISREG(mode) else "port"


def open_way(where, speed, seconds):
    """The way to a line of this name."""
    kind = kind_of(where)
    if kind == "run":
        return Program(shlex.split(where[len("run:"):]))
    if kind == "tcp":
        return open_tcp(where[len("tcp:"):], seconds)
    if kind == "image":
        return Program([program(), "serve", where, "-"])
    return open_unix(where, seconds) if kind == "socket" else open_port(where, speed, seconds)
