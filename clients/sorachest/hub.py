#!/usr/bin/env python3
"""Shares a line among up to four clients of a Unix socket, one exchange after the other.

    sorachest-hub /dev/ttyUSB0 station
    sorachest-hub /dev/ttyUSB0 station --mode 660 --group sensors

A client sends and receives frames as on the line itself. Whatever client number its frames have, it gets a number
of its own on the line, and so a cursor of its own, which is closed when the client leaves or is killed. A fifth
client waits until one of the four leaves, or has been silent for --idle seconds and is disconnected.

There are no passwords: everyone who may write to the socket can connect, and read, change and remove everything.
Without --mode this is only the user who started the hub.
"""
import contextlib
import os
import select
import shutil
import signal
import socket
import stat
import sys
import time

from sorachest import tool
from sorachest.line import CLIENTS, END, MOST_COMMAND, Line, decode
from sorachest.ways import TIMEOUT, LineClosed, LineFailed

SUMMARY = "shares a line among up to four clients of a Unix socket"
# more bytes than the longest accepted frame has with its escapes
MOST_PART = 2 * MOST_COMMAND + 64
IDLE = 60.0
MODE = 0o600


class Guest:
    """A client: what it has sent, and the replies that it has not yet read."""

    def __init__(self, link, number):
        link.setblocking(False)
        self._link = link
        self.number = number
        self.asked = bytearray()
        self.replies = bytearray()
        self.has_ended = False
        self._acted_at = time.monotonic()

    def fileno(self):
        return self._link.fileno()

    def close(self):
        self._link.close()

    def is_done(self):
        return self.has_ended and not self.replies and not self.has_frame()

    def hear(self):
        """Receives bytes. Of a frame that is too long only the front is kept, which is enough to refuse it."""
        try:
            came = self._link.recv(4096)
        except BlockingIOError:
            return
        except OSError:
            came = b""
        self.has_ended = not came
        self._acted_at = time.monotonic()
        self.asked += came
        if not self.has_frame():
            del self.asked[MOST_PART:]

    def answer(self):
        """Sends as much of the replies as the client accepts; nothing to one that is gone."""
        try:
            del self.replies[:self._link.send(self.replies)]
            self._acted_at = time.monotonic()
        except BlockingIOError:
            return
        except OSError:
            self.leave()

    def leave(self):
        self.has_ended = True
        self.asked.clear()
        self.replies.clear()

    def silence(self):
        """The seconds in which it has neither sent anything nor read its replies."""
        is_next = self.has_frame() and not self.replies
        return 0 if is_next else time.monotonic() - self._acted_at

    def reply(self, text):
        self.replies += text + END
        # the time in which it waited for a place does not count
        self._acted_at = time.monotonic()

    def has_frame(self):
        return END in self.asked

    def next_part(self):
        part, end, rest = self.asked.partition(END)
        if not end:
            return b""
        # several END in a row are not frames
        self.asked = rest.lstrip(END)
        return bytes(part)


class Hub:
    """A line, and the clients that share it."""

    def __init__(self, line, listener, idle=IDLE):
        self._line = line
        self._listener = listener
        self._idle = idle
        self._guests = []

    def run(self):
        while True:
            self._wait()
            for guest in list(self._guests):
                if not guest.replies:
                    self._exchange(guest)
                if guest.is_done():
                    self._guests.remove(guest)
                    guest.close()
                    close_cursor(self._line, guest.number)

    def _wait(self):
        """Waits until a client sends or reads something, unless a frame is ready."""
        # a client whose frame is waiting is not read before that is done: it could send faster than the line
        heard = [it for it in self._guests if not (it.has_ended or it.replies or it.has_frame())]
        has_work = any(it.has_frame() for it in self._guests if not it.replies)
        free = [it for it in CLIENTS if it not in [guest.number for guest in self._guests]]
        listened = [self._line, *heard] + ([self._listener] if free else [])
        takers = [it for it in self._guests if it.replies]
        # while all places are taken, the hub looks now and then whether another client waits
        seconds = 0 if has_work else None if free else max(0.05, min(1.0, self._idle))
        ready, able, _ = select.select(listened, takers, [], seconds)
        for it in able:
            it.answer()
        for it in ready:
            if it is self._line:
                it.drop()
            elif it is self._listener:
                self._guests.append(Guest(it.accept()[0], free[0]))
            else:
                it.hear()
        if not free:
            self._let_go_of_the_silent()

    def _let_go_of_the_silent(self):
        """Disconnects the client that was silent for longest, if another waits for its place."""
        guest = max(self._guests, key=Guest.silence)
        if guest.silence() >= self._idle and select.select([self._listener], [], [], 0)[0]:
            guest.leave()

    def _exchange(self, guest):
        """Sends one frame of a client over the line, and its reply back."""
        part = guest.next_part()
        if not part:
            return
        payload = decode(part)
        if not payload or payload[0] not in CLIENTS:
            guest.reply(b"\0no frame\n")
        elif len(payload) > 1 + MOST_COMMAND:
            guest.reply(payload[:1] + b"no long\n")
        else:
            try:
                text = self._line.ask(guest.number, payload[1:])
                guest.reply(payload[:1] + text.encode("latin-1"))
            except LineClosed:
                raise
            except LineFailed:
                # whether the command was carried out is not known: the client sees this by its line being closed
                guest.leave()


def close_cursor(line, number):
    """Closes a client's cursor, if the line still works."""
    try:
        line.ask(number, b"CLOSE 1")
    except LineClosed:
        raise
    except LineFailed:
        pass


def listen(path, mode=MODE, group=None):
    """A socket whose path appears once clients can connect to it."""
    try:
        return listen_alone(path, mode, group)
    except (OSError, LookupError) as error:
        raise LineFailed(f"{path}: {error}") from error


def listen_alone(path, mode, group):
    """A socket at a path that neither another hub nor anything else uses."""
    with socket.socket(socket.AF_UNIX) as other:
        if other.connect_ex(path) == 0:
            raise LineFailed(f"{path}: another hub is there")
    if os.path.lexists(path) and not stat.S_ISSOCK(os.lstat(path).st_mode):
        raise LineFailed(f"{path}: there is something else")
    listener = socket.socket(socket.AF_UNIX)
    beginning = f"{path}.{os.getpid()}"
    # nobody may connect before the mode is set
    others = os.umask(0o177)
    try:
        listener.bind(beginning)
    finally:
        os.umask(others)
    try:
        if group is not None:
            shutil.chown(beginning, group=int(group) if group.isdigit() else group)
        os.chmod(beginning, mode)
        listener.listen()
        os.rename(beginning, path)
    except BaseException:
        os.unlink(beginning)
        raise
    return listener


@contextlib.contextmanager
def listening(path, mode, group):
    """A socket at a path, which is removed at the end, unless something else is there by then."""
    with listen(path, mode, group) as listener:
        made = os.lstat(path)
        try:
            yield listener
        finally:
            with contextlib.suppress(FileNotFoundError):
                if os.path.samestat(os.lstat(path), made):
                    os.unlink(path)


def run(where, path, speed=None, timeout=TIMEOUT, mode=MODE, group=None, idle=IDLE):
    """Shares a line at a path until a signal arrives or the line is closed."""
    line = Line(where, speed, timeout)
    with contextlib.closing(line):
        line.settle(CLIENTS[0])
        for number in CLIENTS:
            close_cursor(line, number)
        signal.signal(signal.SIGTERM, lambda *_: sys.exit(0))
        with listening(path, mode, group) as listener, contextlib.suppress(KeyboardInterrupt):
            Hub(line, listener, idle).run()


def octal(text):
    """A mode as chmod writes it."""
    return int(text, 8)


def add_arguments(parser):
    tool.add_line(parser)
    parser.add_argument("socket", help="the path of the socket that clients connect to")
    parser.add_argument("--mode", type=octal, default=MODE, help="the mode of the socket, as chmod writes it (600)")
    parser.add_argument("--group", help="the group of the socket, by its name or number")
    text = f"seconds of silence after which a client may lose its place to one that waits ({IDLE:g})"
    parser.add_argument("--idle", type=float, default=IDLE, help=text)


def lend(wanted):
    run(wanted.line, wanted.socket, wanted.speed, wanted.timeout, wanted.mode, wanted.group, wanted.idle)


def main():
    parser = tool.parser(__doc__)
    add_arguments(parser)
    wanted = parser.parse_args()
    return tool.run(lambda: lend(wanted), LineFailed)


if __name__ == "__main__":
    sys.exit(main())
