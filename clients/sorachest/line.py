"""A line on which `serve` answers frames: how a command gets its reply.

A frame is a byte with the client's number, 1 to 4, a command and the byte END, with escapes after SLIP (RFC
1055). Its reply is the same byte, a text and END. A reply to client 0 says that a frame came broken. How a
line is named is written in `sorachest.ways`.
"""
import contextlib
import os
import random
import re
import select
import termios
import time

from sorachest.ways import TIMEOUT, LineClosed, LineFailed, open_way

CLIENTS = range(1, 5)
MOST_COMMAND = 512
END = b"\xc0"
ESC = b"\xdb"
ESCAPED_END = ESC + b"\xdc"
ESCAPED_ESC = ESC + b"\xdd"

MOST_BYTES = 1 << 26
MOST_BLANKS = 250
ATTEMPTS = 3
NO_COMMAND = ("no syntax ", "no long\n")
# the input limit of a run of `serve`, and more than a command and the frames that resynchronize take
MOST_INPUT = 16_777_216
MOST_EXCHANGE = 8192


# Frames


def encode(payload):
    """The bytes of a frame."""
    return payload.replace(ESC, ESCAPED_ESC).replace(END, ESCAPED_END) + END


def decode(part):
    """The payload of a frame without its END; None if an escape is broken."""
    if re.search(rb"\xdb(?![\xdc\xdd])", part):
        return None
    return part.replace(ESCAPED_END, END).replace(ESCAPED_ESC, ESC)


class Patience:
    """How long to wait, and how many bytes may arrive meanwhile."""

    def __init__(self, seconds):
        self._deadline = time.monotonic() + seconds
        self._bytes = MOST_BYTES

    def left(self):
        return max(0.0, self._deadline - time.monotonic())

    def take(self, count):
        self._bytes -= count
        if self._bytes < 0:
            raise LineFailed("too many bytes came that were not a reply")


class Line:
    """A line whose replies only this process reads."""

    def __init__(self, where, speed=None, timeout=TIMEOUT):
        where = os.fspath(where)
        try:
            self._way = open_way(where, speed, timeout)
        except (OSError, ValueError, termios.error, LineFailed) as error:
            raise LineFailed(f"{where}: {error}") from error
        self._timeout = timeout
        self._pending = bytearray()
        # whether the next reply answers the next frame
        self.in_step = False
        self._sent = 0

    def fileno(self):
        return self._way.source

    def close(self):
        self._way.close()

    def room(self):
        """How many bytes the program at the other end still accepts; None if it was not started here."""
        return MOST_INPUT - self._sent if self._way.can_start_anew else None

    def start_anew(self):
        """Ends the program at the other end and starts it again, which closes all cursors."""
        try:
            self._way = self._way.start_anew()
        except OSError as error:
            raise LineClosed(f"it could not be started again: {error}") from error
        self._pending.clear()
        self._sent = 0
        self.in_step = False

    def ask(self, client, command):
        """The text of the reply to a client's command; replies to other clients are skipped."""
        frame = encode(bytes([client]) + command)
        room = self.room()
        if room is not None and room < MOST_EXCHANGE + ATTEMPTS * len(frame):
            self.start_anew()
        for attempt in range(ATTEMPTS):
            # an unexpected reply answers noise
            if not self.in_step or self._pending or self._has_come():
                self.settle(client)
            self.in_step = False
            patience = Patience(self._timeout)
            self._send(frame, patience)
            number, reply = self._receive(patience)
            if number != client or not attempt and reply.startswith(NO_COMMAND):
                # this answers another client, or noise, or a command that noise has changed and that was then
                # not carried out
                said = self.settle(client)
                if not said:
                    continue
                reply = said[0]
            self.in_step = True
            return reply
        raise LineFailed("no frame arrives through the noise")

    def settle(self, client):
        """Resynchronizes both ends, and returns what the client received meanwhile.

        A broken escape ends what noise, or a client that was killed, has begun, so that it is not carried
        out. Behind it goes a command that is none, with so many blanks that its refusal is known when it
        comes: what comes before is old.
        """
        self.in_step = False
        blanks = random.randrange(1, MOST_BLANKS)
        patience = Patience(self._timeout)
        self._send(ESC + END + encode(bytes([client]) + b" " * blanks + b"SELECT"), patience)
        said = []
        while True:
            number, text = self._receive(patience)
            if number == client and text == f"no syntax {blanks + len('SELECT')}\n":
                self.in_step = True
                return said
            if number == client:
                said.append(text)

    def drop(self):
        """Drops what has arrived without a question, which is not a reply."""
        self._read()
        self._pending.clear()
        self.in_step = False

    def _send(self, frame, patience):
        while frame:
            self._wait([], [self._way.sink], patience)
            try:
                count = os.write(self._way.sink, frame)
                self._sent += count
                frame = frame[count:]
            except BlockingIOError:
                continue
            except OSError as error:
                raise self._ended() from error

    def _receive(self, patience):
        """The next reply: the number of its client, and its text."""
        seen = 0
        while True:
            at = self._pending.find(END, seen)
            if at < 0:
                seen = len(self._pending)
                self._wait([self._way.source], [], patience)
                patience.take(self._read())
                continue
            part = bytes(self._pending[:at])
            del self._pending[:at + 1]
            seen = 0
            if part:
                return part[0], part[1:].decode("latin-1")

    def _wait(self, sources, sinks, patience):
        left = patience.left()
        # from a line that never falls silent there is always something to read
        if not left or not any(select.select(sources, sinks, [], left)):
            raise LineFailed("no reply came in time")

    def _has_come(self):
        return bool(select.select([self._way.source], [], [], 0)[0])

    def _read(self):
        """Receives bytes, and returns how many; 0 if another reader was faster."""
        try:
            came = os.read(self._way.source, 65536)
        except BlockingIOError:
            return 0
        except OSError as error:
            raise self._ended() from error
        if not came:
            raise self._ended()
        self._pending += came
        return len(came)

    def _ended(self):
        with contextlib.suppress(OSError):
            self._pending += os.read(self._way.source, 4096)
        said = bytes(self._pending).decode("latin-1").strip()
        ending = self._way.ending()
        return LineClosed(f"the line was closed{' after ' if said else ''}{said}{': ' if ending else ''}{ending}")
