"""Connections and cursors of PEP 249 over a line."""
import collections
import re

from sorachest.errors import (
    DatabaseError, DataError, Error, IntegrityError, InterfaceError, InternalError, NotSupportedError, OperationalError,
    ProgrammingError, Warning, refused,
)
from sorachest.line import CLIENTS, MOST_COMMAND, Line
from sorachest.values import DATETIME, NUMBER, TYPES, bind, columns, datetime_of, row_of
from sorachest.ways import TIMEOUT, LineFailed

# a program is restarted when it takes only this many bytes more: while no answer is open, and while one is
MANY, FEW = 8 << 20, 1 << 20


def is_time(name, times):
    """Whether a name in a query's list is one of these attributes, or an aggregate of one that is a time as well."""
    found = re.fullmatch(r"(?:(?:MIN|MAX|MEAN|MEDIAN)\((\w+)\))|(\w+)", name, re.IGNORECASE)
    return bool(found) and (found[1] or found[2]) in times


def value_of(value, is_time):
    return datetime_of(value) if is_time and isinstance(value, int) else value


def connect(line, *, client=1, speed=None, timeout=TIMEOUT, whole=False, times=()):
    """A connection over a line.

    `client` is its number, 1 to 4, `speed` the bits a second of a port (its current setting by default), and
    `timeout` how many seconds to wait for a reply. Rows are fetched one by one as they are needed. With
    `whole` an answer comes in one reply, which is faster, but other clients wait for all of it. Values of
    the attributes in `times` are milliseconds since 1970, and are returned as datetimes of UTC.
    """
    if client not in CLIENTS:
        raise InterfaceError(f"a client's number is 1 to 4, and not {client}")
    try:
        opened = Line(line, speed, timeout)
    except LineFailed as error:
        raise OperationalError(str(error)) from error
    try:
        return Connection(opened, client, whole, times)
    except BaseException:
        opened.close()
        raise


class Connection:
    """A client of a station. It has one cursor there, which one `Cursor` at a time reads."""

    Warning, Error, InterfaceError, DatabaseError = Warning, Error, InterfaceError, DatabaseError
    DataError, OperationalError, IntegrityError = DataError, OperationalError, IntegrityError
    InternalError, ProgrammingError, NotSupportedError = InternalError, ProgrammingError, NotSupportedError

    def __init__(self, line, client, whole, times=()):
        self._line = line
        self._client = client
        self._whole = whole
        self._times = frozenset((times,) if isinstance(times, str) else times)
        self._has_changed = False
        self._reader = None
        self._is_making_room = False
        # a client that was killed may have left it open
        self._is_open = True
        self._close_answer()

    def __enter__(self):
        return self

    def __exit__(self, *_):
        self.close()

    def cursor(self):
        self._here()
        return Cursor(self)

    def commit(self):
        """Does nothing: what was executed stays."""
        self._here()
        self._has_changed = False

    def rollback(self):
        """Does nothing if no command has changed anything; otherwise raises an error, since nothing can be rolled back."""
        self._here()
        if self._has_changed:
            raise NotSupportedError("what was executed stays")

    def close(self):
        """Closes the line. If the station's cursor cannot be closed now, the next client closes it."""
        if self._line is None:
            return
        try:
            if self._line.in_step:
                self._close_answer()
        except DatabaseError:
            pass
        finally:
            self._line.close()
            self._line = None

    def _here(self):
        if self._line is None:
            raise InterfaceError("the connection is closed")
        return self._line

    def _reply(self, command):
        """The lines of the reply to a command, also of a refusal."""
        line = self._here()
        self._make_room(line)
        try:
            text = line.ask(self._client, command.encode("ascii"))
        except UnicodeEncodeError:
            raise ProgrammingError(f"{command}: AQL is ASCII") from None
        except LineFailed as error:
            raise OperationalError(f"{command}: {error}") from error
        *rows, last = text.splitlines() or [""]
        is_alone = not rows and re.fullmatch("ok|rows [0-9]{1,10}|no [a-z]+.*", last)
        if not text.endswith("\n") or not is_alone and last != f"rows {len(rows)}":
            line.in_step = False
            raise OperationalError(f"{command}: {text!r:.100} came, which is not a reply")
        return [*rows, last]

    def _make_room(self, line):
        """Restarts a program before it reaches its input limit. This closes its cursors.

        An answer that is being read is waited for as long as it may take, and then fetched to its end.
        """
        room = line.room()
        if self._is_making_room or room is None or room > (FEW if self._reader else MANY):
            return
        self._is_making_room = True
        try:
            if self._reader:
                self._reader._keep_rest()
            line.start_anew()
            self._is_open = False
        except LineFailed as error:
            raise OperationalError(str(error)) from error
        finally:
            self._is_making_room = False

    def _ask(self, command):
        reply = self._reply(command)
        if reply[-1].startswith("no "):
            raise refused(command, reply[-1])
        return reply

    def _change(self, command):
        """The last line of the reply to a command that is not a query."""
        had_changed, self._has_changed = self._has_changed, True
        reply = self._reply(command)[-1]
        if reply.startswith("no "):
            # a refused command changes nothing
            self._has_changed = had_changed
            raise refused(command, reply)
        return reply

    def _let_go(self, cursor):
        """Frees the station's cursor. The `Cursor` that reads it fetches the rest of its rows first."""
        if self._reader not in (None, cursor):
            self._reader._keep_rest()
        self._close_answer()

    def _open_answer(self, cursor, query):
        """Opens the station's cursor with a query, and returns the first row in a list."""
        self._is_open = True
        self._ask(f"OPEN 1 {query}")
        rows = self._next_rows()
        self._reader = cursor if rows else None
        return rows

    def _next_rows(self):
        """The next row in a list, which is empty after the last one."""
        *rows, _ = self._ask("FETCH 1")
        if not rows:
            self._close_answer()
        return [row_of(it) for it in rows]

    def _close_answer(self):
        self._reader = None
        if self._is_open:
            reply = self._reply("CLOSE 1")
            if reply not in (["ok"], ["no cursor"]):
                raise refused("CLOSE 1", reply[-1])
            self._is_open = False


class Cursor:
    """Executes commands, and holds the rows of the last one."""

    def __init__(self, connection):
        self.connection = connection
        self.arraysize = 1
        self.description = None
        self.rowcount = -1
        self._rows = collections.deque()
        self._are_times = []
        self._is_closed = False

    def __enter__(self):
        return self

    def __exit__(self, *_):
        self.close()

    def __iter__(self):
        return self

    def __next__(self):
        row = self.fetchone()
        if row is None:
            raise StopIteration
        return row

    def execute(self, operation, parameters=()):
        """Carries out a command with values in place of its `?`, and returns this cursor."""
        connection = self._here()
        command = bind(operation, parameters)
        word = re.match(r"\w*", command)[0].upper()
        if word in ("OPEN", "FETCH", "CLOSE"):
            raise ProgrammingError(f"{command}: cursors do that themselves")
        self._forget()
        names, are_aggregates = columns(command)
        self._are_times = [is_time(it, connection._times) for it in names]
        if not names:
            self._change(connection, word, command)
            return self
        connection._let_go(self)
        if connection._whole or are_aggregates or len(f"OPEN 1 {command}") > MOST_COMMAND:
            *rows, _ = connection._ask(command)
            self._take(row_of(it) for it in rows)
            self.rowcount = len(rows)
        else:
            self._take(connection._open_answer(self, command))
        self._describe(names, are_aggregates)
        return self

    def executemany(self, operation, seq_of_parameters):
        """Carries out a command that is not a query, once for each sequence of values."""
        if columns(operation.strip())[0]:
            raise ProgrammingError(f"{operation}: a query has one answer")
        total = 0
        for parameters in seq_of_parameters:
            self.execute(operation, parameters)
            total += max(0, self.rowcount)
        self.rowcount = total

    def fetchone(self):
        """The next row; None after the last one."""
        self._fill(1)
        return self._rows.popleft() if self._rows else None

    def fetchmany(self, size=None):
        size = self.arraysize if size is None else size
        self._fill(size)
        return [self._rows.popleft() for _ in range(min(size, len(self._rows)))]

    def fetchall(self):
        self._fill(None)
        rows = list(self._rows)
        self._rows.clear()
        return rows

    def close(self):
        """Closes this cursor, and frees the station's."""
        if not self._is_closed and self.connection._line is not None:
            self._forget()
        self._is_closed = True

    def setinputsizes(self, sizes):
        """Does nothing: values have their own sizes."""

    def setoutputsize(self, size, column=None):
        """Does nothing: no value is cut off."""

    def _here(self):
        if self._is_closed:
            raise InterfaceError("the cursor is closed")
        self.connection._here()
        return self.connection

    def _forget(self):
        """Drops the current answer."""
        self.description = None
        self.rowcount = -1
        self._rows.clear()
        if self.connection._reader is self:
            self.connection._close_answer()

    def _change(self, connection, word, command):
        # only commands that remove something are refused while a cursor is open
        if word in ("REMOVE", "PACK"):
            connection._let_go(self)
        last = connection._change(command)
        if word == "INSERT":
            self.rowcount = 1
        elif last != "ok":
            self.rowcount = int(last.removeprefix("rows "))

    def _take(self, rows):
        """Takes rows as they arrived, with datetimes for the values that are times."""
        if any(self._are_times):
            rows = (tuple(map(value_of, row, self._are_times)) for row in rows)
        self._rows.extend(rows)

    def _describe(self, names, are_aggregates):
        first = self._rows[0] if self._rows else [None] * len(names)
        types = [NUMBER if are_aggregates else TYPES.get(type(it)) for it in first]
        types = [DATETIME if is_time else it for it, is_time in zip(types, self._are_times)]
        self.description = [(name, kind, None, None, None, None, None) for name, kind in zip(names, types)]

    def _fill(self, count):
        """Fetches rows until this many are here, or all if there are fewer."""
        connection = self._here()
        if self.description is None:
            raise InterfaceError("there is no answer to fetch from")
        while connection._reader is self and (count is None or len(self._rows) < count):
            try:
                self._take(connection._next_rows())
            except DatabaseError:
                # the row whose reply did not arrive would be missing among the later rows
                self._rows.clear()
                self.description = connection._reader = None
                raise

    def _keep_rest(self):
        self._fill(None)
