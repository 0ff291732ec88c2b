"""A station's database for programs in Python, by PEP 249, over a line on which `serve` answers.

    import sorachest
    with sorachest.connect("/dev/ttyUSB0", speed=115200) as station:
        cursor = station.cursor()
        cursor.execute("SELECT minute, celsius FROM readings WHERE celsius > ?", (20,))
        for minute, celsius in cursor:
            print(minute, celsius)

A line is named in one of these ways:

    /dev/ttyUSB0                          a serial port, a pty or a Unix socket, by its path
    station.img                           an image: the program is started on it, and ends with the connection
    tcp:HOST:PORT                         a TCP socket
    run:./antelope serve station.img -    a command that is started; it ends with the connection

One line has one reader, since two readers would take each other's bytes. A port is locked, so that a second
program waits until the first is done. `sorachest-hub /dev/ttyUSB0 station` shares it among up to four programs,
which connect to "station".

A command takes effect when it is executed: there is nothing to commit, and nothing can be rolled back. Values
are whole numbers and texts, and None for an aggregate without a value. A date or a datetime is written as
milliseconds since 1970, UTC; the attributes in the argument `times` of `connect` come back as datetimes. The
types in a cursor's description are those of its first row, since a line sends no others.
"""
from sorachest.dbapi import Connection, Cursor, connect
from sorachest.errors import (
    REFUSALS, DatabaseError, DataError, Error, IntegrityError, InterfaceError, InternalError, NotSupportedError,
    OperationalError, ProgrammingError, Warning, refused,
)
from sorachest.values import (
    BINARY, DATETIME, MOST_TEXT, NUMBER, ROWID, STRING, Binary, Date, DateFromTicks, Time, TimeFromTicks, Timestamp,
    TimestampFromTicks, bind, columns, datetime_of, literal, milliseconds, row_of, row_text,
)

__version__ = "0.5.0"

apilevel = "2.0"
threadsafety = 1
paramstyle = "qmark"
