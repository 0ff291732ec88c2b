"""Tests of the database interface, call by call, and of values and refusals."""
import datetime
import enum
import os
import time

import antelope
from client_tests.common import ROWS, SENSORS, connect, on_a_pty, read, refuses, same, station


# The module, as PEP 249 has it


def test_the_module_says_what_it_is():
    same((antelope.apilevel, antelope.threadsafety, antelope.paramstyle), ("2.0", 1, "qmark"), "the globals")
    kinds = ("Data", "Operational", "Integrity", "Internal", "Programming")
    for name in (*(f"{it}Error" for it in kinds), "NotSupportedError"):
        kind = getattr(antelope, name)
        same(kind.__bases__, (antelope.DatabaseError,), f"what {name} is")
        same(getattr(antelope.Connection, name), kind, f"{name} of a connection")
    same(antelope.DatabaseError.__bases__ + antelope.InterfaceError.__bases__, (antelope.Error,) * 2, "errors")
    same(antelope.Error.__bases__ + antelope.Warning.__bases__, (Exception,) * 2, "exceptions")
    for make in (antelope.Time, antelope.TimeFromTicks, antelope.Binary):
        refuses(antelope.NotSupportedError, make, 1)
    same(antelope.TimestampFromTicks(86400.25).isoformat(), "1970-01-02T00:00:00.250000+00:00", "a time by its ticks")
    same(antelope.DateFromTicks(86400).isoformat(), "1970-01-02", "a day by its ticks")


def test_rows_are_fetched_in_each_way():
    for whole in (False, True):
        with connect(whole=whole) as line:
            cursor = line.cursor()
            query = "SELECT k, t FROM s"
            same(cursor.execute(query).fetchall(), ROWS, "fetchall")
            same((cursor.fetchall(), cursor.fetchmany(2), cursor.fetchone()), ([], [], None), "after the last")
            same([*cursor.execute(query)], ROWS, "the iteration")
            cursor.execute(query)
            same([cursor.fetchone() for _ in range(4)], [*ROWS, None], "fetchone")
            cursor.execute(query)
            same([cursor.fetchmany(), cursor.fetchmany(5)], [ROWS[:1], ROWS[1:]], "fetchmany")
            cursor.execute(query)
            cursor.arraysize = 2
            same([cursor.fetchmany(), cursor.fetchmany()], [ROWS[:2], ROWS[2:]], "fetchmany by arraysize")
            same(cursor.execute("SELECT k FROM s WHERE k > 7").fetchall(), [], "no rows")


def test_columns_are_described():
    number, text = antelope.NUMBER, antelope.STRING
    for query, names, types in (
        ("SELECT k, t FROM s", ["k", "t"], [number, text]),
        ("select\tt\n,k from s where t = ' FROM '", ["t", "k"], [None, None]),
        ("SELECT t, t FROM s;", ["t", "t"], [text, text]),
        ("SELECT COUNT ( k ),MIN(k) FROM s WHERE k > 100", ["COUNT(k)", "MIN(k)"], [number, number]),
        ("JOIN s, s ON k PROJECT t , k", ["t", "k"], [text, number]),
    ):
        with connect() as line:
            description = line.cursor().execute(query).description
            same([it[0] for it in description], names, f"names of {query}")
            same([it[1] for it in description], types, f"types of {query}")
            same([it[2:] for it in description], [(None,) * 5] * len(names), "the rest")


def test_rows_are_counted():
    with connect() as line:
        cursor = line.cursor()
        same((cursor.rowcount, cursor.description), (-1, None), "before the first command")
        for command, count in (
            ("SELECT k FROM s", -1),
            ("SELECT MAX(k) FROM s", 1),
            ("INSERT (8, '') INTO s", 1),
            ("REMOVE FROM s WHERE k > 5", 2),
            ("PACK s", -1),
            ("CREATE RELATION u", -1),
        ):
            same(cursor.execute(command).rowcount, count, command)
        same(cursor.description, None, "the description of no query")
        cursor.executemany("INSERT (?, ?) INTO s", [(1, "x"), (2, "y"), (3, "")])
        same(cursor.rowcount, 3, "the count of many")
        same(cursor.execute("SELECT k FROM s WHERE k < 4 AND k > 0").fetchall(), [(1,), (2,), (3,)], "the rows")
    with connect(whole=True) as line:
        same(line.cursor().execute("SELECT k FROM s WHERE k > 0").rowcount, 2, "rows of a whole answer")


def test_an_aggregate_without_a_value_is_none():
    with connect() as line:
        rows = line.cursor().execute("SELECT MIN(k), COUNT(k), MEAN(k) FROM s WHERE k = 100").fetchall()
        same(rows, [(None, 0, None)], "the row")


def test_two_cursors_read_at_once():
    with connect() as line:
        one, other = line.cursor(), line.cursor()
        one.execute("SELECT k FROM s")
        same(one.fetchone(), (5,), "the first row")
        other.execute("SELECT t FROM s")
        same(one.fetchone(), (-1,), "the second row")
        line.cursor().execute("INSERT (8, '') INTO s")
        same(other.fetchall(), [(it,) for _, it in ROWS], "the other's rows")
        same(one.fetchall(), [(7,)], "the last rows")


def test_an_answer_is_not_in_the_way_of_its_own_connection():
    for command in ("REMOVE FROM s", "PACK s", "REMOVE RELATION s"):
        with connect() as line:
            reading = line.cursor().execute("SELECT k, t FROM s")
            line.cursor().execute(command)
            same(reading.fetchall(), ROWS, f"the rows as they were before {command}")
            reading.execute("CREATE RELATION u")


def test_what_is_closed_is_not_used():
    line = connect()
    cursor = line.cursor()
    refuses(antelope.InterfaceError, cursor.fetchone)
    cursor.execute("PACK s")
    refuses(antelope.InterfaceError, cursor.fetchall)
    cursor.execute("SELECT k FROM s")
    cursor.close()
    cursor.close()
    refuses(antelope.InterfaceError, cursor.fetchone)
    refuses(antelope.InterfaceError, cursor.execute, "PACK s")
    line.cursor().execute("REMOVE RELATION s")
    line.close()
    line.close()
    for call in (line.cursor, line.commit, line.rollback):
        refuses(antelope.InterfaceError, call)
    with connect() as line:
        cursor = line.cursor()
    refuses(antelope.InterfaceError, cursor.execute, "PACK s")


def test_there_is_no_way_back():
    with connect() as line:
        cursor = line.cursor()
        cursor.execute("SELECT k FROM s")
        line.rollback()
        refuses(antelope.DataError, cursor.execute, "INSERT (1) INTO s")
        line.rollback()
        cursor.execute("INSERT (1, '') INTO s")
        refuses(antelope.NotSupportedError, line.rollback)
        line.commit()
        line.rollback()


def test_sizes_are_taken_and_do_nothing():
    with connect() as line:
        cursor = line.cursor()
        cursor.setinputsizes([1])
        cursor.setoutputsize(1)
        cursor.setoutputsize(1, 0)
        same(cursor.execute("SELECT t FROM s").fetchone(), ("abc",), "a row")


def test_a_query_that_fills_a_command_is_answered():
    query = "SELECT k" + " " * 486 + "FROM s WHERE k > 0"
    same(len(query), 512, "the length")
    with connect() as line:
        cursor = line.cursor()
        same(cursor.execute(query).fetchall(), [(5,), (7,)], "rows")
        refuses(antelope.ProgrammingError, cursor.execute, f"{query}0", says="no long")
        same(cursor.execute("SELECT k\nFROM s\r\nWHERE\tk > 0").fetchall(), [(5,), (7,)], "rows of a query in lines")


def test_a_frame_of_rows_is_read_as_pandas_does():
    with connect() as line:
        cursor = line.cursor()
        cursor.execute("SELECT k, t FROM s WHERE k > ?", (0,))
        names = [it[0] for it in cursor.description]
        rows = cursor.fetchall()
        cursor.close()
        same((names, rows), (["k", "t"], [ROWS[0], ROWS[2]]), "the frame")
        cursor = line.cursor()
        cursor.execute("SELECT k, t FROM s")
        same([cursor.fetchmany(2) for _ in range(3)], [ROWS[:2], ROWS[2:], []], "the frame in pieces")
        cursor.close()
        refuses(antelope.ProgrammingError, line.cursor().execute, "SELECT x FROM s")
        line.rollback()


# Parameters and refusals


class Five:
    def __index__(self):
        return 5


def test_parameters_are_written_as_values():
    with connect() as line:
        cursor = line.cursor()
        for query, values, rows in (
            ("SELECT k FROM s WHERE k = ?", (5,), [(5,)]),
            ("SELECT k FROM s WHERE k=? OR k=?;", [-1, Five()], [(5,), (-1,)]),
            ("SELECT k FROM s WHERE k = ?", iter([7]), [(7,)]),
            ("SELECT k FROM s WHERE k = 7", None, [(7,)]),
            ("SELECT k FROM s WHERE k - ? = 6", (-1,), [(5,)]),
            ("SELECT k FROM s WHERE t = ?", ("it?,-",), [(7,)]),
            ("SELECT k FROM s WHERE t = 'it?,-' AND k = ?", (7,), [(7,)]),
            ("SELECT k FROM s WHERE t = ?", ("",), [(-1,)]),
            ("SELECT k FROM s WHERE k < ?", (10**18 - 1,), [(5,), (-1,), (7,)]),
            ("SELECT k FROM s WHERE t <> ? AND k = 5", ("~ !\"#$%&()*+,-./:;<=>?@[\\]^_`{|}",), [(5,)]),
        ):
            same(cursor.execute(query, values).fetchall(), rows, query)
        text = "a;b c"
        cursor.execute("INSERT (?, ?) INTO s", (-(2**31), text))
        same(cursor.execute("SELECT k FROM s WHERE t = ?", (text,)).fetchall(), [(-(2**31),)], "what was inserted")


class Color(str, enum.Enum):
    RED = "red"


class Level(enum.IntEnum):
    HIGH = 7


def test_members_of_enumerations_are_written_as_their_values():
    with connect() as line:
        cursor = line.cursor()
        cursor.execute("INSERT (?, ?) INTO s", (Level.HIGH, Color.RED))
        same(cursor.execute("SELECT k, t FROM s WHERE t = ?", ("red",)).fetchall(), [(7, "red")], "what was inserted")


TIMES = "CREATE RELATION n; CREATE ATTRIBUTE at DOMAIN TIME IN n; CREATE ATTRIBUTE v DOMAIN INT IN n;"


def test_times_come_and_go_as_datetimes():
    utc = datetime.timezone.utc
    zone = datetime.timezone(datetime.timedelta(hours=2))
    noon = datetime.datetime(2026, 1, 1, 12, tzinfo=utc)
    rows = ((datetime.datetime(2026, 1, 1, 12), 1), (datetime.datetime(2026, 1, 1, 14, tzinfo=zone), 2))
    with connect(TIMES, times=["at"]) as line:
        cursor = line.cursor()
        cursor.executemany("INSERT (?, ?) INTO n", (*rows, (antelope.Date(2026, 1, 2), 3)))
        cursor.execute("SELECT v, at FROM n WHERE at = ?", (antelope.Timestamp(2026, 1, 1, 12, 0, 0, 999),))
        same([it[1] for it in cursor.description], [antelope.NUMBER, antelope.DATETIME], "the types")
        same(cursor.fetchall(), [(1, noon), (2, noon)], "the rows")
        cursor.execute("SELECT MAX(at), COUNT(at), MIN(v) FROM n")
        same(cursor.fetchall(), [(datetime.datetime(2026, 1, 2, tzinfo=utc), 3, 1)], "aggregates")
        same(cursor.execute("SELECT MAX(at) FROM n WHERE v > 9").fetchall(), [(None,)], "no value")
    with antelope.connect("image") as line:
        # 2026-01-01 12:00 is 20,454.5 days after the beginning of 1970
        same(line.cursor().execute("SELECT at FROM n").fetchone(), (20454 * 86400000 + 43200000,), "the number")
    same(antelope.milliseconds(noon), 1767268800000, "milliseconds")
    same(antelope.datetime_of(1767268800001) - noon, datetime.timedelta(milliseconds=1), "and back")


def test_numbers_without_end_are_errors_of_the_interface():
    refuses(antelope.DataError, lambda: antelope.literal(10**5000))
    refuses(antelope.DataError, antelope.literal, float("inf"))
    refuses(antelope.OperationalError, antelope.row_of, "1" * 5000)
    same(antelope.row_of("-9223372036854775808"), (-(2**63),), "the least sum")


def test_parameters_that_aql_cannot_write_are_refused():
    with connect() as line:
        cursor = line.cursor()
        texts = ("it's", "K\u00fcche", "\n", "\x7f", "a" * 33)
        for value in (*texts, 10**18, -(10**18), 1.5, 2.0, None, True, b"a", [1], ()):
            refuses(antelope.DataError, cursor.execute, "SELECT k FROM s WHERE k = ?", (value,))
        query = "SELECT k FROM s WHERE k = ?"
        for values in ((), (1, 2), None):
            refuses(antelope.ProgrammingError, cursor.execute, query, values, says="1 places for")
        for values in ("1", b"1", {"k": 1}, 1):
            refuses(antelope.ProgrammingError, cursor.execute, query, values, says="a sequence of values")
        refuses(antelope.ProgrammingError, cursor.execute, "SELECT k FROM s WHERE k = ??", (1, 2))
        refuses(antelope.ProgrammingError, cursor.execute, "SELECT k FROM s WHERE k = 1?", (1,))
        refuses(antelope.ProgrammingError, cursor.execute, "SELECT k FROM s WHERE t = '?'", ("a",))
        refuses(antelope.ProgrammingError, cursor.execute, "SELECT k FROM s WHERE t = 'K\u00fcche'")
        refuses(antelope.ProgrammingError, cursor.executemany, query, [(1,)])
        for command in ("OPEN 1 SELECT k FROM s", "fetch 1", "CLOSE 1"):
            refuses(antelope.ProgrammingError, cursor.execute, command)
        same(cursor.execute("SELECT COUNT(k) FROM s").fetchall(), [(3,)], "the rows")


def test_each_refusal_has_its_exception():
    made = SENSORS + (
        "CREATE RELATION e; CREATE RELATION o; CREATE ATTRIBUTE k DOMAIN INT IN o; CREATE INDEX o.k TYPE INLINE;"
        "INSERT (3) INTO o;" + "".join(f"CREATE RELATION r{it};" for it in range(5))
    )
    with connect(made) as line:
        for command, kind, reply in (
            ("SELECT", antelope.ProgrammingError, "no syntax 6"),
            ("", antelope.ProgrammingError, "no syntax 0"),
            ("SELECT k FROM s" + " " * 600 + "WHERE k = 1", antelope.ProgrammingError, "no long"),
            ("PACK u", antelope.ProgrammingError, "no relation"),
            ("SELECT x FROM s", antelope.ProgrammingError, "no attribute 1"),
            ("CREATE RELATION s", antelope.ProgrammingError, "no exists"),
            ("CREATE ATTRIBUTE z DOMAIN STRING(33) IN e", antelope.ProgrammingError, "no domain"),
            ("SELECT SUM(t) FROM s", antelope.ProgrammingError, "no type 1"),
            ("REMOVE INDEX s.k", antelope.ProgrammingError, "no index"),
            ("CREATE ATTRIBUTE z DOMAIN INT IN s", antelope.IntegrityError, "no empty"),
            ("INSERT (2) INTO o", antelope.IntegrityError, "no ordered 3"),
            ("PACK o", antelope.IntegrityError, "no indexed"),
            ("INSERT (1, 'abcdef') INTO s", antelope.DataError, "no value 2"),
            ("CREATE RELATION u", antelope.OperationalError, "no full relations 8"),
        ):
            refuses(kind, line.cursor().execute, command, says=reply)


def test_a_cursor_of_another_is_in_the_way():
    with on_a_pty() as path:
        port = os.open(path, os.O_RDWR | os.O_NOCTTY)
        os.write(port, b"\2OPEN 1 SELECT k FROM s\xc0")
        os.close(port)
        with antelope.connect(path) as line:
            refuses(antelope.OperationalError, line.cursor().execute, "REMOVE FROM s", says="no inuse 2")
        with antelope.connect(path, client=2) as line:
            same(line.cursor().execute("REMOVE FROM s").rowcount, 3, "rows that were removed")


def test_an_answer_that_another_has_closed_is_told():
    with on_a_pty() as path, antelope.connect(path) as line:
        cursor = line.cursor().execute("SELECT k FROM s")
        port = os.open(path, os.O_RDWR | os.O_NOCTTY)
        os.write(port, b"\1CLOSE 1\xc0")
        os.close(port)
        time.sleep(0.05)
        refuses(antelope.OperationalError, cursor.fetchall, says="no cursor")
        same(cursor.execute("SELECT k, t FROM s").fetchall(), ROWS, "the next answer")


def test_a_flash_without_room_is_told():
    with antelope.connect(station("CREATE RELATION n; CREATE ATTRIBUTE v DOMAIN LONG IN n;", sectors=4)) as line:
        cursor = line.cursor()
        values = ((it,) for it in range(900))
        refuses(antelope.OperationalError, cursor.executemany, "INSERT (?) INTO n", values, says="no space 32")
        # the program ends there
        refuses(antelope.OperationalError, cursor.execute, "SELECT v FROM n", says="closed")


def test_an_image_that_is_not_sound_is_told():
    where = station()
    image = bytearray(read("image"))
    image[9] = 1
    with open("image", "wb") as file:
        file.write(image)
    refuses(antelope.OperationalError, antelope.connect, where, says="no image 1 0")
