"""Where rows go: SQLite, PostgreSQL by `psql`, or InfluxDB's line protocol on standard output.

The first two keep the place of each relation in a table of their own, which changes in the same transaction as
the rows come in: either both are there or neither.
"""
import collections
import os
import pathlib
import sqlite3
import subprocess
import sys

from sorachest.shipping import BEGINNING, Place, Unfit
from sorachest.values import datetime_of

PLACES = "sorachest_shipped"
COLUMNS = ("by_key", "last_key", "seen", "digest", "shipped", "standing")
PLACES_TABLE = (
    f"CREATE TABLE IF NOT EXISTS {PLACES} (station TEXT NOT NULL, relation TEXT NOT NULL, by_key TEXT NOT NULL, "
    "last_key BIGINT, seen BIGINT NOT NULL, digest TEXT NOT NULL, shipped BIGINT NOT NULL, standing BIGINT NOT NULL, "
    "PRIMARY KEY (station, relation))"
)
OTHERS = "another call has shipped of it meanwhile"
# the last time that InfluxDB can have, in milliseconds
LAST_TIME = 2**63 // 10**6 - 1


def named(shipment):
    """The columns of a relation's table, quoted."""
    return ", ".join(f'"{it}"' for it in ("station", *(it.name for it in shipment.attributes)))


def table(shipment, types):
    """The command that makes a relation's table, if it is not there."""
    columns = "".join(f', "{it.name}" {types[it.kind]}' for it in shipment.attributes)
    return f'CREATE TABLE IF NOT EXISTS "{shipment.relation}" ("station" TEXT NOT NULL{columns})'


class Sqlite:
    """A file of SQLite. Times stay numbers."""

    TYPES = {"number": "INTEGER", "time": "INTEGER", "text": "TEXT"}
    keeps_places = True

    def __init__(self, path, is_plan):
        if is_plan:
            path = f"{pathlib.Path(path).absolute().as_uri()}?mode=ro" if os.path.exists(path) else ":memory:"
        self._base = sqlite3.connect(path, timeout=60, isolation_level=None, uri=is_plan)
        if not is_plan:
            # rows that are removed from a station must be on the disk here
            self._base.execute("PRAGMA synchronous = FULL")

    def place(self, shipment):
        """How far the relation was shipped."""
        if not self._base.execute("SELECT 1 FROM sqlite_master WHERE name = ?", (PLACES,)).fetchone():
            return BEGINNING
        which = f"SELECT {', '.join(COLUMNS)} FROM {PLACES} WHERE station = ? AND relation = ?"
        found = self._base.execute(which, (shipment.station, shipment.relation)).fetchone()
        return Place(*found) if found else BEGINNING

    def put(self, shipment, rows, old, new):
        """Stores rows and the place after them, if the old place is still there."""
        self._base.execute("BEGIN IMMEDIATE")
        try:
            self._move(shipment, old, new)
            if rows:
                self._base.execute(table(shipment, self.TYPES))
            marks = ", ".join("?" * (1 + len(shipment.attributes)))
            insert = f'INSERT INTO "{shipment.relation}" ({named(shipment)}) VALUES ({marks})'
            self._base.executemany(insert, ((shipment.station, *row) for row in rows))
            self._base.execute("COMMIT")
        except BaseException:
            if self._base.in_transaction:
                self._base.execute("ROLLBACK")
            raise

    def _move(self, shipment, old, new):
        key = (shipment.station, shipment.relation)
        self._base.execute(PLACES_TABLE)
        begin = f"INSERT OR IGNORE INTO {PLACES} VALUES (?, ?, ?, ?, ?, ?, ?, ?)"
        self._base.execute(begin, (*key, *BEGINNING))
        sets = ", ".join(f"{it} = ?" for it in COLUMNS)
        same = " AND ".join(f"{it} IS ?" for it in COLUMNS)
        move = f"UPDATE {PLACES} SET {sets} WHERE station = ? AND relation = ? AND {same}"
        if self._base.execute(move, (*new, *key, *old)).rowcount != 1:
            raise Unfit(OTHERS)

    def close(self):
        self._base.close()


def quoted(value):
    """A value in SQL."""
    if value is None:
        return "NULL"
    return str(value) if isinstance(value, int) else "'" + value.replace("'", "''") + "'"


def copied(value, kind="text"):
    """A value in the format of COPY."""
    if kind == "time":
        return datetime_of(value).isoformat(" ", "milliseconds")
    if isinstance(value, int):
        return str(value)
    for sign, written in (("\\", "\\\\"), ("\t", "\\t"), ("\n", "\\n"), ("\r", "\\r")):
        value = value.replace(sign, written)
    return value


# quotes are doubled and backslashes are not; a commit waits for the disk
SETTINGS = (
    "SET client_min_messages = warning;\nSET standard_conforming_strings = on;\nSET synchronous_commit = on;\n"
)


class Postgres:
    """A database of PostgreSQL, by way of psql. Times become timestamps with a time zone."""

    TYPES = {"number": "BIGINT", "time": "TIMESTAMPTZ", "text": "TEXT"}
    keeps_places = True

    def __init__(self, name):
        self._words = ["psql", "-X", "-w", "-q", "-A", "-t", "-v", "ON_ERROR_STOP=1", "-d", name]

    def place(self, shipment):
        if self._run(f"SELECT to_regclass('{PLACES}') IS NOT NULL;") != "t\n":
            return BEGINNING
        found = self._run(f"SELECT {', '.join(COLUMNS)} FROM {PLACES} WHERE {self._which(shipment)};")
        if not found:
            return BEGINNING
        by, key, seen, digest, shipped, standing = found.strip("\n").split("|")
        return Place(by, int(key) if key else None, int(seen), digest, int(shipped), int(standing))

    def put(self, shipment, rows, old, new):
        """Stores rows and the place after them, if the old place is still there.

        All is one script, which ends with COMMIT: if this process is killed, psql reads its front alone, and
        the server rolls back.
        """
        key = f"{quoted(shipment.station)}, {quoted(shipment.relation)}"
        beginning = ", ".join(map(quoted, BEGINNING))
        sets = ", ".join(f"{name} = {quoted(it)}" for name, it in zip(COLUMNS, new))
        same = " AND ".join(f"{name} IS NOT DISTINCT FROM {quoted(it)}" for name, it in zip(COLUMNS, old))
        move = f"UPDATE {PLACES} SET {sets} WHERE {self._which(shipment)} AND {same} RETURNING 1"
        script = [
            "BEGIN;\n",
            f"{PLACES_TABLE};\nINSERT INTO {PLACES} VALUES ({key}, {beginning}) ON CONFLICT DO NOTHING;\n",
            f"WITH moved AS ({move}) SELECT count(*) = 1 AS is_moved FROM moved \\gset\n",
            # rows are outside of branches: in one that is not taken psql would read them as commands
            "\\if :is_moved\n\\else\n\\q\n\\endif\n",
            *(self._copy(shipment, rows) if rows else ()),
            "COMMIT;\n\\echo shipped\n",
        ]
        if self._run("".join(script)) != "shipped\n":
            raise Unfit(OTHERS)

    def close(self):
        """Does nothing: each call of psql has ended."""

    def _copy(self, shipment, rows):
        yield f"{table(shipment, self.TYPES)};\n"
        yield f'COPY "{shipment.relation}" ({named(shipment)}) FROM STDIN;\n'
        kinds = [it.kind for it in shipment.attributes]
        for row in rows:
            yield "\t".join((copied(shipment.station), *map(copied, row, kinds))) + "\n"
        yield "\\.\n"

    def _which(self, shipment):
        return f"station = {quoted(shipment.station)} AND relation = {quoted(shipment.relation)}"

    def _run(self, script):
        environment = {**os.environ, "PGCLIENTENCODING": "UTF8"}
        pipes = {"stdout": subprocess.PIPE, "stderr": subprocess.PIPE, "env": environment}
        ended = subprocess.run(self._words, input=(SETTINGS + script).encode(), **pipes)
        if ended.returncode:
            raise Unfit(f"psql: {ended.stderr.decode(errors='replace').strip()}")
        return ended.stdout.decode()


class Influx:
    """Lines of InfluxDB's protocol on standard output: the tag is the station, the time that of the first TIME.

    Rows with one time are told apart by nanoseconds, since of two points with one time the last would stay. So
    the same rows are always the same points, and may be sent again.
    """

    keeps_places = False

    def __init__(self):
        self._rows_at = collections.Counter()

    def place(self, shipment):
        return BEGINNING

    def put(self, shipment, rows, _, __):
        kinds = [it.kind for it in shipment.attributes]
        if "time" not in kinds or len(kinds) < 2:
            raise Unfit("InfluxDB wants a TIME and another attribute, as in 'readings(at TIME, celsius)'")
        at = kinds.index("time")
        for row in rows:
            sys.stdout.write(self._point(shipment, row, at))
        sys.stdout.flush()

    def close(self):
        """Does nothing: everything written was flushed."""

    def _point(self, shipment, row, at):
        if row[at] > LAST_TIME:
            raise Unfit(f"InfluxDB cannot store the time {row[at]}")
        names = [it.name for it in shipment.attributes]
        fields = ",".join(f"{name}={field(it)}" for name, it in zip(names, row) if name != names[at])
        place = shipment.station, shipment.relation, row[at]
        nanoseconds = row[at] * 10**6 + self._rows_at[place]
        self._rows_at[place] += 1
        return f"{shipment.relation},station={tag(shipment.station)} {fields} {nanoseconds}\n"


def tag(text):
    """A tag's value, with a backslash before each character that would end it."""
    return "".join(f"\\{it}" if it in ",= \\" else it for it in text)


def field(value):
    if isinstance(value, int):
        return f"{value}i"
    return '"' + value.replace("\\", "\\\\").replace('"', '\\"') + '"'


def open_target(name, is_plan):
    """The target of this name."""
    if name == "influx:":
        return Influx()
    if name.startswith(("postgresql:", "postgres:")):
        is_uri = name.partition(":")[2].startswith("//")
        return Postgres(name if is_uri else name.partition(":")[2])
    if name in ("", ":memory:"):
        # rows in a temporary database would count as shipped although they are lost
        raise Unfit(f"{name!r} is not a file")
    return Sqlite(name, is_plan)
