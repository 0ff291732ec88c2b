#!/usr/bin/env python3
"""Copies new rows from stations into a large database, each row once.

    sorachest-ship station.img --into readings.db
    sorachest-ship north=/dev/ttyUSB0 south=tcp:10.0.0.7:4000 --into postgresql://me@host/readings \\
        --relation 'readings(at TIME, celsius, sky)' --key readings.at
    sorachest-ship north=/dev/ttyUSB0 --relation 'readings(at TIME, celsius)' --into influx: >points

A station is a line, with a name and `=` before it if the station is to have another name. Each relation becomes
a table of the same name with a column for the station; times become timestamps in PostgreSQL, and stay
milliseconds in SQLite. The relations of an image are read from it. For other lines name them with --relation,
with TIME after the attributes that are times.

The target records how far each relation was shipped, in the same transaction as the rows. So a call that was
interrupted can simply be repeated. With --key only the rows from the last key on are read. The key must never
fall, as an INLINE index enforces; the key of an image is found without --key. Without a key all rows are read,
and the ones already shipped are skipped, which works as long as none of them is removed.

--remove rows removes the rows below the last key from the station once they are in the target; PACK then frees
their space. --remove relation removes a relation whose rows are all in the target: name only relations into
which the station no longer writes.

InfluxDB's lines cannot record how far a relation was shipped: --since names the key to begin with.
"""
import argparse
import contextlib
import os
import re
import sqlite3
import sys

from sorachest import reader, tool
from sorachest.dbapi import connect
from sorachest.errors import Error, ProgrammingError
from sorachest.shipping import (
    BEGINNING, Attribute, Reading, Shipment, Unfit, asked_kind, count, kind_of, look_below, parsed, remove_relation,
    remove_rows,
)
from sorachest.targets import open_target
from sorachest.ways import TIMEOUT, LineFailed, kind_of as kind_of_line

# rows of one transaction
BATCH = 1000


class Progress:
    """The progress of a relation, as a line on standard error if that is a terminal."""

    def __init__(self, shipment, total):
        self._what = f"{shipment.station} {shipment.relation}"
        self._total = total
        self._is_seen = sys.stderr.isatty()

    def tell(self, done):
        if self._is_seen:
            print(f"\r{self._what}: {done:,} of {self._total:,} rows", end="", file=sys.stderr, flush=True)

    def end(self):
        if self._is_seen:
            print("\r\x1b[K", end="", file=sys.stderr, flush=True)


# What is to be shipped


def station_of(text):
    """The name of a station and its line: NAME=LINE, or a line, whose name is then that of the station."""
    found = re.fullmatch(r"([\w.-]+)=(.+)", text, re.DOTALL)
    name, where = found.groups() if found else (text, text)
    if not found and not where.startswith(("run:", "tcp:")):
        # under two names for one line everything would be shipped twice
        name = os.path.abspath(where)
    if not name.isprintable():
        raise argparse.ArgumentTypeError(f"{name!r} cannot be the name of a station")
    return name, where


def schemas(where):
    """The relations of an image with their attributes, and the INLINE index of each, if there is one."""
    with open(where, "rb") as file:
        database = reader.Database(file.read(reader.MOST + 1), with_rows=False)
    inline = {it.relation: it.attribute for it in reversed(database.indexes) if it.kind == "INLINE"}
    return {it.name: [(that.name, that.domain) for that in it.attributes] for it in database.relations}, inline


def relations(wanted, told):
    """The relations that are shipped, with the attributes that are named for each."""
    named = [parsed(it) for it in wanted.relation] or [(it, []) for it in told if told[it]]
    if not named:
        raise Unfit("its relations are not known: name them, as in --relation 'readings(at TIME, celsius)'")
    unknown = {it.split(".")[0] for it in wanted.key} - {it for it, _ in named}
    if unknown and wanted.remove != "relation":
        raise Unfit(f"--key names {min(unknown)}, which is not shipped")
    # letter case does not matter in names of tables
    if len({it.casefold() for it, _ in named}) < len(named):
        raise Unfit("two relations would have one table")
    return named


def shipment_of(wanted, name, station, relation, attributes, schema, inline):
    """What to ship of a relation. An image has its schema, and perhaps an INLINE index on a key."""
    domains = dict(schema)
    attributes = attributes or schema
    if not attributes:
        raise Unfit(f"its attributes are not known: name them, as in '{relation}(at TIME, celsius)'")
    kinds = {it: domain or domains.get(it, "") for it, domain in attributes}
    key = dict(it.split(".") for it in wanted.key).get(relation) or (inline if inline in kinds else None)
    missing = set(domains) - set(kinds)
    if wanted.remove and missing:
        raise Unfit(f"--remove needs all attributes of {relation}, and {min(missing)} is not named")
    if wanted.remove and not key:
        raise Unfit(f"--remove needs a key for {relation}")
    if key and key not in kinds:
        raise Unfit(f"the key {relation}.{key} is not one of the named attributes")
    made = [Attribute(it, kind_of(kinds[it]) if kinds[it] else asked_kind(station, relation, it)) for it in kinds]
    if key and dict(made)[key] == "text":
        raise Unfit(f"the key {relation}.{key} is a text")
    return Shipment(name, relation, made, key)


def is_there(station, relation):
    """Whether a station has a relation; otherwise its attributes are not looked for."""
    reply = station._reply(f"OPEN 1 SELECT a FROM {relation}")[-1]
    if reply == "ok":
        station._reply("CLOSE 1")
    return reply != "no relation"


# Shipping


def reading_of(wanted, shipment, stored):
    """What to read of a relation, by how far it was shipped."""
    place = stored
    if wanted.anew:
        place = BEGINNING._replace(shipped=stored.shipped)
    if wanted.since is not None and shipment.key:
        place = BEGINNING._replace(by=shipment.key, key=wanted.since)
    return Reading(shipment, place), place


def ship(wanted, shipment, cursor, target):
    """Ships the new rows of a relation, and reports how many."""
    stored = target.place(shipment)
    reading, place = reading_of(wanted, shipment, stored)
    if target.keeps_places:
        look_below(cursor, shipment, place)
    total = count(cursor, reading.counting) - place.seen
    progress, done = Progress(shipment, total), 0
    cursor.execute(reading.query)
    try:
        for batch in reading.batches(cursor, wanted.batch):
            target.put(shipment, batch, stored, reading.place())
            stored = reading.place()
            done += len(batch)
            progress.tell(done)
    finally:
        progress.end()
    if wanted.anew and not done and target.keeps_places:
        target.put(shipment, [], stored, reading.place())
        stored = reading.place()
    if wanted.remove and stored.key is not None:
        stored = remove(wanted, shipment, cursor, target, stored)
    if target.keeps_places:
        print(f"{shipment.station} {shipment.relation}: {done:,} rows, {stored.shipped:,} in all", flush=True)
    elif done:
        print(f"{shipment.station} {shipment.relation}: {done:,} rows, --since {reading.place().key}", file=sys.stderr)


def remove(wanted, shipment, cursor, target, stored):
    """Removes from the station what is in the target, and returns the new place."""
    call = remove_rows if wanted.remove == "rows" else remove_relation
    place = call(cursor, shipment, stored)
    if place is None:
        told = "rows have come since, so that it stays"
        print(f"{shipment.station} {shipment.relation}: {told}", flush=True)
        return stored
    target.put(shipment, [], stored, place)
    return place


def plan(wanted, shipment, cursor, target):
    """Prints what would be shipped of a relation."""
    stored = target.place(shipment)
    reading, place = reading_of(wanted, shipment, stored)
    if target.keeps_places:
        look_below(cursor, shipment, place)
    new = count(cursor, reading.counting) - place.seen
    since = f"by {shipment.key}" if shipment.key else "by count"
    since += f" from {place.key}" if place.key is not None else f" after {place.seen:,}" if place.seen else ""
    names = ", ".join(f"{it.name} {it.kind}" for it in shipment.attributes)
    print(f"{shipment.station} {shipment.relation} ({names}): {max(0, new):,} rows {since}", flush=True)


def visit(wanted, name, where, target):
    """Ships from a station, also if one of its relations cannot be shipped. Returns the status."""
    status, call = 0, plan if wanted.plan else ship
    kind = kind_of_line(where)
    # a shared line is held only as long as a row takes
    how = {"client": wanted.client, "speed": wanted.speed, "timeout": wanted.timeout, "whole": kind in ("image", "run")}
    with connect(where, **how) as station:
        told, inline = schemas(where) if kind == "image" else ({}, {})
        for relation, attributes in relations(wanted, told):
            try:
                if wanted.remove == "relation" and not is_there(station, relation):
                    print(f"{name} {relation}: it is not there", flush=True)
                    continue
                schema = told.get(relation, [])
                shipment = shipment_of(wanted, name, station, relation, attributes, schema, inline.get(relation))
                call(wanted, shipment, station.cursor(), target)
            except (Unfit, ProgrammingError) as error:
                print(f"{tool.name()}: {name} {relation}: {error}", file=sys.stderr)
                status = 1
    return status


def ship_all(wanted):
    """Ships from each station, also if one of them cannot be reached."""
    target = open_target(wanted.into, wanted.plan)
    if wanted.remove and not target.keeps_places:
        raise Unfit("of InfluxDB it is not known whether the rows are there: nothing is removed")
    if wanted.since is not None and target.keeps_places:
        raise Unfit("--since is for InfluxDB: other targets know where a call left off")
    names = [name for name, _ in wanted.station]
    if len(set(names)) < len(names):
        raise Unfit("two stations have one name")
    status = 0
    with contextlib.closing(target):
        for name, where in wanted.station:
            try:
                status = visit(wanted, name, where, target) or status
            except (Unfit, Error, LineFailed, sqlite3.Error, OSError) as error:
                if isinstance(error, BrokenPipeError):
                    raise
                print(f"{tool.name()}: {name}: {error}", file=sys.stderr)
                status = 1
    return status


def key_of(text):
    if not re.fullmatch(r"\w+\.\w+", text):
        raise argparse.ArgumentTypeError(f"{text!r} is not RELATION.ATTRIBUTE")
    return text


def batch(text):
    if not re.fullmatch("[1-9][0-9]{0,5}", text):
        raise argparse.ArgumentTypeError(f"{text!r} is not a number of rows")
    return int(text)


def parse():
    parser = tool.parser(__doc__)
    text = "a line, with a name for the station"
    parser.add_argument("station", nargs="+", type=station_of, metavar="[NAME=]LINE", help=text)
    text = "a file of SQLite, postgresql://.., postgresql:KEY=VALUE.., or influx: for standard output"
    parser.add_argument("--into", required=True, metavar="TARGET", help=text)
    parser.add_argument("--relation", action="append", default=[], help="'r(at TIME, v)', again for each one")
    text = "RELATION.ATTRIBUTE whose values never fall, again for each relation"
    parser.add_argument("--key", action="append", type=key_of, default=[], help=text)
    parser.add_argument("--plan", action="store_true", help="show what would be shipped, and change nothing")
    text = "remove from the station what is in the target"
    parser.add_argument("--remove", choices=("rows", "relation"), help=text)
    text = "ship all rows, as if none had been shipped before"
    parser.add_argument("--anew", action="store_true", help=text)
    parser.add_argument("--since", type=int, help="the key to begin with, for InfluxDB")
    parser.add_argument("--batch", type=batch, default=BATCH, help=f"rows of a transaction ({BATCH})")
    parser.add_argument("--client", type=int, choices=range(1, 5), default=1, help="the number of the client (1)")
    parser.add_argument("--speed", type=int, help="bits a second of a port (its current setting)")
    parser.add_argument("--timeout", type=float, default=TIMEOUT, help=f"seconds to wait for a reply ({TIMEOUT:g})")
    return parser.parse_args()


def main():
    wanted = parse()
    return tool.run(lambda: ship_all(wanted), Unfit, Error, LineFailed, sqlite3.Error)


if __name__ == "__main__":
    sys.exit(main())
