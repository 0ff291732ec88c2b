#!/usr/bin/env python3
"""Rows as CSV, out of a station and into one.

    sorachest-csv out station.img 'SELECT at, celsius FROM readings' --times at > readings.csv
    sorachest-csv in readings.csv readings --create --scale 10 --dry-run
    sorachest-csv in readings.csv readings > readings.aql
    sorachest-csv in readings.csv readings --parts readings    (readings-001.aql, readings-002.aql ..)
    sorachest-csv in readings.csv readings --line /dev/ttyUSB0

The first line of a CSV names its columns, in the order of the relation's attributes. Without --domains the
domains are guessed, and shown at a terminal: INT, LONG or TIME for whole numbers, TIME for ISO times such as
'2026-01-01 00:10', which become milliseconds since 1970 (UTC if they name no zone), and STRING otherwise. --scale
makes a decimal a whole number: with --scale 10, 21.5 becomes 215.

If a value cannot be written in AQL, its line is reported and nothing is written. --dry-run reports all such
values, and shows the columns. sorachest-reader prints the rows of an image as CSV without a station.
"""
import argparse
import csv
import re
import sys

from sorachest import tool
from sorachest.cells import Column, Unfit
from sorachest.dbapi import connect
from sorachest.errors import DataError, Error
from sorachest.values import literal

MOST_INPUT = 16_777_216
MOST_COLUMNS = 8
MOST_TOLD = 20
NAME = "[A-Za-z][A-Za-z0-9_]{0,14}"
KEYWORDS = (
    "CREATE RELATION ATTRIBUTE INDEX DOMAIN INT LONG STRING IN TYPE INLINE MAXHEAP MEMHASH INSERT INTO SELECT FROM"
    " WHERE JOIN ON PROJECT REMOVE PACK OPEN FETCH CLOSE AND OR NOT COUNT SUM MIN MAX MEAN MEDIAN"
).split()


# A CSV as commands


def separator(text):
    """The separator of values."""
    if len(text) != 1 or text in '"\r\n':
        raise argparse.ArgumentTypeError(f"{text!r} is not a character that can separate values")
    return text


def is_name(text):
    """Whether this can be the name of a relation or an attribute."""
    return bool(re.fullmatch(NAME, text)) and text.upper() not in KEYWORDS


def read_table(path, delimiter):
    """The names of the columns, and the other rows, each with the number of its line."""
    with open(path, newline="", encoding="utf-8-sig") as file:
        reader = csv.reader(file, delimiter=delimiter)
        lines = [(reader.line_num, row) for row in reader if row]
    if not lines:
        raise Unfit(f"{path} has no line with names")
    (_, names), *rows = lines
    for line, row in rows:
        if len(row) != len(names):
            raise Unfit(f"line {line}: {len(row)} values for {len(names)} columns")
    if len(names) > MOST_COLUMNS:
        raise Unfit(f"{path} has {len(names)} columns, and a relation at most {MOST_COLUMNS}")
    return [it.strip() for it in names], rows


def by_column(texts, names):
    """Settings as `NAME=VALUE` for a column, or `VALUE` for all, whose name is then None."""
    found = {}
    for text in texts:
        name, _, value = text.rpartition("=")
        if name and name not in names:
            raise Unfit(f"there is no column {name}")
        found[name or None] = value
    return found


def number_in(text):
    if not re.fullmatch("-?[0-9]{1,18}", text):
        raise Unfit(f"{text!r} is not a whole number")
    return int(text)


def columns_of(wanted, names, rows):
    """The columns, with their domains."""
    domains = [it.strip().upper() for it in wanted.domains.split(",")] if wanted.domains else [None] * len(names)
    if len(domains) != len(names):
        raise Unfit(f"{len(domains)} domains for {len(names)} columns")
    scales = {name: number_in(it) for name, it in by_column(wanted.scale, names).items()}
    if any(it < 1 for it in scales.values()):
        raise Unfit("a scale is at least 1")
    blanks = {name: it if it == "skip" else number_in(it) for name, it in by_column(wanted.blank, names).items()}
    columns = []
    for at, (name, domain) in enumerate(zip(names, domains)):
        how = {"domain": domain, "scale": scales.get(name), "all_scale": scales.get(None), "point": wanted.point}
        how["blank"] = blanks.get(name, blanks.get(None))
        columns.append(Column(name, [row[at] for _, row in rows], **how))
    return columns


def rows_to_put(columns, rows):
    """The rows, without those that are skipped for a blank."""

    def is_left_out(row):
        return any(it.is_skipped and it.is_blank(cell) for it, cell in zip(columns, row))

    return [(line, row) for line, row in rows if not is_left_out(row)]


def insert(relation, columns, row):
    """The INSERT of a row."""
    values = ", ".join(literal(it.value(cell)) for it, cell in zip(columns, row))
    return f"INSERT ({values}) INTO {relation};\n"


def inserts(relation, columns, rows):
    """An INSERT for each row."""
    for line, row in rows:
        try:
            yield insert(relation, columns, row)
        except (Unfit, DataError) as error:
            raise Unfit(f"line {line}: {error}") from error


def creations(relation, columns):
    """The commands that make the relation."""
    names = [it.name for it in columns]
    for at, name in enumerate(names):
        if not is_name(name):
            raise Unfit(f"{name!r} is not a name in AQL")
        if name in names[:at]:
            raise Unfit(f"two columns are called {name}")
    yield f"CREATE RELATION {relation};\n"
    for it in columns:
        yield f"CREATE ATTRIBUTE {it.name} DOMAIN {it.domain} IN {relation};\n"


def table_of(wanted):
    """The columns of the CSV, and the rows to insert."""
    if not is_name(wanted.relation):
        raise Unfit(f"{wanted.relation!r} is not a name in AQL")
    names, rows = read_table(wanted.csv, wanted.delimiter)
    columns = columns_of(wanted, names, rows)
    return columns, rows_to_put(columns, rows), len(rows)


def commands(wanted, columns, rows):
    """The commands for a CSV, a line each."""
    created = creations(wanted.relation, columns) if wanted.create else ()
    return [*created, *inserts(wanted.relation, columns, rows)]


def describe(columns):
    """A line for each column: its domain, and how its cells are read."""
    for it in columns:
        guess = " (guessed)" if it.is_guessed else ""
        scale = f", times {it.scale}" if it.scale != 1 else ""
        blanks = f", {it.blanks} blank" if it.blanks else ""
        yield f"{it.name}: {it.domain}{guess}{scale}{blanks}\n"


def try_out(wanted, columns, rows, count):
    """Prints what would be done, and each line that cannot be inserted."""
    sys.stdout.writelines(describe(columns))
    list(creations(wanted.relation, columns) if wanted.create else ())
    troubles, size = [], 0
    for line, row in rows:
        try:
            size += len(insert(wanted.relation, columns, row))
        except (Unfit, DataError) as error:
            troubles.append(f"line {line}: {error}\n")
    sys.stdout.writelines(troubles[:MOST_TOLD])
    if len(troubles) > MOST_TOLD:
        print(f"and {len(troubles) - MOST_TOLD} lines more")
    print(f"{len(rows) - len(troubles)} rows of {count} fit, {size} bytes of INSERTs")
    return 1 if troubles else 0


def parts(lines, most):
    """The lines in texts of at most this many bytes."""
    part, size = [], 0
    for line in lines:
        if part and size + len(line) > most:
            yield "".join(part)
            part, size = [], 0
        part.append(line)
        size += len(line)
    if part:
        yield "".join(part)


# The command line


def send(lines, wanted):
    """Sends commands to a station up to the first that it refuses."""
    with connect(wanted.line, speed=wanted.speed, timeout=wanted.timeout) as station:
        cursor = station.cursor()
        for done, line in enumerate(lines):
            try:
                cursor.execute(line)
            except Error as error:
                raise Unfit(f"{done} commands of {len(lines)} were carried out, and then: {error}") from error


def put_in(wanted):
    """Writes a CSV as a script, or sends it to a station."""
    columns, rows, count = table_of(wanted)
    if wanted.dry_run:
        return try_out(wanted, columns, rows, count)
    lines = commands(wanted, columns, rows)
    if sys.stderr.isatty() and any(it.is_guessed for it in columns):
        sys.stderr.writelines(describe(columns))
    if wanted.line:
        send(lines, wanted)
    elif wanted.parts:
        for at, part in enumerate(parts(lines, wanted.most), 1):
            with open(f"{wanted.parts}-{at:03}.aql", "w", encoding="ascii") as file:
                file.write(part)
    elif sum(map(len, lines)) > wanted.most:
        raise Unfit(f"the script has more than {wanted.most} bytes, too many for one run: use --parts")
    else:
        sys.stdout.writelines(lines)
    return 0


def put_out(wanted):
    """Writes the answer of a query as CSV, with a header."""
    times = [it.strip() for it in wanted.times.split(",")]
    with connect(wanted.line, speed=wanted.speed, timeout=wanted.timeout, times=times) as station:
        cursor = station.cursor()
        cursor.execute(wanted.query)
        if cursor.description is None:
            raise Unfit(f"{wanted.query}: this is not a query, and was carried out")
        writer = csv.writer(sys.stdout, lineterminator="\n")
        writer.writerow(it[0] for it in cursor.description)
        writer.writerows(cursor)


def parse():
    parser = tool.parser(__doc__)
    forms = parser.add_subparsers(required=True, metavar="out|in")
    form = forms.add_parser("out", help=put_out.__doc__, description=put_out.__doc__)
    form.set_defaults(do=put_out)
    tool.add_line(form)
    form.add_argument("query", help="SELECT or JOIN")
    form.add_argument("--times", default="", help="attributes whose values are written as ISO times, as in 'at, until'")
    form = forms.add_parser("in", help=put_in.__doc__, description=put_in.__doc__)
    form.set_defaults(do=put_in)
    form.add_argument("csv", help="a file, whose first line names the columns")
    form.add_argument("relation", help="the relation that the rows go into")
    form.add_argument("--domains", help="those of the columns, as in 'TIME, INT, STRING(8)'")
    form.add_argument("--create", action="store_true", help="make the relation first, with the names of the columns")
    form.add_argument("--delimiter", type=separator, default=",", help="the character between values (,)")
    text = "multiply decimals by this; NAME=10 for one column, including whole numbers"
    form.add_argument("--scale", action="append", default=[], metavar="10", help=text)
    text = "the number for blank cells, or skip to leave their rows out; NAME=VALUE for one column"
    form.add_argument("--blank", action="append", default=[], metavar="VALUE", help=text)
    form.add_argument("--point", type=separator, default=".", help="the decimal point (.)")
    form.add_argument("--dry-run", action="store_true", help="print the columns and what is wrong with them, and do nothing else")
    form.add_argument("--parts", metavar="PART", help="write files PART-001.aql .., each small enough for a run")
    form.add_argument("--most", type=int, default=MOST_INPUT, help=f"bytes of a script ({MOST_INPUT})")
    tool.add_line(form, "--line")
    return parser.parse_args()


def main():
    wanted = parse()
    errors = (Unfit, Error, csv.Error, UnicodeDecodeError)
    return tool.run(lambda: wanted.do(wanted), *errors)


if __name__ == "__main__":
    sys.exit(main())
