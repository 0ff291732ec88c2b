#!/usr/bin/env python3
"""Reads the rows of an image without the program that wrote it, by docs/FORMATS.md alone.

    sorachest-reader station.img                  what is in it
    sorachest-reader station.img --dump           a script that makes it again, as `antelope dump` prints it
    sorachest-reader station.img --csv readings   the rows of a relation, with a header

It also reads images that the program refuses, as far as possible: those of a run that was killed, and truncated
copies. It reports on standard error what it cannot read, and then ends with 1. A status of 0 does not mean that the
image is sound: `antelope check` tests that.
"""
import collections
import csv
import re
import signal
import sys

from sorachest import tool

PAGE = 256
SECTOR = 16 * PAGE
MOST = 4095 * SECTOR
HEADER = 32
REGION = 128
RECORDS = 30
VALID, ALLOCATED, OBSOLETE, LOGGED, LOG, ISOLATED = 1, 2, 4, 8, 16, 32
FLAGS = (2, 3, 7, 11, 15, 19, 23)
ACTIVE_FILES = (VALID | ALLOCATED, VALID | ALLOCATED | LOGGED)
ACTIVE_LOG = VALID | ALLOCATED | LOG

RELATION_SLOT, INDEX_SLOT, SLOTS = 176, 8, 8
ATTRIBUTE_SLOT = 18
DOMAINS = {1: "INT", 2: "LONG", 3: "STRING", 4: "TIME"}
WIDTHS = {"INT": 2, "LONG": 4, "TIME": 8}
KINDS = {1: "INLINE", 2: "MAXHEAP", 3: "MEMHASH"}
LIVE, REMOVED = 1, 3
LAST_TIME = 140737488355327

Extent = collections.namedtuple("Extent", "page pages flags name log_page")
Attribute = collections.namedtuple("Attribute", "name domain width")
Relation = collections.namedtuple("Relation", "name attributes rows removed")
Index = collections.namedtuple("Index", "relation attribute kind")


def number(content):
    return int.from_bytes(content, "little")


def name_of(field):
    """The name in a field that is filled up with zeros."""
    return field.rstrip(b"\0").decode("latin-1")


class Flash:
    """The files of an image."""

    def __init__(self, content):
        self._content = content[:MOST]
        self.troubles = []
        self._files, self._logs = {}, {}
        if len(content) > MOST:
            self.troubles.append(f"the image has more than {MOST} bytes, and the rest was not read")
        elif len(content) % SECTOR or len(content) < 4 * SECTOR:
            self.troubles.append(f"the image has {len(content)} bytes, which are not 4 to 4,095 sectors")
        for extent in self._extents():
            if extent.flags in ACTIVE_FILES:
                self._add(extent)
            elif extent.flags == ACTIVE_LOG:
                self._logs[extent.page] = extent

    def names(self):
        return set(self._files)

    def contents(self, name):
        """The bytes of a file up to the last one that is not zero, with the changes in its log."""
        extent = self._files[name]
        contents = bytearray(self._content[extent.page * PAGE + HEADER:(extent.page + extent.pages) * PAGE])
        if extent.flags & LOGGED:
            self._put_log(extent, contents)
        return bytes(contents).rstrip(b"\0")

    def _extents(self):
        """All extents, from page 0 on. Pages that make no sense are reported and skipped."""
        page, pages = 0, len(self._content) // PAGE
        while page < pages:
            content = self._content[page * PAGE:(page + 1) * PAGE]
            extent = self._extent(page, content[:HEADER])
            is_isolated = content[9] & ALLOCATED and content[9] & ISOLATED
            if extent and page + extent.pages <= pages:
                yield extent
                page += extent.pages
                continue
            if any(content) and not is_isolated:
                self._pass_over(page)
            page += 1

    def _extent(self, page, header):
        pages, kind, flags = number(header[6:8]), header[8], header[9]
        is_header = flags in FLAGS and kind < 2 and re.fullmatch(rb"[!-~]{1,15}\0+", header[10:])
        if not is_header or pages == 0:
            return None
        return Extent(page, pages, flags, name_of(header[10:26]), number(header[:2]))

    def _pass_over(self, page):
        last = self.troubles[-1] if self.troubles else ""
        before = re.fullmatch(r"pages? ([0-9]+)(?: to ([0-9]+))?: no extent begins there", last)
        if before and int(before[2] or before[1]) == page - 1:
            self.troubles[-1] = f"pages {before[1]} to {page}: no extent begins there"
        else:
            self.troubles.append(f"page {page}: no extent begins there")

    def _add(self, extent):
        """A file that is being rewritten is there twice, until the old one, which may have a log, is obsolete."""
        other = self._files.setdefault(extent.name, extent)
        if other is extent:
            return
        if other.flags & LOGGED and not extent.flags & LOGGED:
            self._files[extent.name], other = extent, extent
        self.troubles.append(f"there are two files {extent.name}: that at page {other.page} was read")

    def _put_log(self, extent, contents):
        """Applies the records of a file's log to its contents; of several records of a region the last one counts."""
        log = self._logs.get(extent.log_page - 1)
        if not log or log.name != extent.name:
            self.troubles.append(f"{extent.name}: its log is not there, so that its last changes are missing")
            return
        start = log.page * PAGE
        for record in range(RECORDS):
            at = start + HEADER + 2 * record
            place = (number(self._content[at:at + 2]) - 1) * REGION
            if place >= len(contents):
                self.troubles.append(f"{extent.name}: record {record} of its log is of no region")
            elif place >= 0:
                at = start + 96 + REGION * record
                fitting = min(REGION, len(contents) - place)
                contents[place:place + fitting] = self._content[at:at + fitting]


class Database:
    """Relations with their live rows, and indexes, in the order of their slots."""

    def __init__(self, content, with_rows=True):
        self._flash = Flash(content)
        self.troubles = self._flash.troubles
        catalog = self._flash.contents("CAT") if "CAT" in self._flash.names() else b""
        catalog = catalog.ljust(SLOTS * (RELATION_SLOT + INDEX_SLOT), b"\0")
        schemas = {it: schema for it in range(SLOTS) if (schema := self._schema(it, catalog))}
        self._compare({f"T{it}" for it in schemas})
        self.relations = [self._relation(slot, *schema, with_rows) for slot, schema in schemas.items()]
        self.indexes = [index for it in range(SLOTS) if (index := self._index(it, catalog, schemas))]

    def _compare(self, wanted):
        """Reports files of rows that are missing, and those that belong to no relation."""
        there = {it for it in self._flash.names() if it != "CAT" and not re.fullmatch("X[0-7]", it)}
        self.troubles += [f"{it}: the rows of a relation are not there" for it in sorted(wanted - there)]
        self.troubles += [f"{it}: the catalog has no relation for this file" for it in sorted(there - wanted)]

    def _schema(self, slot, catalog):
        """The name and the attributes of a relation; None if the slot is not used or cannot be read."""
        fields = catalog[slot * RELATION_SLOT:(slot + 1) * RELATION_SLOT]
        if not fields[0]:
            return None
        attributes = [self._attribute(fields[16 + ATTRIBUTE_SLOT * it:]) for it in range(min(fields[160], 8))]
        name = name_of(fields[:16])
        if None in attributes or not is_name(name):
            self.troubles.append(f"relation {slot} {name!r}: its schema cannot be read")
            return None
        return name, attributes

    def _attribute(self, fields):
        name, domain, length = name_of(fields[:16]), DOMAINS.get(fields[16]), fields[17]
        if domain == "STRING" and 1 <= length <= 32 and is_name(name):
            return Attribute(name, f"STRING({length})", length)
        return Attribute(name, domain, WIDTHS[domain]) if domain in WIDTHS and is_name(name) else None

    def _index(self, slot, catalog, schemas):
        at = SLOTS * RELATION_SLOT + slot * INDEX_SLOT
        kind, relation, attribute = catalog[at:at + 3]
        if not kind:
            return None
        if kind not in KINDS or relation not in schemas or attribute >= len(schemas[relation][1]):
            self.troubles.append(f"index {slot}: it cannot be read")
            return None
        name, attributes = schemas[relation]
        return Index(name, attributes[attribute].name, KINDS[kind])

    def _relation(self, slot, name, attributes, with_rows):
        """A relation with the values of its live rows, and how many are removed."""
        is_read = with_rows and f"T{slot}" in self._flash.names()
        contents = self._flash.contents(f"T{slot}") if is_read else b""
        width = sum(it.width for it in attributes) + 1
        if len(contents) % width:
            self.troubles.append(f"{name}: after the last row there are {len(contents) % width} bytes of another")
        rows, removed = [], 0
        for at in range(0, len(contents) - width + 1, width):
            mark = contents[at + width - 1]
            removed += mark == REMOVED
            if mark == REMOVED:
                continue
            values = [*values_of(contents[at:at + width], attributes)]
            if mark == LIVE and None not in values and values:
                rows.append(values)
            else:
                self.troubles.append(f"{name}: the row in slot {at // width} cannot be read")
        return Relation(name, attributes, rows, removed)


def values_of(fields, attributes):
    """The values of a row; None if its bytes cannot be one."""
    for attribute in attributes:
        field, fields = fields[:attribute.width], fields[attribute.width:]
        if attribute.domain in ("INT", "LONG"):
            yield int.from_bytes(field, "little", signed=True)
        elif attribute.domain == "TIME":
            yield number(field) if number(field) <= LAST_TIME else None
        else:
            text = field.rstrip(b"\0").decode("latin-1")
            yield text if re.fullmatch("[ -&(-~]*", text) else None


def is_name(text):
    return bool(re.fullmatch("[A-Za-z][A-Za-z0-9_]{0,14}", text))


def script(database):
    """The lines of the script that makes the database again."""
    for relation in database.relations:
        yield f"CREATE RELATION {relation.name};\n"
        for attribute in relation.attributes:
            yield f"CREATE ATTRIBUTE {attribute.name} DOMAIN {attribute.domain} IN {relation.name};\n"
        for row in relation.rows:
            values = ", ".join(f"'{it}'" if isinstance(it, str) else str(it) for it in row)
            yield f"INSERT ({values}) INTO {relation.name};\n"
    for index in database.indexes:
        yield f"CREATE INDEX {index.relation}.{index.attribute} TYPE {index.kind};\n"


def summary(database):
    """A line for each relation and for each index."""
    for relation in database.relations:
        attributes = ", ".join(f"{it.name} {it.domain}" for it in relation.attributes)
        yield f"{relation.name} ({attributes}): {len(relation.rows)} rows, {relation.removed} removed\n"
    for index in database.indexes:
        yield f"{index.relation}.{index.attribute}: {index.kind}\n"


def write_csv(database, name, output):
    """Writes the live rows of a relation, and returns whether there is one of that name."""
    for relation in database.relations:
        if relation.name == name:
            writer = csv.writer(output, lineterminator="\n")
            writer.writerow(it.name for it in relation.attributes)
            writer.writerows(relation.rows)
            return True
    return False


def main():
    # it ends silently if it is interrupted, or if its reader is gone
    for it in (signal.SIGINT, signal.SIGPIPE):
        signal.signal(it, signal.SIG_DFL)
    parser = tool.parser(__doc__)
    parser.add_argument("image", help="the image of a flash")
    how = parser.add_mutually_exclusive_group()
    how.add_argument("--dump", action="store_true", help="write a script that makes the database again")
    how.add_argument("--csv", metavar="RELATION", help="write the rows of a relation as CSV")
    wanted = parser.parse_args()
    try:
        with open(wanted.image, "rb") as file:
            database = Database(file.read(MOST + 1))
        # closed here, so that a failed write is reported
        with open(1, "w", encoding="ascii", closefd=False) as output:
            if wanted.csv is None:
                output.writelines(script(database) if wanted.dump else summary(database))
            elif not write_csv(database, wanted.csv, output):
                database.troubles.append(f"there is no relation {wanted.csv}")
    except OSError as error:
        print(f"{tool.name()}: {error}", file=sys.stderr)
        return 1
    for trouble in database.troubles:
        print(f"{tool.name()}: {trouble}", file=sys.stderr)
    return 1 if database.troubles else 0


if __name__ == "__main__":
    sys.exit(main())
