"""What is shipped of a station, and how far.

A `Place` stands in the target, in the same transaction as the rows before it. It says which rows of an answer
are in the target already: the first `seen` ones, whose digest is kept, of all rows, or of those from the last
key on. So rows with one key may come at different times, and rows that are not those that were shipped are
told, and neither lost nor doubled.
"""
import collections
import hashlib
import itertools
import re

from sorachest.values import row_text

DOMAINS = {"INT": "number", "LONG": "number", "TIME": "time"}
# a key never falls from one row to the next; without one the rows are counted
Shipment = collections.namedtuple("Shipment", "station relation attributes key")
Attribute = collections.namedtuple("Attribute", "name kind")
Place = collections.namedtuple("Place", "by key seen digest shipped standing")

NOTHING = hashlib.sha256().hexdigest()
BEGINNING = Place("", None, 0, NOTHING, 0, 0)
FALLEN = "without a key, and into another target, all rows are shipped"
CHANGED = (
    "rows that were shipped are gone, or others stand in their places, or other attributes were named then; "
    "--anew ships all that is there, also what was shipped"
)


class Unfit(Exception):
    """Something cannot be shipped in this way."""


def parsed(text):
    """The name of a relation, and its attributes with their domains, if both are given: `r(at TIME, v)`."""
    found = re.fullmatch(r"\s*(\w+)\s*(?:\((.*)\))?\s*", text, re.DOTALL)
    if not found:
        raise Unfit(f"{text!r} does not name a relation, as in 'readings(at TIME, celsius)'")
    attributes = []
    for part in found[2].split(",") if found[2] else ():
        name, _, domain = part.strip().partition(" ")
        domain = "".join(domain.split()).upper()
        is_domain = domain in ("", *DOMAINS) or re.fullmatch(r"STRING(\(\d+\))?", domain)
        if not is_domain or not re.fullmatch(r"\w+", name):
            raise Unfit(f"{part.strip()!r} is not an attribute with a domain, as 'at TIME' is")
        attributes.append((name, domain))
    return found[1], attributes


def kind_of(domain):
    return DOMAINS.get(domain, "text")


def asked_kind(station, relation, name):
    """Whether an attribute's values are numbers or texts, which the station answers without reading rows."""
    reply = station._reply(f"OPEN 1 SELECT {name} FROM {relation} WHERE {name} = ''")[-1]
    if reply == "ok":
        station._reply("CLOSE 1")
    elif not reply.startswith("no type"):
        raise Unfit(f"{relation}({name}): {reply}")
    return "text" if reply == "ok" else "number"


class Reading:
    """The rows of a relation that are not yet in the target, and the place after those that were taken."""

    def __init__(self, shipment, place):
        if place.by and place.by != shipment.key:
            raise Unfit(f"it was shipped by its key {place.by}: name it as in --key {shipment.relation}.{place.by}")
        names = [it.name for it in shipment.attributes]
        self._at = names.index(shipment.key) if shipment.key else None
        self._old = place
        self._key, self._seen, self._digest = place.key, 0, hashlib.sha256()
        self._shipped, self._standing = place.shipped, place.standing
        self._by = shipment.key or ""
        since = "" if place.key is None else f" WHERE {shipment.key} >= {place.key}"
        self.query = f"SELECT {', '.join(names)} FROM {shipment.relation}{since}"
        self.counting = f"SELECT COUNT({names[0]}) FROM {shipment.relation}{since}"

    def place(self):
        return Place(self._by, self._key, self._seen, self._digest.hexdigest(), self._shipped, self._standing)

    def batches(self, rows, most):
        """The new rows, in lists of at most this many."""
        batch = []
        for row in self._behind_the_shipped(iter(rows)):
            if self._at is not None and self._key is not None and row[self._at] < self._key:
                if batch:
                    yield batch
                raise Unfit(f"its key falls from {self._key} to {row[self._at]}: {FALLEN}")
            self._count(row)
            self._shipped += 1
            self._standing += 1
            batch.append(row)
            if len(batch) == most:
                yield batch
                batch = []
        if batch:
            yield batch

    def _behind_the_shipped(self, rows):
        """The rows after those that were shipped; all of them, if those with the last key were removed since."""
        old, whole = self._old, hashlib.sha256()
        first = list(itertools.islice(rows, 1))
        rows = itertools.chain(first, rows)
        if old.key is not None and (not first or first[0][self._at] > old.key):
            self._standing = max(0, old.standing - old.seen)
            yield from rows
            return
        for row in itertools.islice(rows, old.seen):
            whole.update(line(row))
            self._count(row)
        if whole.hexdigest() != old.digest:
            raise Unfit(CHANGED)
        yield from rows

    def _count(self, row):
        """Moves the place over a row: with a key, only the rows with the last key are counted."""
        key = None if self._at is None else row[self._at]
        if key != self._key:
            self._key, self._seen, self._digest = key, 0, hashlib.sha256()
        self._seen += 1
        self._digest.update(line(row))


def line(row):
    return f"{row_text(row)}\n".encode()


def count(cursor, query):
    return cursor.execute(query).fetchone()[0]


def look_below(cursor, shipment, place):
    """Refuses a key if there are rows with lower keys that were not shipped: it has fallen."""
    if place.key is None:
        return
    below = f"SELECT COUNT({shipment.key}) FROM {shipment.relation} WHERE {shipment.key} < {place.key}"
    there, shipped = count(cursor, below), place.standing - place.seen
    if there > shipped:
        of_these = f"{shipped} of these were shipped: the key fell"
        raise Unfit(f"{there} rows have a {shipment.key} below {place.key}, and {of_these}; {FALLEN}")


def remove_rows(cursor, shipment, place):
    """Removes the rows below the last key, and returns the place among those that are left.

    Rows with the last key stay: others with it may have come since.
    """
    look_below(cursor, shipment, place)
    cursor.execute(f"REMOVE FROM {shipment.relation} WHERE {shipment.key} < {place.key}")
    return place._replace(standing=max(place.seen, place.standing - cursor.rowcount))


def remove_relation(cursor, shipment, place):
    """Removes a relation whose rows are all shipped, and returns the place in an empty one; None if there are others."""
    look_below(cursor, shipment, place)
    counting = f"SELECT COUNT({shipment.key}) FROM {shipment.relation} WHERE {shipment.key} >= {place.key}"
    if count(cursor, counting) > place.seen:
        return None
    # a relation with an index cannot be removed
    for attribute in shipment.attributes:
        reply = cursor.connection._reply(f"REMOVE INDEX {shipment.relation}.{attribute.name}")[-1]
        if reply not in ("ok", "no index"):
            raise Unfit(f"the index of {shipment.relation}.{attribute.name} could not be removed: {reply}")
    cursor.execute(f"REMOVE RELATION {shipment.relation}")
    return place._replace(seen=0, digest=NOTHING, standing=0)
