"""Values, commands and rows in AQL and in its replies."""
import collections
import datetime
import operator
import re
from collections.abc import Iterable, Mapping

from sorachest.errors import DataError, NotSupportedError, OperationalError, ProgrammingError

MOST_TEXT = 32
TEXT = "[ -&(-~]*"
# no value has more than 19 digits: a sum of 64 bits
VALUE = re.compile(f"'({TEXT})'|(-?[0-9]{{1,19}})|-")
EPOCH = datetime.datetime(1970, 1, 1, tzinfo=datetime.timezone.utc)
MILLISECOND = datetime.timedelta(milliseconds=1)


class TypeObject:
    """A type code of a description."""

    def __init__(self, name):
        self._name = name

    def __repr__(self):
        return self._name


STRING, NUMBER, DATETIME = TypeObject("STRING"), TypeObject("NUMBER"), TypeObject("DATETIME")
TYPES = {str: STRING, int: NUMBER, datetime.datetime: DATETIME}
# no attribute has one of these types
BINARY, ROWID = TypeObject("BINARY"), TypeObject("ROWID")

Date, Timestamp = datetime.date, datetime.datetime


def TimestampFromTicks(ticks):
    """The time this many seconds after the beginning of 1970, UTC."""
    return EPOCH + datetime.timedelta(seconds=ticks)


def DateFromTicks(ticks):
    """The day of that time, UTC."""
    return TimestampFromTicks(ticks).date()


def Binary(*_):
    """Not supported: AQL has only numbers and texts."""
    raise NotSupportedError("AQL has no binary values")


def Time(*_):
    """Not supported: a TIME of AQL has a day."""
    raise NotSupportedError("AQL has no times without a day")


TimeFromTicks = Time


def milliseconds(time):
    """The milliseconds since 1970 of a date or a datetime, which is UTC if it names no zone.

    What is less than a millisecond is cut off.
    """
    if not isinstance(time, datetime.datetime):
        time = datetime.datetime(time.year, time.month, time.day)
    time = time if time.tzinfo else time.replace(tzinfo=datetime.timezone.utc)
    return (time - EPOCH) // MILLISECOND


def datetime_of(number):
    """The datetime, in UTC, this many milliseconds after the beginning of 1970."""
    return EPOCH + number * MILLISECOND


def literal(value):
    """A value as AQL writes it."""
    if isinstance(value, str):
        # the str's own characters: formatting a member of a str enumeration would give its name
        text = str.__str__(value)
        if len(text) > MOST_TEXT or not re.fullmatch(TEXT, text):
            raise DataError(f"{text!r:.80} is not a text of AQL: {MOST_TEXT} characters of ASCII at most, and no quote")
        return f"'{text}'"
    if isinstance(value, datetime.date):
        return str(milliseconds(value))
    try:
        number = None if isinstance(value, bool) else int(operator.index(value))
    except TypeError:
        number = None
    if number is None:
        raise DataError(f"{value!r:.80} is neither a whole number, a text nor a datetime")
    if abs(number) >= 10**18:
        raise DataError("a number of AQL has at most 18 digits")
    return str(number)


def row_text(values):
    """A row in the format of a reply."""
    return ",".join("-" if it is None else literal(it) for it in values)


def row_of(text):
    """The values of a row in a reply."""
    found = list(VALUE.finditer(text))
    if not found or ",".join(it[0] for it in found) != text:
        raise OperationalError(f"{text!r:.100} came, which is not a row")
    return tuple(int(it[2]) if it[2] else it[1] for it in found)


def bind(operation, parameters=()):
    """A command with values in place of each `?` outside of quotes."""
    parameters = () if parameters is None else parameters
    if isinstance(parameters, (str, bytes, Mapping)) or not isinstance(parameters, Iterable):
        raise ProgrammingError(f"{parameters!r:.80}: parameters are a sequence of values, as (5,) is")
    values = collections.deque(literal(it) for it in parameters)
    given, places = len(values), 0

    def put(found):
        nonlocal places
        if found[0] != "?":
            return found[0]
        places += 1
        return values.popleft() if values else "?"

    command = re.sub(r"'[^'\n]*'?|(?<![\w?])\?", put, operation)
    if places != given:
        raise ProgrammingError(f"{operation}: {places} places for {given} values")
    return command.strip().removesuffix(";").rstrip()


def columns(command):
    """The names in a query's list, and whether they are aggregates; no names if the command is not a query."""
    found = re.match(r"SELECT\b(.*?)\bFROM\b", command, re.IGNORECASE | re.DOTALL)
    found = found or re.match(r"JOIN\b.*?\bPROJECT\b(.*)", command, re.IGNORECASE | re.DOTALL)
    if not found:
        return [], False
    return ["".join(it.split()) for it in found[1].split(",")], "(" in found[1]
