"""The cells of a CSV as values of AQL: what a column's domain is, and how its cells are read."""
import datetime
import decimal
import re

from sorachest.values import MOST_TEXT, milliseconds

NUMBERS = {"INT": range(-(2**15), 2**15), "LONG": range(-(2**31), 2**31), "TIME": range(2**47)}
# a number as AQL writes it: one with a leading zero or a plus may be a name
WHOLE = re.compile("0|-?[1-9][0-9]{0,17}")
DECIMAL = re.compile(r"-?[0-9]{0,18}\.[0-9]{1,18}")
ISO = re.compile(
    r"(\d{4})-(\d\d)-(\d\d)(?:[T ](\d\d):(\d\d)(?::(\d\d)(?:[.,](\d{1,9}))?)?(?: ?(Z|[+-]\d\d:?\d\d))?)?", re.ASCII
)


class Unfit(Exception):
    """The CSV has something that AQL does not have."""


def time_of(text):
    """The milliseconds since 1970 of an ISO time, which is UTC if it names no zone."""
    year, month, day, hour, minute, second, part, zone = ISO.fullmatch(text).groups(default="")
    try:
        time = datetime.datetime(*(int(it or 0) for it in (year, month, day, hour, minute, second)))
    except ValueError as error:
        raise Unfit(f"{text!r} is not a time: {error}") from error
    part = part.ljust(9, "0")
    if part[3:] != "000000":
        raise Unfit(f"{text!r} has fractions of a millisecond, which a TIME cannot have")
    digits = zone.lstrip("Z+-").replace(":", "")
    minutes = int(digits[:2]) * 60 + int(digits[2:]) if digits else 0
    moved = -minutes if zone.startswith("-") else minutes
    return milliseconds(time) + int(part[:3]) - moved * 60_000


class Column:
    """A column: its name, its domain, guessed or not, and how its cells are read."""

    def __init__(self, name, cells, *, domain=None, scale=None, all_scale=None, blank=None, point="."):
        self.name = name
        self._point = point
        # `skip` leaves out the rows that have a blank here
        self.is_skipped = blank == "skip"
        self._blank = None if self.is_skipped else blank
        full = [it.strip() for it in cells if it.strip()]
        self.blanks = len(cells) - len(full)
        has_decimals = any(DECIMAL.fullmatch(self._pointed(it)) for it in full)
        # a scale for all columns changes only those that have decimals
        self.scale = scale or (all_scale if has_decimals else None) or 1
        self.is_guessed = domain is None
        self.domain = domain or self._guessed(full)
        self._most = checked(self.domain)

    def value(self, cell):
        """The value that a cell means."""
        if self.domain not in NUMBERS:
            if len(cell) > self._most:
                raise Unfit(f"{cell!r} has more than {self._most} characters")
            return cell
        text = cell.strip()
        if not text:
            if self._blank is None:
                raise Unfit(f"{self.name} is blank: use --blank VALUE or --blank skip")
            return self._in_domain(self._blank, text)
        return self._in_domain(self._number(text), text)

    def is_blank(self, cell):
        """Whether a cell is blank although its column needs a value; a text may be empty."""
        return self.domain in NUMBERS and not cell.strip()

    def _pointed(self, text):
        return text.replace(self._point, ".", 1)

    def _number(self, text):
        if self.domain == "TIME" and ISO.fullmatch(text):
            return time_of(text)
        pointed = self._pointed(text)
        if re.fullmatch("[-+]?[0-9]{1,18}", text):
            return int(text) * self.scale
        if not DECIMAL.fullmatch(pointed):
            numbers = NUMBERS[self.domain]
            raise Unfit(f"{text!r} is not a number from {numbers[0]} to {numbers[-1]}")
        number = decimal.Decimal(pointed) * self.scale
        if number != int(number):
            scale = 10 ** len(pointed.partition(".")[2].rstrip("0"))
            raise Unfit(f"{text!r} times {self.scale} is not a whole number: use --scale {self.name}={scale}")
        return int(number)

    def _in_domain(self, number, text):
        numbers = NUMBERS[self.domain]
        if number not in numbers:
            made = f" makes {number}, which" if str(number) != text else ""
            raise Unfit(f"{text!r}{made} is not a number from {numbers[0]} to {numbers[-1]}")
        return number

    def _guessed(self, full):
        """The narrowest domain that fits these cells."""
        if full and all(map(ISO.fullmatch, full)):
            return "TIME"
        if not full or not all(WHOLE.fullmatch(it) or DECIMAL.fullmatch(self._pointed(it)) for it in full):
            return f"STRING({min(MOST_TEXT, max(map(len, full), default=1))})"
        scaled = [decimal.Decimal(self._pointed(it)) * self.scale for it in full]
        if self._blank is not None:
            scaled.append(self._blank)
        for domain, numbers in NUMBERS.items():
            if numbers[0] <= min(scaled) and max(scaled) <= numbers[-1]:
                return domain
        return f"STRING({min(MOST_TEXT, max(map(len, full)))})"


def checked(domain):
    """The most characters of a text of a domain; 0 for numbers."""
    found = re.fullmatch(r"STRING\(([0-9]{1,2})\)", domain)
    if domain in NUMBERS:
        return 0
    if not found or not 1 <= int(found[1]) <= MOST_TEXT:
        raise Unfit(f"{domain!r} is not a domain: INT, LONG, TIME, or STRING(1) to STRING({MOST_TEXT})")
    return int(found[1])
