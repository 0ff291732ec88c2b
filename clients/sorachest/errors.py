"""The exceptions of PEP 249, and the refusals that raise each."""


class Warning(Exception):
    """Never raised here."""


class Error(Exception):
    """Something was not done."""


class InterfaceError(Error):
    """The connection or cursor is closed, or has no answer."""


class DatabaseError(Error):
    """A command was refused, or its reply did not arrive."""


class DataError(DatabaseError):
    """A value does not fit its attribute, or cannot be written in AQL."""


class OperationalError(DatabaseError):
    """The line failed, or the database is full or in use."""


class IntegrityError(DatabaseError):
    """Rows or an index do not allow it."""


class InternalError(DatabaseError):
    """The database contradicts itself, so its program would not serve it."""


class ProgrammingError(DatabaseError):
    """The command is not AQL, or names something that does not exist, or that exists already."""


class NotSupportedError(DatabaseError):
    """AQL does not have this."""


REFUSALS = {
    **dict.fromkeys(("syntax", "long", "relation", "attribute", "index"), ProgrammingError),
    **dict.fromkeys(("exists", "domain", "type"), ProgrammingError),
    **dict.fromkeys(("ordered", "indexed", "empty"), IntegrityError),
    **dict.fromkeys(("full", "space", "inuse", "open", "cursor"), OperationalError),
    "value": DataError,
}


def refused(command, reply):
    """The exception for a reply that begins with `no`."""
    return REFUSALS.get(reply.split()[1], DatabaseError)(f"{command}: {reply}")
