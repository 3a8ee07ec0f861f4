"""Reads the text of a history, of versions 1 to 3 (docs/log.md)."""

import re
from collections import namedtuple

LEVELS = ("rc", "ra", "cc")
MOST_BYTES = 268435456


class LogFault(Exception):
    """The text isn't that of a history, or its events don't follow one another."""


class Unset:
    """The value of a field whose row was never made."""

    def __repr__(self):
        return "unset"


UNSET = Unset()

# column is None for the presence of a row. A key is an int or a str; a value is one of these, True, False, None (null) or UNSET.
Cell = namedtuple("Cell", "table key column")
# What a kind of event doesn't have is None.
Event = namedtuple("Event", "kind session cell value source count word level table keys number name")
Event.__new__.__defaults__ = (None,) * 10
# initial maps cells to values; order is the list of the line `order`.
Log = namedtuple("Log", "version level initial events order")

NUMBER = re.compile(r"0|[1-9][0-9]{0,9}")
INTEGER = re.compile(r"0|-?[1-9][0-9]{0,18}")
TEXT = re.compile(r"x(?:[0-9a-f]{2})*")


class NoWord(Exception):
    """A word isn't of its form."""


def number_of(word):
    if not NUMBER.fullmatch(word) or int(word) > 4294967295:
        raise NoWord
    return int(word)


def integer_of(word):
    if not INTEGER.fullmatch(word) or not -(2**63) <= int(word) < 2**63:
        raise NoWord
    return int(word)


def text_of(word):
    if not TEXT.fullmatch(word):
        raise NoWord
    try:
        return bytes.fromhex(word[1:]).decode()
    except UnicodeDecodeError:
        raise NoWord from None


def key_of(word):
    return text_of(word) if word.startswith("x") else integer_of(word)


def value_of(word):
    named = {"unset": UNSET, "null": None, "true": True, "false": False}
    return named[word] if word in named else key_of(word)


def cell_of(word):
    parts = word.split(".")
    if parts[0] == "p" and len(parts) == 3:
        return Cell(number_of(parts[1]), key_of(parts[2]), None)
    if parts[0] == "f" and len(parts) == 4:
        return Cell(number_of(parts[1]), key_of(parts[2]), number_of(parts[3]))
    raise NoWord


def level_of(word):
    if word not in LEVELS:
        raise NoWord
    return word


# For each kind of event what follows the session's number: the field, and how its word is read.
FORMS = {
    "open": (),
    "close": (),
    "define": (("name", text_of),),
    "look": (("number", number_of),),
    "begin": (("level", level_of),),
    "read": (("cell", cell_of), ("source", number_of), ("count", number_of), ("word", number_of), ("value", value_of)),
    "own": (("cell", cell_of), ("value", value_of)),
    "write": (("cell", cell_of), ("value", value_of)),
    "commit": (),
    "rollback": (),
    "show": (("number", number_of),),
}


def event_of(line, version, level):
    """The event of a line; in version 1 a transaction has the level of the head."""
    kind, *words = line.split(" ")
    if not words:
        raise NoWord
    session, *words = words
    if kind == "scan":
        if not words:
            raise NoWord
        return Event(kind, number_of(session), table=number_of(words[0]), keys=tuple(key_of(word) for word in words[1:]))
    if kind == "begin" and version == 1:
        words = words + [level] if not words else [""]
    form = FORMS.get(kind)
    if form is None or len(form) != len(words):
        raise NoWord
    return Event(kind, number_of(session), **{field: read(word) for (field, read), word in zip(form, words)})


def cell_place(cell):
    """What cells ascend by: presences before fields, then table, key and column; integers before texts."""
    key = (1, 0, cell.key.encode()) if isinstance(cell.key, str) else (0, cell.key, b"")
    return (cell.column is not None, cell.table, key, cell.column or 0)


def add_initial(initial, line):
    """Adds the cell of an initial line."""
    kind, *words = line.split(" ")
    if kind != "initial" or len(words) != 2:
        raise NoWord
    cell, value = cell_of(words[0]), value_of(words[1])
    if initial and cell_place(next(reversed(initial))) >= cell_place(cell):
        raise NoWord
    if cell.column is None and value is not True or value is UNSET:
        raise NoWord
    if cell.column is not None and Cell(cell.table, cell.key, None) not in initial:
        raise NoWord
    initial[cell] = value


def head_of(line):
    """Version and level."""
    words = line.split(" ")
    if len(words) != 3 or words[0] != "monkey-log" or words[1] not in ("1", "2", "3") or words[2] not in LEVELS:
        raise LogFault("log fault: version")
    return int(words[1]), words[2]


def read_log(data):
    """The log of these bytes, or its fault, with the text that ./monkeydb check has for it."""
    if len(data) > MOST_BYTES:
        raise LogFault("log fault: too long")
    if b"\n" not in data:
        raise LogFault("log fault: cut")
    # bytes that are no UTF-8 become characters that no form has
    *lines, rest = data.decode("utf-8", "surrogateescape").split("\n")
    version, level = head_of(lines[0])
    initial, events, order, ended = {}, [], None, False
    for place, line in enumerate(lines[1:], 2):
        try:
            kind = line.split(" ", 1)[0]
            if ended or order is not None and kind != "end" or version == 3 and place == 2 and kind != "initial":
                raise NoWord
            if kind == "initial" and version == 3 and not events:
                add_initial(initial, line)
            elif kind == "order":
                order = [number_of(word) for word in line.split(" ")[1:]]
            elif line == "end" and order is not None:
                ended = True
            else:
                events.append(event_of(line, version, level))
        except NoWord:
            raise LogFault("log fault: line %d" % place) from None
    if not ended or rest:
        raise LogFault("log fault: cut")
    return Log(version, level, initial, events, order)
