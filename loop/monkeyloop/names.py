"""Sessions, transactions, rows, cells and values in words."""

from .history import COMMITTED
from .logs import UNSET
from .telling import plain

LONGEST_TEXT = 40


def count(number, one, many=None):
    """The number with its noun."""
    return "%d %s" % (number, one if number == 1 else many or one + "s")


def value_words(value):
    if value is UNSET or value is None:
        return "unset" if value is UNSET else "null"
    if value is True or value is False:
        return "true" if value else "false"
    if isinstance(value, str):
        return "'%s'" % plain(value if len(value) <= LONGEST_TEXT else value[: LONGEST_TEXT - 3] + "...")
    return str(value)


class Names:
    """The words for what stands in a history. A log tells the names of its tables, and columns by their places, counted from 1."""

    def __init__(self, history):
        self.history = history

    def session(self, session):
        return "session %d" % session

    def table(self, table):
        return plain(self.history.tables[table])

    def column(self, cell):
        return "column %d" % (cell.column + 1)

    def row(self, cell):
        return "%s[%s]" % (self.table(cell.table), value_words(cell.key))

    def cell(self, cell):
        return self.row(cell) if cell.column is None else "%s.%s" % (self.row(cell), self.column(cell))

    def found(self, cell, value):
        """What a read finds, after `reads`."""
        if cell.column is None:
            return "that %s %s" % (self.row(cell), "is there" if value is True else "isn't there")
        return "%s = %s" % (self.cell(cell), value_words(value))

    def state(self, cell, value):
        """The value alone."""
        if cell.column is None:
            return "it is there" if value is True else "it isn't there"
        return value_words(value)

    def transaction(self, number):
        if number == 0:
            return "the state before all"
        return "T%d of %s" % (number, self.session(self.history.transactions[number].session))

    def source(self, number):
        return "T%d" % number if number else "the state before all"


def rows_words(names, pairs):
    """Cells with values as a list of rows: a presence is told by its fields, where there are some."""
    rows = {}
    for cell, value in pairs:
        rows.setdefault(names.row(cell), []).append((cell, value))
    found = []
    for row, cells in rows.items():
        fields = dict.fromkeys("%s = %s" % (names.column(cell), value_words(value)) for cell, value in cells if cell.column is not None)
        if fields:
            found.append("%s: %s" % (row, ", ".join(fields)))
        else:
            found.append(row if cells[-1][1] is True else "no " + row)
    return "; ".join(found)


def committed_before(history, first, second):
    """Whether the first transaction committed before the second began."""
    first = history.transactions[first]
    return first.state == COMMITTED and first.end < history.transactions[second].begin
