"""A run in words: what its log counts, each stale read, which transactions ran at once, and the pieces of transactions as they came."""

from collections import namedtuple

from .history import COMMITTED
from .names import Names, committed_before, count, rows_words

MOST_PAIRS = 12
MOST_WRONG = 3
LONGEST_LINE = 200
SILENT = ("look", "define", "show")

# A piece: events of one transaction with none of another between them. is_first and is_last: it begins and ends the transaction.
Piece = namedtuple("Piece", "transaction events is_first is_last")
# A line of what a piece does. kind: stale, read or write. read: of a stale one.
Line = namedtuple("Line", "kind text read")
# Two transactions that ran at once, of which the first read these cells from before the second, which wrote them.
Pair = namedtuple("Pair", "first second cells both_wrote")


def pieces(history, silent):
    """The transactions' pieces in the order of the log; events of the silent kinds stand in none."""
    found, begun = [], set()
    for number, event in enumerate(history.log.events, 1):
        transaction = history.at[number]
        if transaction is None or event.kind in silent:
            continue
        if not found or found[-1].transaction != transaction:
            found.append(Piece(transaction, [], transaction not in begun, False))
            begun.add(transaction)
        found[-1].events.append(number)
    return [piece._replace(is_last=history.transactions[piece.transaction].end == piece.events[-1]) for piece in found]


def pairs(history):
    """Committed transactions of two sessions that were pending at once, of which the first read from before the second what that wrote."""
    found = []
    sources = {}
    for read in history.reads:
        sources.setdefault(read.transaction, {}).setdefault(read.cell, read.source)
    committed = [it for it in history.transactions[1:] if it.state == COMMITTED]
    for first in committed:
        for second in committed:
            if first.session == second.session or first.begin > second.end or second.begin > first.end:
                continue
            if first.past >> second.number & 1:
                continue
            cells = [cell for cell, source in sources.get(first.number, {}).items() if cell in second.writes and source != second.number]
            if cells:
                found.append(Pair(first.number, second.number, cells, all(cell in first.writes for cell in cells)))
    return found


def is_same(first, second):
    """Whether two values are one; true isn't 1."""
    return type(first) is type(second) and first == second


class Story:
    def __init__(self, history, everything=False):
        self.history, self.names, self.everything = history, Names(history), everything
        self.reads = {read.event: read for read in history.reads}
        self.stale = {read.event: read for read in history.stale()}
        self.pairs = pairs(history)
        self.pieces = pieces(history, SILENT if everything else SILENT + ("own", "scan"))

    def counts(self):
        history = self.history
        return "%s, %s at %s; %s, %d with a choice, %d stale; %s between open transactions." % (
            count(len(history.sessions), "session"),
            count(len(history.transactions) - 1, "transaction"),
            history.log.level,
            count(len(history.reads), "read"),
            sum(len(read.offer) > 1 for read in history.reads),
            len(self.stale),
            count(history.switches(), "switch", "switches"),
        )

    def wrong_lines(self):
        """Where the log counts other offers than the axioms give."""
        found = []
        wrong = self.history.wrong()
        for read in wrong[:MOST_WRONG]:
            offer = ", ".join(self.names.source(number) for number in read.offer) or "none"
            found.append("Event %d: the log counts %d offered, the axioms %d (%s)." % (read.event, read.count, len(read.offer), offer))
            if read.source not in read.offer:
                found[-1] += " The source, %s, isn't among them." % self.names.source(read.source)
        if len(wrong) > MOST_WRONG:
            found.append(".. and %d more such reads." % (len(wrong) - MOST_WRONG))
        return found

    def stale_words(self, read):
        """What a stale read found, of whom, and what it missed."""
        text = "%s, of %s. Newest: %s, of %s" % (
            self.names.found(read.cell, read.value),
            self.names.transaction(read.source),
            self.missed(read),
            self.names.transaction(read.newest),
        )
        if committed_before(self.history, read.newest, read.transaction):
            text += ", committed before T%d began" % read.transaction
        return text

    def missed(self, read):
        """The newest write's value, which a stale read didn't take."""
        newest = self.history.value(read.newest, read.cell)
        return "the same" if is_same(newest, read.value) else self.names.state(read.cell, newest)

    def stale_lines(self):
        return [
            "%s in T%d reads %s (event %d)." % (self.names.session(read.session), read.transaction, self.stale_words(read), read.event)
            for read in self.stale.values()
        ]

    def pair_line(self, pair):
        cells = ", ".join(map(self.names.cell, pair.cells[:3])) + (" .." if len(pair.cells) > 3 else "")
        session = lambda number: self.names.session(self.history.transactions[number].session)
        return "T%d (%s) and T%d (%s) ran at once: T%d read %s without T%d, and %s wrote %s." % (
            pair.first,
            session(pair.first),
            pair.second,
            session(pair.second),
            pair.first,
            cells,
            pair.second,
            "both" if pair.both_wrote else "T%d" % pair.second,
            "it" if len(pair.cells) == 1 else "them",
        )

    def pair_lines(self):
        lines = [self.pair_line(pair) for pair in self.pairs]
        if self.everything or len(lines) <= MOST_PAIRS:
            return lines
        return lines[:MOST_PAIRS] + [".. and %d more" % (len(lines) - MOST_PAIRS)]

    def misses_first_session(self):
        """Whether a stale read took the state before all where the first session of the log had written."""
        transactions = self.history.transactions
        return any(read.source == 0 and transactions[read.newest].session == 1 for read in self.stale.values())

    def title(self, piece):
        transaction = self.history.transactions[piece.transaction]
        text = "T%d, %s" % (transaction.number, self.names.session(transaction.session))
        if not piece.is_first:
            text += ", goes on"
        if transaction.level != self.history.log.level:
            text += " at " + transaction.level
        return text + self.ending(piece)

    def ending(self, piece):
        if not piece.is_last:
            return ""
        return ", commits" if self.history.transactions[piece.transaction].state == COMMITTED else ", rolls back"

    def lines(self, piece):
        """What a piece does: stale reads each in a line, other reads by source, writes by row."""
        found, held, inserted = [], [], set()

        def flush():
            if held:
                kind, what, _ = held[0]
                found.append(Line(kind, "%s %s" % (what, rows_words(self.names, [pair for _, _, pair in held])), None))
                held.clear()

        for number in piece.events:
            event = self.history.log.events[number - 1]
            if number in self.stale:
                flush()
                found.append(Line("stale", "STALE: reads %s" % self.stale_words(self.stale[number]), self.stale[number]))
                continue
            if event.kind == "write" and event.cell.column is None and event.value is True:
                inserted.add(event.cell)
            if event.kind == "scan":
                flush()
                found.append(Line("read", "lists %s: %s" % (self.names.table(event.table), count(len(event.keys), "key")), None))
                continue
            kind, what = self.deed(number, event, inserted)
            if kind is None:
                continue
            if held and held[0][:2] != (kind, what):
                flush()
            # a row that is deleted is told by its name alone
            held.append((kind, what, (event.cell, True if what == "deletes" else event.value)))
        flush()
        return found

    def deed(self, number, event, inserted):
        """The kind of an event's line and its first words; the kind is None where it isn't told."""
        if event.kind == "write":
            row = event.cell._replace(column=None)
            if event.cell.column is None and event.value is not True:
                return "write", "deletes"
            return "write", "inserts" if row in inserted else "sets"
        if event.kind == "read":
            read = self.reads[number]
            if event.cell.column is None and event.value is True and self.row_follows(number):
                return None, ""
            what = "reads of %s" % self.names.source(read.source)
            if read.latest != read.source:
                what += " (T%d is newer, and the level doesn't offer it)" % read.latest
            return "read", what + ":"
        if event.kind == "own":
            return "read", "reads its own"
        return None, ""

    def row_follows(self, number):
        """Whether the session's next event reads a field of the row whose presence this one reads."""
        event = self.history.log.events[number - 1]
        for later in self.history.log.events[number:]:
            if later.session == event.session:
                return later.kind in ("read", "own") and later.cell.column is not None and later.cell[:2] == event.cell[:2]
        return False

    def text(self):
        found = [self.counts(), ""] + self.wrong_lines()
        if self.stale:
            found.append("Stale reads:")
            found += ["  " + line for line in self.stale_lines()]
        else:
            found.append("No read is stale: what transactions did at once alone makes this history.")
        if self.misses_first_session():
            found.append("  Hint: what session 1 made was missed. Rows that every test starts from belong into --setup, which no read misses.")
        if self.pairs:
            found.append("Transactions that ran at once:")
            found += ["  " + line for line in self.pair_lines()]
        found.append("")
        for piece in self.pieces:
            found.append(self.title(piece))
            for line in self.lines(piece):
                text = line.text
                if line.kind != "stale" and not self.everything and len(text) > LONGEST_LINE:
                    text = text[: LONGEST_LINE - 3] + " .."
                found.append("  %s %s" % ("!" if line.kind == "stale" else " ", text))
        return "\n".join(found) + "\n"


def story(case, everything=False):
    """The story of a case, after the line that its command told."""
    told = case.told + "\n" if case.told else ""
    return told + Story(case.history, everything).text()
