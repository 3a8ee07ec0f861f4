"""A history, event by event, with what each read is offered by the axioms of its transaction's level.

Transactions are numbered as they begin; 0 is the state before all. A set of them is an integer with a bit for each. A read is offered those
writes with which some order of all transactions still exists (docs/isolation.md). What such an order has to keep doesn't depend on the order:
each transaction stands after the earlier ones of its session and after those from which it reads, and where a read took a cell from one
transaction, each other that wrote the cell and that the read sees stands before that one. So there is an order where this has no cycle.
"""

from collections import namedtuple

from .logs import UNSET, LogFault

# offer: the writes that the axioms permit, ascending. newest: the one of them that committed last. latest: the cell's latest committed write.
Read = namedtuple("Read", "event session transaction cell source count offer newest latest value")
PENDING, COMMITTED, ROLLED_BACK = "pending", "committed", "rolled back"


class Transaction:
    def __init__(self, number, session, level, begin, precedes, past):
        self.number, self.session, self.level, self.begin = number, session, level, begin
        self.state, self.end = PENDING, None
        # those before it in its session and those from which it reads; all from which a chain of such steps leads to it
        self.precedes, self.past = precedes, past
        self.sources = 0
        self.reads, self.scans = [], []
        # the last value that it wrote to each cell, and by table the keys of the presences among them, none after a rollback
        self.writes, self.keys = {}, {}


def bit(number):
    return 1 << number


def members(numbers):
    """The transactions of a set, ascending."""
    while numbers:
        low = numbers & -numbers
        yield low.bit_length() - 1
        numbers ^= low


class Order:
    """Which transactions have to stand before which, closed under steps."""

    def __init__(self):
        self.before, self.after = [0], [0]

    def add(self, before):
        """The next transaction, after these, which hold all that stands before them."""
        number = len(self.before)
        self.before.append(before)
        self.after.append(0)
        for other in members(before):
            self.after[other] |= bit(number)

    def link(self, firsts, second):
        """Each of the first ones stands before the second."""
        before = firsts
        for first in members(firsts):
            before |= self.before[first]
        if not before & ~self.before[second]:
            return
        after = bit(second) | self.after[second]
        for other in members(after):
            self.before[other] |= before
        for other in members(before):
            self.after[other] |= after

    def permits(self, demands):
        """Whether no cycle comes of it that for each second of these pairs the firsts stand before it."""
        left = dict(demands)
        while left:
            reached = 0
            for second in left:
                reached |= bit(second) | self.after[second]
            free = [second for second, firsts in left.items() if not firsts & reached]
            if not free:
                return False
            for second in free:
                del left[second]
        return True


class History:
    def __init__(self, log):
        self.log = log
        first = Transaction(0, 0, log.level, 0, 0, 0)
        first.state, first.end, first.writes = COMMITTED, 0, log.initial
        self.transactions, self.tables, self.sessions = [first], [], {}
        self.order = Order()
        # by cell the committed writers but 0; by session its last transaction and the pending one
        self.writers, self.last, self.pending = {}, {}, {}
        self.reads = []
        # for each event, from 1, the transaction that it is of, or None
        self.at = [None]
        for number, event in enumerate(log.events, 1):
            self.push(number, event)

    def fault(self, number, text):
        return LogFault("event %d doesn't fit what comes before it: %s" % (number, text))

    def push(self, number, event):
        session = event.session
        if event.kind == "open":
            if session != len(self.sessions) + 1:
                raise self.fault(number, "session %d isn't the next one" % session)
            self.sessions[session] = True
        elif not self.sessions.get(session):
            raise self.fault(number, "session %d isn't open" % session)
        pending = self.pending.get(session)
        if event.kind in ("scan", "read", "own", "write", "commit", "rollback"):
            if pending is None:
                raise self.fault(number, "session %d has no transaction" % session)
        elif event.kind in ("begin", "close") and pending is not None:
            raise self.fault(number, "session %d has a transaction" % session)
        table = event.cell.table if event.cell else event.table
        if table is not None and table >= len(self.tables):
            raise self.fault(number, "table %d isn't defined" % table)
        if event.kind == "define":
            self.tables.append(event.name)
        elif event.kind == "close":
            self.sessions[session] = False
        elif event.kind == "begin":
            self.begin(number, session, event.level)
            pending = self.pending[session]
        elif event.kind == "scan":
            pending.scans.append((event.table, frozenset(event.keys)))
        elif event.kind == "read":
            self.read(number, event, pending)
        elif event.kind == "write":
            pending.writes[event.cell] = event.value
            if event.cell.column is None:
                pending.keys.setdefault(event.cell.table, set()).add(event.cell.key)
        elif event.kind in ("commit", "rollback"):
            self.end(number, pending, event.kind)
        self.at.append(pending.number if pending else None)

    def begin(self, number, session, level):
        earlier, last = self.last.get(session, bit(0)), None
        if earlier != bit(0):
            last = self.transactions[earlier.bit_length() - 1]
        past = bit(0) if last is None else last.past | bit(last.number)
        before = bit(0) if last is None else self.order.before[last.number] | bit(last.number)
        mine = Transaction(len(self.transactions), session, level, number, earlier, past)
        self.transactions.append(mine)
        self.order.add(before)
        self.last[session] = earlier | bit(mine.number)
        self.pending[session] = mine

    def end(self, number, mine, kind):
        mine.end, mine.state = number, COMMITTED if kind == "commit" else ROLLED_BACK
        del self.pending[mine.session]
        if mine.state == COMMITTED:
            for cell in mine.writes:
                self.writers[cell] = self.writers.get(cell, 0) | bit(mine.number)
        else:
            mine.keys = {}

    def read(self, number, event, mine):
        cell, source = event.cell, event.source
        if cell in mine.writes:
            raise self.fault(number, "the transaction has written the cell itself")
        writers = self.writers.get(cell, 0) | bit(0)
        if source >= len(self.transactions) or not writers & bit(source):
            raise self.fault(number, "the source isn't a committed writer of the cell")
        offer = [writer for writer in members(writers) if self.order.permits(self.demands(mine, cell, writer))]
        latest = self.newest(members(writers))
        newest = self.newest(offer) if offer else latest
        self.reads.append(Read(number, mine.session, mine.number, cell, source, event.count, offer, newest, latest, event.value))
        demands = self.demands(mine, cell, source)
        if self.order.permits(demands):
            for second, firsts in demands.items():
                self.order.link(firsts, second)
            self.order.link(bit(source), mine.number)
        mine.reads.append((cell, source))
        mine.sources |= bit(source)
        mine.precedes |= bit(source)
        mine.past |= bit(source) | self.transactions[source].past

    def newest(self, numbers):
        """The one that committed last; the state before all is the oldest."""
        return max(numbers, key=lambda number: self.transactions[number].end)

    def demands(self, mine, cell, source):
        """What comes to be demanded where the transaction reads the cell from this source: for a transaction those that stand before it."""
        found = {}

        def demand(second, firsts):
            # 0 stands before all by itself
            firsts &= ~(bit(second) | bit(0))
            if firsts:
                found[second] = found.get(second, 0) | firsts

        if mine.level == "rc":
            demand(source, mine.sources & self.writers.get(cell, 0))
            return found
        if mine.level == "ra":
            seen = mine.precedes | bit(source)
            new = seen & ~mine.precedes
        else:
            seen = mine.past | bit(source) | self.transactions[source].past
            new = seen & ~mine.past
        demand(source, seen & self.writers.get(cell, 0))
        # what is newly seen was seen by the transaction's earlier reads too
        for other, taken in mine.reads if new else ():
            demand(taken, new & self.writers.get(other, 0))
        for table, listed in mine.scans if new else ():
            # a key that a scan didn't list was read from 0
            demand(0, sum(bit(writer) for writer in members(new) if self.transactions[writer].keys.get(table, set()) - listed))
        return found

    def value(self, number, cell):
        """The value that a transaction wrote to the cell."""
        return self.transactions[number].writes.get(cell, False if cell.column is None else UNSET)

    def stale(self):
        """The reads that didn't take the newest write of their offer."""
        return [read for read in self.reads if read.source != read.newest]

    def wrong(self):
        """The reads whose count isn't what the axioms give, or whose source they don't permit."""
        return [read for read in self.reads if read.count != len(read.offer) or read.source not in read.offer]

    def switches(self):
        """How often an event is of a transaction that began before and isn't the one of the event before."""
        begun, last, count = set(), None, 0
        for number in self.at:
            if number is not None:
                count += number != last and number in begun
                begun.add(number)
                last = number
        return count
