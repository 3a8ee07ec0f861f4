"""Histories of registers, and their log: what the converters of this folder share.

A register is a key with one value. A history is a list of transactions, each of one session, in an order in which those of each session
stand one after another. `log` gives its text, or tells what keeps the history from having one.
"""

import heapq
import sys


class Unusable(Exception):
    """Why a history has no log: a line of text for each cause."""

    def __init__(self, causes):
        super().__init__("\n".join(causes))
        self.causes = causes


class Operation:
    """A read or a write of a register. A read of None found the initial state. The line is that of the input, counted from 1."""

    def __init__(self, is_write, key, value, line):
        self.is_write = is_write
        self.key = key
        self.value = value
        self.line = line


class Transaction:
    """Operations of one session in their order. `committed` is None where the client wasn't told."""

    def __init__(self, session, operations, committed, line):
        self.session = session
        self.operations = operations
        self.committed = committed
        self.line = line

    def writes(self):
        return [it for it in self.operations if it.is_write]

    def reads(self):
        return [it for it in self.operations if not it.is_write]


def told(value):
    """Returns a key or a value as a person reads it."""
    return "the initial state" if value is None else repr(value) if isinstance(value, str) else str(value)


def spelled(value):
    """Returns a key or a value as the log spells it."""
    if value is None:
        return "unset"
    if isinstance(value, bool):
        return "true" if value else "false"
    if isinstance(value, int):
        if not -(2**63) <= value < 2**63:
            raise Unusable([f"{value} isn't an integer of 64 bits"])
        return str(value)
    return "x" + str(value).encode().hex()


def cell(key):
    return f"f.0.{spelled(key)}.1"


class Sources:
    """Which transaction wrote what: each value of a key is written once."""

    def __init__(self, transactions):
        self.of, self.causes = {}, []
        for transaction in transactions:
            for write in transaction.writes():
                at = (write.key, write.value)
                if at in self.of:
                    first = self.of[at][1].line
                    self.causes.append(f"line {write.line}: value {told(write.value)} of key {told(write.key)} was written in line {first} already")
                else:
                    self.of[at] = (transaction, write)

    def source(self, reader, read):
        """Returns the transaction that a read found, None for the initial state, or notes why there is none."""
        if read.value is None:
            return None
        what = f"line {read.line}: value {told(read.value)} of key {told(read.key)}"
        if (read.key, read.value) not in self.of:
            self.causes.append(f"{what} was read, and nobody wrote it")
            return None
        writer, write = self.of[read.key, read.value]
        if writer is reader:
            self.causes.append(f"{what} was read before its own transaction wrote it in line {write.line}")
        elif writer.committed is False:
            self.causes.append(f"{what} was read, and its writer in line {write.line} was rolled back")
        elif [it for it in writer.writes() if it.key == read.key][-1] is not write:
            self.causes.append(f"{what} was read, and its writer in line {write.line} wrote the key again")
        else:
            return writer
        return None


def settle(transactions, sources):
    """Decides of each transaction whose end wasn't told: it is committed exactly where one of its writes was read."""
    read = {(it.key, it.value) for one in transactions if one.committed for it in one.reads()}
    for one in transactions:
        if one.committed is None:
            one.committed = any((it.key, it.value) in read for it in one.writes())
            one.operations = one.writes()


def found(transactions, sources):
    """Returns for each committed transaction its operations with the source of each read; a read of an own write has none."""
    steps = {}
    for one in transactions:
        own, of = {}, []
        for it in one.operations:
            if it.is_write:
                own[it.key] = it
                of.append((it, None, False))
            elif not one.committed:
                continue
            elif it.key in own:
                if own[it.key].value != it.value:
                    sources.causes.append(
                        f"line {it.line}: {told(it.value)} was read of key {told(it.key)}, which its own transaction had set to {told(own[it.key].value)}"
                    )
                of.append((it, None, True))
            else:
                of.append((it, sources.source(one, it), False))
        steps[id(one)] = of
    return steps


def cycle_of(transactions, before):
    """Returns a cycle among the transactions that are left, as a list of (transaction, why the one before it comes first)."""
    left = {id(it) for it in transactions}
    at, seen, walk = transactions[0], {}, []
    while id(at) not in seen:
        seen[id(at)] = len(walk)
        walk.append(at)
        at = next(one for one, _ in before[id(at)] if id(one) in left)
    ring = walk[seen[id(at)] :]
    ring.reverse()
    first = min(range(len(ring)), key=lambda k: ring[k].line)
    return ring[first:] + ring[:first]


def ordered(transactions, steps):
    """Returns the transactions, each after its sources and its session's earlier ones, else as they came."""
    before, last = {}, {}
    for one in transactions:
        before[id(one)] = [(last[one.session], "session order")] if one.session in last else []
        last[one.session] = one
        before[id(one)] += [(source, f"it reads key {told(it.key)} from it") for it, source, _ in steps[id(one)] if source is not None]
    place = {id(one): k for k, one in enumerate(transactions)}
    after, waits = {id(one): [] for one in transactions}, {}
    for one in transactions:
        those = {id(it): it for it, _ in before[id(one)]}
        waits[id(one)] = len(those)
        for it in those:
            after[it].append(one)
    ready = [place[it] for it, number in waits.items() if number == 0]
    heapq.heapify(ready)
    done = []
    while ready:
        one = transactions[heapq.heappop(ready)]
        done.append(one)
        for it in after[id(one)]:
            waits[id(it)] -= 1
            if waits[id(it)] == 0:
                heapq.heappush(ready, place[id(it)])
    if len(done) == len(transactions):
        return done
    ring = cycle_of([it for it in transactions if waits[id(it)] > 0], before)
    causes = ["no transactions one after another have these reads, so not even Read Committed holds: a cycle of session order and reads"]
    for k, one in enumerate(ring):
        earlier = ring[k - 1]
        why = next(why for it, why in before[id(one)] if it is earlier)
        causes.append(f"the transaction of line {one.line} comes after that of line {earlier.line}: {why}")
    raise Unusable(causes)


def log(transactions):
    """Returns the log of a history, of version 1, with the transactions one after another in the order line."""
    sources = Sources(transactions)
    settle(transactions, sources)
    steps = found(transactions, sources)
    if sources.causes:
        raise Unusable(sources.causes)
    sessions, numbers, lines = {}, {}, ["monkey-log 1 rc"]
    for one in transactions:
        if one.session not in sessions:
            sessions[one.session] = len(sessions) + 1
            lines.append(f"open {len(sessions)}")
    if sessions:
        lines.append("define 1 " + spelled("registers"))
    for one in ordered(transactions, steps):
        s = sessions[one.session]
        numbers[id(one)] = len(numbers) + 1
        lines.append(f"begin {s}")
        for it, source, is_own in steps[id(one)]:
            if it.is_write:
                lines.append(f"write {s} {cell(it.key)} {spelled(it.value)}")
            elif is_own:
                lines.append(f"own {s} {cell(it.key)} {spelled(it.value)}")
            else:
                number = numbers[id(source)] if source is not None else 0
                lines.append(f"read {s} {cell(it.key)} {number} 1 0 {spelled(it.value)}")
        lines.append(f"{'commit' if one.committed else 'rollback'} {s}")
    lines.append(" ".join(["order", *map(str, range(len(numbers) + 1))]))
    lines.append("end")
    return "".join(it + "\n" for it in lines)


def run(name, read):
    """Runs a converter: its input is a file or standard input, its output the log. Status 0, 1 for a history that has no log, 2 for wrong usage, 3 for a file."""
    words = sys.argv[1:]
    if len(words) > 1 or words[:1] in (["-h"], ["--help"]):
        print(f"usage: {name} [FILE] > LOG", file=sys.stderr)
        return 0 if words[:1] in (["-h"], ["--help"]) else 2
    try:
        with open(words[0], encoding="utf-8") if words else sys.stdin as file:
            text = file.read()
    except (OSError, UnicodeDecodeError) as why:
        print(f"{name}: {words[0] if words else 'standard input'}: {getattr(why, 'strerror', None) or why}", file=sys.stderr)
        return 3
    try:
        sys.stdout.write(log(read(text)))
    except Unusable as why:
        for cause in why.causes:
            print(f"{name}: {cause}", file=sys.stderr)
        return 1
    return 0
