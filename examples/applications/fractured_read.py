#!/usr/bin/python3 -B
"""Clerks move money between two accounts, and an auditor adds them up: every audit has to find 200.

Each transfer is a transaction that takes from one account and gives to the other, and each audit is one that reads both. An audit, or a
transfer, that sees one account before a transfer and the other one after it has seen half of that transfer. Its fixture is
fractured_read.sql.
"""

from sessions import main, together, transaction

TRANSFERS = 3
AUDITS = 6


def clerk(source, target):
    def transfer(cursor):
        cursor.execute("UPDATE account SET balance = balance - 10 WHERE id = %s", (source,))
        cursor.execute("UPDATE account SET balance = balance + 10 WHERE id = %s", (target,))

    return lambda connection: [transaction(connection, transfer) for _ in range(TRANSFERS)]


def audit(cursor):
    total = 0
    for account in (1, 2):
        cursor.execute("SELECT balance FROM account WHERE id = %s", (account,))
        total += cursor.fetchone()[0]
    return total


def auditor(connection):
    return [transaction(connection, audit) for _ in range(AUDITS)]


def application():
    totals = together({"clerk-1": clerk(1, 2), "clerk-2": clerk(2, 1), "auditor": auditor})["auditor"]
    if any(total != 200 for total in totals):
        return f"the audits found {totals}"


main(application)
