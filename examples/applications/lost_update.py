#!/usr/bin/python3 -B
"""Customers draw numbers from a counter, two each: no two draws may give the same number.

Each draw is a transaction that reads the counter and writes it one higher. Where two transactions read the same value, one of the two updates
is lost, and two customers have the same number. Its fixture is lost_update.sql.
"""

from sessions import main, together, transaction

CUSTOMERS = 2
DRAWS = 2


def draw(cursor):
    cursor.execute("SELECT next FROM counter WHERE id = 1")
    (number,) = cursor.fetchone()
    cursor.execute("UPDATE counter SET next = %s WHERE id = 1", (number + 1,))
    return number


def customer(connection):
    return [transaction(connection, draw) for _ in range(DRAWS)]


def application():
    customers = {f"customer-{number}": customer for number in range(1, CUSTOMERS + 1)}
    drawn = sorted(number for numbers in together(customers).values() for number in numbers)
    if drawn != list(range(1, CUSTOMERS * DRAWS + 1)):
        return f"the numbers drawn are {drawn}"


main(application)
