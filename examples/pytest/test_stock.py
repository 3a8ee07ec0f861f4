"""A shop's stock, sold by two clerks one after another. The first test holds at each level, the second breaks where its seed lets it."""

import os

import psycopg2
import pytest


@pytest.fixture
def monkey_setup():
    return os.path.join(os.path.dirname(__file__), "stock.sql")


def connect(monkeydb, name):
    return psycopg2.connect(monkeydb.url, application_name=name)


def sell(monkeydb, clerk, pieces):
    """Sells so many pieces where there are as many, and says how many it sold."""
    connection = connect(monkeydb, clerk)
    try:
        with connection, connection.cursor() as cursor:
            cursor.execute("SELECT pieces FROM stock WHERE item = 1")
            (left,) = cursor.fetchone()
            if left < pieces:
                return 0
            cursor.execute("UPDATE stock SET pieces = %s WHERE item = 1", (left - pieces,))
            return pieces
    finally:
        connection.close()


def test_a_clerk_sees_its_own_sale(monkeydb):
    connection = connect(monkeydb, "clerk")
    with connection.cursor() as cursor:
        cursor.execute("UPDATE stock SET pieces = 1 WHERE item = 1")
        cursor.execute("SELECT pieces FROM stock WHERE item = 1")
        assert cursor.fetchone() == (1,)
    # closed without a commit, it rolls back: under explore both tests have one server
    connection.close()


def test_no_more_is_sold_than_there_is(monkeydb):
    sold = sell(monkeydb, "clerk-1", 2) + sell(monkeydb, "clerk-2", 2)
    assert sold <= 3
