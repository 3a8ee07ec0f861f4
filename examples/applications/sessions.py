"""What the applications share: sessions, transactions that are tried again where a server asks for that, and the one line at the end.

The server is that of PGHOST and PGPORT, without them at 127.0.0.1:5433. It needs Debian's python3-psycopg2, which sends simple queries alone.
"""

import os
import sys
import threading

import psycopg2

# What a server answers where a transaction is to be tried again: a serialization failure and a deadlock.
AGAIN = ("40001", "40P01")


def connect(name):
    """A session of its own, with a name of its own."""
    at = {"host": os.environ.get("PGHOST", "127.0.0.1"), "port": os.environ.get("PGPORT", "5433")}
    as_whom = {"user": os.environ.get("PGUSER", "application"), "dbname": os.environ.get("PGDATABASE", "application")}
    return psycopg2.connect(**at, **as_whom, application_name=name)


def transaction(connection, work):
    """Runs work(cursor) as one transaction, commits it, and gives what it gave. A refusal that asks for another try gets one, 100 at most."""
    for _ in range(100):
        try:
            with connection, connection.cursor() as cursor:
                return work(cursor)
        except psycopg2.Error as error:
            if error.pgcode not in AGAIN:
                raise
    raise RuntimeError("a hundred tries were refused")


def together(sessions):
    """Runs each of these functions, by name, in a thread with a session of its own, all at once, and gives what they gave, by name."""
    given = {}
    faults = []

    def run(name, session):
        try:
            connection = connect(name)
            given[name] = session(connection)
            connection.close()
        except Exception as fault:
            faults.append(fault)

    threads = [threading.Thread(target=run, args=pair) for pair in sessions.items()]
    for thread in threads:
        thread.start()
    for thread in threads:
        thread.join()
    if faults:
        raise faults[0]
    return given


def main(application):
    """Runs the application, which says how its assertion broke, or None. The status is 0 where it held, 1 where it broke, else 2."""
    try:
        broke = application()
    except Exception as fault:
        print(f"{sys.argv[0]}: {fault!r}", file=sys.stderr)
        sys.exit(2)
    print(f"broke: {broke}" if broke else "held")
    sys.exit(1 if broke else 0)
