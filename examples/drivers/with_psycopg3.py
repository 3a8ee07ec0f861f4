#!/usr/bin/python3
# psycopg 3 (Debian: python3-psycopg): a ClientCursor sends simple queries. Blocks that the driver begins itself are extended ones.
import sys

import psycopg

given = dict(host="127.0.0.1", port=sys.argv[1], user="a", dbname="a", cursor_factory=psycopg.ClientCursor)


def refused(name, call, *given):
    try:
        print(name, call(*given))
    except psycopg.Error as error:
        print(name, error.sqlstate)


def block():
    with connection.transaction():
        pass


connection = psycopg.connect(autocommit=True, **given)
cursor = connection.cursor()
cursor.execute("CREATE TABLE psycopg3 (k bigint PRIMARY KEY, v text)")
cursor.execute("BEGIN")
cursor.execute("INSERT INTO psycopg3 VALUES (%s, %s)", (1, "it's"))
cursor.execute("COMMIT")
refused("a key again:", cursor.execute, "INSERT INTO psycopg3 VALUES (%s, %s)", (1, None))
print(cursor.execute("SELECT k, v FROM psycopg3 WHERE v = %s", ("it's",)).fetchall())
refused("connection.transaction():", block)
refused("executemany:", cursor.executemany, "INSERT INTO psycopg3 VALUES (%s, %s)", [(2, "b")])
refused("without autocommit:", psycopg.connect(**given).execute, "SELECT 1")
refused("a plain cursor with a value:", psycopg.Cursor(connection).execute, "SELECT %s", (1,))
print(cursor.execute("SELECT count(*) FROM psycopg3").fetchall())
connection.close()
