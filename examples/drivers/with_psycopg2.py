#!/usr/bin/python3
# psycopg2 (Debian: python3-psycopg2): simple queries, always. Parameters are written into the text.
import sys

import psycopg2


def refused(name, call, *given):
    try:
        print(name, call(*given))
    except psycopg2.Error as error:
        print(name, error.pgcode)
        connection.rollback()


connection = psycopg2.connect(host="127.0.0.1", port=sys.argv[1], user="a", dbname="a")
cursor = connection.cursor()
cursor.execute("CREATE TABLE psycopg2 (k bigint PRIMARY KEY, v text)")
cursor.execute("INSERT INTO psycopg2 VALUES (%s, %s)", (1, "it's"))
connection.commit()
refused("a key again:", cursor.execute, "INSERT INTO psycopg2 VALUES (%s, %s)", (1, None))
cursor.executemany("INSERT INTO psycopg2 VALUES (%s, %s)", [(2, "b"), (3, "c")])
cursor.execute("SELECT k, v FROM psycopg2 WHERE k < %s ORDER BY k", (3,))
print(cursor.fetchall())
cursor.execute("SELECT sum(k), count(*), max(v) FROM psycopg2")
print(cursor.fetchall())
connection.commit()
refused("a cursor of the server:", connection.cursor("c").execute, "SELECT 1")
refused("a float:", cursor.execute, "SELECT %s", (1.5,))
connection.set_session(isolation_level="SERIALIZABLE", autocommit=True)
refused("autocommit:", cursor.execute, "UPDATE psycopg2 SET v = 'x' WHERE k = 1")
connection.close()
