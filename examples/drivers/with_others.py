#!/usr/bin/python3
# PyGreSQL, asyncpg and pg8000 (Debian: python3-pygresql, python3-asyncpg, python3-pg8000).
import asyncio
import sys

import asyncpg
import pg
import pg8000

at = dict(host="127.0.0.1", port=int(sys.argv[1]), user="a")


def tell(name, call, *given):
    try:
        print(name, call(*given))
    except Exception as refusal:
        print(name, getattr(refusal, "sqlstate", None) or refusal)


plain = pg.connect(dbname="a", **at)
plain.query("CREATE TABLE pygresql (k bigint PRIMARY KEY, v text)")
plain.query("BEGIN; INSERT INTO pygresql VALUES (1, 'one'); COMMIT")
tell("PyGreSQL, a key again:", plain.query, "INSERT INTO pygresql VALUES (1, NULL)")
print("PyGreSQL", plain.query("SELECT k, v FROM pygresql").getresult())
tell("PyGreSQL, with a value:", plain.query, "SELECT $1", (1,))


async def session():
    connection = await asyncpg.connect(database="a", **at)
    print("asyncpg", await connection.execute("CREATE TABLE asyncpg (k bigint PRIMARY KEY, v text)"))
    async with connection.transaction():
        print("asyncpg", await connection.execute("INSERT INTO asyncpg VALUES (1, 'one')"))
    for name, call in (("a key again:", connection.execute("INSERT INTO asyncpg VALUES (1, NULL)")), ("fetch:", connection.fetch("SELECT 1"))):
        try:
            print("asyncpg,", name, await call)
        except asyncpg.PostgresError as refusal:
            print("asyncpg,", name, refusal.sqlstate)
    print("asyncpg", await connection.execute("SELECT k FROM asyncpg"))
    await connection.close()


asyncio.run(session())
tell("pg8000:", pg8000.connect(database="a", **at).cursor().execute, "SELECT 1")
