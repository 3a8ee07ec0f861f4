"""Four sessions at once with blocks of reads, writes and scans over two tables, as MONKEY_SEED says; the status is always 1."""

import os
import random
import sys
import threading

from plain_session import Refused, Session

KEYS = 4


def statement(chance):
    table, key = chance.choice("tu"), chance.randrange(KEYS)
    return chance.choice(
        (
            f"SELECT v FROM {table} WHERE k = {key}",
            f"SELECT count(*) FROM {table}",
            f"SELECT k, v FROM {table} ORDER BY k",
            f"INSERT INTO {table} VALUES ({key}, {chance.randrange(100)})",
            f"UPDATE {table} SET v = v + 1 WHERE k = {key}",
            f"DELETE FROM {table} WHERE k = {key}",
        )
    )


def act(number):
    chance = random.Random(int(os.environ["MONKEY_SEED"]) * 10 + number)
    session = Session()
    for _ in range(6):
        block = ["BEGIN"] + [statement(chance) for _ in range(chance.randrange(1, 6))] + [chance.choice(("COMMIT", "COMMIT", "COMMIT", "ROLLBACK"))]
        for text in block:
            try:
                session.query(text)
            except Refused:
                pass
    session.close()


threads = [threading.Thread(target=act, args=(number,)) for number in range(4)]
for thread in threads:
    thread.start()
for thread in threads:
    thread.join()
sys.exit(1)
