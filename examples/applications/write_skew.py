#!/usr/bin/python3 -B
"""Two doctors are on call, and each asks to leave: one of them has to stay.

Each request is a transaction that counts who is on call, and takes its own doctor off where that leaves another one. The two transactions
write different rows, so neither overwrites the other. Its fixture is write_skew.sql.
"""

from sessions import main, together, transaction


def request(doctor):
    def leave(cursor):
        cursor.execute("SELECT count(*) FROM doctor WHERE on_call")
        if cursor.fetchone()[0] < 2:
            return False
        cursor.execute("UPDATE doctor SET on_call = false WHERE id = %s", (doctor,))
        return True

    return lambda connection: transaction(connection, leave)


def application():
    if all(together({"doctor-1": request(1), "doctor-2": request(2)}).values()):
        return "both doctors were allowed to leave"


main(application)
