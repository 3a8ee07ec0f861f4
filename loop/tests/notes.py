"""Writes a note in one session and reads it in the next; the status is 1 where the new words aren't found."""

import sys

from plain_session import Session

writer = Session()
writer.query("UPDATE note SET words = 'new' WHERE id = 1")
writer.close()
reader = Session()
found = reader.query("SELECT words FROM note WHERE id = 1")
reader.close()
if found != ["new"]:
    print("broke: found %s" % found)
    sys.exit(1)
