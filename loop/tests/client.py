"""Connects to PGHOST and PGPORT as a session, and ends as its words say: `always 1`, `odd 1` (where MONKEY_SEED is odd), `at 3 127` .."""

import os
import socket
import sys

with socket.create_connection((os.environ["PGHOST"], int(os.environ["PGPORT"]))) as link:
    link.sendall(b"\0\0\0\x10\0\3\0\0user\0a\0\0")
    link.recv(100)
seed = int(os.environ["MONKEY_SEED"])
words = sys.argv[1:]
print("level %s" % os.environ["MONKEY_LEVEL"])
while words:
    when = words.pop(0)
    if when == "at":
        is_meant = seed == int(words.pop(0))
    else:
        is_meant = when == "always" or seed % 2 == 1
    status = int(words.pop(0))
    if is_meant and status:
        print("broke: seed %d" % seed)
        sys.exit(status)
