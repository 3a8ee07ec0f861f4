"""Stands for the server: takes its options, opens a session for each client, writes a log at a stop.

usage: stub_server.py [--fault NAME] serve's options; the faults: start (it ends at once), silent (it doesn't say that it listens), deaf (it
hears no stop), log (it writes none), end (its status is 4).
"""

import argparse
import socket
import sys
import time

parser = argparse.ArgumentParser()
for name in ("fault", "level", "seed", "listen", "log", "setup"):
    parser.add_argument("--" + name)
given = parser.parse_args()
if given.fault == "start":
    print("setup: statement 2 failed: 23505", file=sys.stderr)
    sys.exit(1)
host, _, port = given.listen.rpartition(":")
door = socket.create_server((host, int(port)))
if given.fault != "silent":
    print("listening at %s" % given.listen, file=sys.stderr, flush=True)
sessions = 1 if given.setup else 0
while True:
    link, _ = door.accept()
    said = link.recv(100)
    link.close()
    if said.endswith(b"STOPSTOP"):
        if given.fault == "deaf":
            time.sleep(1000)
        break
    sessions += 1
if given.fault != "log":
    with open(given.log, "w") as file:
        lines = ["open %d" % session for session in range(1, max(sessions, 1) + 1)] if sessions else []
        file.write("\n".join(["monkey-log 2 " + given.level, *lines, "order 0", "end", ""]))
print("served %d sessions" % sessions)
sys.exit(4 if given.fault == "end" else 0)
