"""A session of the server at PGHOST and PGPORT, by PostgreSQL's simple queries, in the standard library alone."""

import os
import socket
import struct


class Refused(Exception):
    """The server answered with an error."""


class Session:
    def __init__(self):
        self.link = socket.create_connection((os.environ["PGHOST"], int(os.environ["PGPORT"])), timeout=30)
        self.link.sendall(struct.pack("!II", 16, 196608) + b"user\0a\0\0")
        self.answers = self.link.makefile("rb")
        self.rows_until_ready()

    def rows_until_ready(self):
        """The fields of all rows that come before the server is ready again."""
        found, fault = [], None
        while True:
            kind = self.answers.read(1)
            body = self.answers.read(struct.unpack("!I", self.answers.read(4))[0] - 4)
            if kind == b"E":
                fault = body
            if kind == b"D":
                found.append(body[6:].decode())
            if kind == b"Z":
                if fault:
                    raise Refused(fault)
                return found

    def query(self, text):
        text = text.encode() + b"\0"
        self.link.sendall(b"Q" + struct.pack("!I", len(text) + 4) + text)
        return self.rows_until_ready()

    def close(self):
        self.link.sendall(b"X\0\0\0\4")
        self.link.close()
