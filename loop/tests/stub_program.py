#!/usr/bin/env python3
"""A program that serves until it is asked to stop, and notes in its folder what it is asked. Where a file deaf lies there it isn't asked, and where
none is called listens nobody listens."""

import os
import sys
import time

ROOM = os.path.dirname(os.path.abspath(__file__))


def has(name):
    return os.path.exists(os.path.join(ROOM, name))


def note(name, words):
    with open(os.path.join(ROOM, "written"), "w") as file:
        file.write(" ".join(words))
    os.rename(os.path.join(ROOM, "written"), os.path.join(ROOM, name))


def stop(words):
    if not has("listens"):
        return 6
    note("asked", words)
    return 0


def serve(words):
    note("serving", words)
    while not has("asked") or has("deaf"):
        time.sleep(0.02)
    print("served")
    return 3


if __name__ == "__main__":
    sys.exit({"stop": stop, "serve": serve}[sys.argv[1]](sys.argv[2:]))
