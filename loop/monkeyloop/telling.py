"""What of an output tells best what went wrong."""

import os
import re

# as pytest, unittest, Python and the applications of the examples tell it
TELLS = re.compile(r"E  +\S|FAILED\b|broke\b|(?:[A-Za-z_]+\.)*[A-Za-z_]*(?:Error|Exception|Failure|panic)\b")
LONGEST = 160
# so many bytes of an output are looked at
TAIL = 65536


def tail(path):
    """The end of an output."""
    with open(path, "rb") as file:
        file.seek(0, os.SEEK_END)
        file.seek(max(0, file.tell() - TAIL))
        return file.read().decode(errors="replace")


def plain(text):
    """The text with every character that isn't printed written out, as \\n."""
    return "".join(c if c.isprintable() else c.encode("unicode_escape", "surrogatepass").decode() for c in text)


def telling_line(output):
    """The first line that says what failed, or the last that says anything."""
    lines = [line.strip() for line in output.splitlines() if line.strip()]
    found = next((line for line in lines if TELLS.match(line)), lines[-1] if lines else "")
    return plain(found[:LONGEST])
