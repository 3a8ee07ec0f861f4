#!/usr/bin/python3 -B
"""An author posts, a friend who sees the post replies, and whoever sees the reply has to see its post.

The three sessions act by turns. A post or a reply that isn't seen yet is nobody's fault: the friend and the reader look again, 20 times at
most. Its fixture is effect_without_cause.sql.
"""

from sessions import connect, main, transaction

POSTS = 3
LOOKS = 20


def post(number):
    return lambda cursor: cursor.execute("INSERT INTO post VALUES (%s, 'who comes along?')", (number,))


def reply(number):
    def work(cursor):
        cursor.execute("SELECT body FROM post WHERE id = %s", (number,))
        if cursor.fetchone() is None:
            return False
        cursor.execute("INSERT INTO reply VALUES (%s, 'I do')", (number,))
        return True

    return work


def look(number):
    """What the reader saw: whether the reply is there, and whether its post is."""

    def work(cursor):
        cursor.execute("SELECT body FROM reply WHERE post = %s", (number,))
        if cursor.fetchone() is None:
            return False, False
        cursor.execute("SELECT body FROM post WHERE id = %s", (number,))
        return True, cursor.fetchone() is not None

    return work


def application():
    author, friend, reader = connect("author"), connect("friend"), connect("reader")
    for number in range(1, POSTS + 1):
        transaction(author, post(number))
        any(transaction(friend, reply(number)) for _ in range(LOOKS))
        for _ in range(LOOKS):
            has_reply, has_post = transaction(reader, look(number))
            if has_reply and not has_post:
                return f"a reply to post {number} is there, and the post isn't"
            if has_reply:
                break


main(application)
