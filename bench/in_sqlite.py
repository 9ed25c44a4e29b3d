#!/usr/bin/env python3
"""The bank under plain CPython with SQLite: request lines from standard input, reply lines to standard output.

    python3 bench/in_sqlite.py PROGRAM DATABASE < REQUESTS > REPLIES

The accounts stand in a table, and each request with its reply in another. A transaction has 64 requests, in a write-ahead log that is made
safe at each commit, and replies are written behind the commit. As in memory each line can be used and no request fails.
"""

import itertools
import json
import sqlite3
import sys

from in_memory import again, encode, entity_places, load, open_lines, with_entities

REQUESTS_OF_TRANSACTION = 64

TABLES = """
pragma journal_mode = wal;
pragma synchronous = full;
create table account (name text primary key, balance integer not null) without rowid;
create table history (seq integer primary key, id text not null unique, request text not null, reply text not null);
"""


def open_database(file):
    """A new database with the two tables. Transactions begin and end where it is said."""
    database = sqlite3.connect(file, isolation_level=None)
    database.executescript(TABLES)
    return database


class Tables:
    """The accounts in their table, and the history in its own."""

    def __init__(self, classes, database):
        self.account = classes["Account"]
        self.places = entity_places(classes)
        self.execute = database.execute
        self.seq = 0

    def read(self, key):
        """The account of this key, and the balance that stands in the table."""
        row = self.execute("select name, balance from account where name = ?", (key,)).fetchone()
        return self.account(*row), row[1]

    def make(self, values):
        """Makes an account, and gives its key."""
        account = self.account(*values)
        self.execute("insert into account values (?, ?)", (account.name, account.balance))
        return account.__key__()

    def call(self, key, method, values):
        """Calls a method on an account, and writes back the balances that it changed."""
        places = self.places["Account", method]
        found = {name: self.read(name) for name in {key, *(values[place] for place, _ in places)}}
        result = getattr(found[key][0], method)(*with_entities(values, places, lambda _, name: found[name][0]))
        for account, balance in found.values():
            if account.balance != balance:
                self.execute("update account set balance = ? where name = ?", (account.balance, account.name))
        return result

    def run(self, request):
        """Runs a request, and gives what its reply has as `ok`."""
        if "new" in request:
            return self.make(request["new"])
        return self.call(request["key"], request["method"], request["args"])

    def answer(self, number, line):
        """The reply line to a request line."""
        request = json.loads(line)
        kept = self.execute("select request, reply from history where id = ?", (request["id"],)).fetchone()
        if kept is not None:
            return again(kept, line, number)
        self.seq += 1
        reply = encode({"id": request["id"], "ok": self.run(request), "seq": self.seq}) + "\n"
        self.execute("insert into history values (?, ?, ?, ?)", (self.seq, request["id"], line, reply))
        return reply


def serve(classes, database, lines):
    """The reply lines to request lines, a list for each transaction."""
    tables = Tables(classes, database)
    numbered = ((number, line) for number, line in enumerate(lines, 1) if line != "\n")
    while some := list(itertools.islice(numbered, REQUESTS_OF_TRANSACTION)):
        database.execute("begin")
        replies = [tables.answer(number, line) for number, line in some]
        database.execute("commit")
        yield replies


def main():
    classes, database = load(sys.argv[1]), open_database(sys.argv[2])
    with open_lines(0, "r") as lines, open_lines(1, "w") as out:
        for replies in serve(classes, database, lines):
            out.writelines(replies)
            out.flush()
    database.close()


if __name__ == "__main__":
    main()
