#!/usr/bin/env python3
"""The HTTP service of examples/service over SQLite in the place of StateFlow: what tools/run_service.py holds it against.

usage: PYTHONPATH=python:examples/service sqlite_service.py FOLDER

It serves the requests of examples/service/bank.py alone, one at a time, each in a transaction that is safe on the disk before its reply: the accounts in a
table, and each id with its request and reply in another.
"""

import json
import os
import signal
import sqlite3
import sys
import threading
from concurrent.futures import Future

from service import ADDRESS, Service
from stateflow.client import Refused, Reply

TABLES = """
pragma journal_mode = wal;
pragma synchronous = full;
create table account (name text primary key, cents integer not null) without rowid;
create table history (seq integer primary key, id text not null unique, request text not null, reply text not null);
"""


class Failure(Exception):
    """A request that fails, with the name of its failure and the message."""


class Bank:
    """The accounts in their table, with the methods of bank.py."""

    def __init__(self, database):
        self.execute = database.execute

    def make(self, name, cents):
        if self.execute("select 1 from account where name = ?", (name,)).fetchone():
            raise Failure("AlreadyExists", "")
        self.execute("insert into account values (?, ?)", (name, cents))
        return name

    def balance(self, name):
        row = self.execute("select cents from account where name = ?", (name,)).fetchone()
        if row is None:
            raise Failure("NoEntity", "")
        return row[0]

    def deposit(self, name, cents):
        if cents <= 0:
            raise Failure("AssertionError", "nothing to put")
        cents += self.balance(name)
        self.execute("update account set cents = ? where name = ?", (cents, name))
        return cents

    def transfer(self, name, cents, to):
        if self.balance(name) < cents:
            raise Failure("ValueError", "not enough money")
        self.deposit(to, cents)
        self.execute("update account set cents = cents - ? where name = ?", (cents, name))
        return self.balance(name)


class Database:
    """Answers requests as the client of StateFlow does."""

    is_ready, pid, children = True, os.getpid(), 1

    def __init__(self, folder):
        self.database = sqlite3.connect(os.path.join(folder, "bank.sqlite"), isolation_level=None, check_same_thread=False)
        self.database.executescript(TABLES)
        self.bank = Bank(self.database)
        self.turn = threading.Lock()
        self.seq = 0

    def send(self, request):
        promise = Future()
        with self.turn:
            promise.set_result(self.reply(request))
        return promise

    def reply(self, request):
        kept = self.database.execute("select request, reply from history where id = ?", (request.id,)).fetchone()
        if kept is None:
            return self.first_reply(request)
        if kept[0] != request.line:
            raise Refused("id reused")
        return Reply(**json.loads(kept[1]))

    def first_reply(self, request):
        """Runs a request to its commit. What a failed one has written is taken back, and its reply kept."""
        self.database.execute("begin immediate")
        self.database.execute("savepoint one")
        try:
            outcome = {"ok": self.run(json.loads(request.line))}
        except Failure as failure:
            self.database.execute("rollback to one")
            outcome = dict(zip(("error", "message"), failure.args))
        self.seq += 1
        reply = {"id": request.id, "seq": self.seq, **outcome}
        self.database.execute("insert into history values (?, ?, ?, ?)", (self.seq, request.id, request.line, json.dumps(reply)))
        self.database.execute("commit")
        return Reply(**reply)

    def run(self, asked):
        if "new" in asked:
            return self.bank.make(*asked["new"])
        return getattr(self.bank, asked["method"])(asked["key"], *asked["args"])


def main():
    if len(sys.argv) != 2:
        print(__doc__.split("\n\n")[1], file=sys.stderr)
        return 2
    service = Service(0, Database(sys.argv[1]))
    signal.signal(signal.SIGTERM, lambda *_: service.stop())
    print(f"ready on http://{ADDRESS}:{service.server_port}", flush=True)
    service.serve_forever(poll_interval=0.05)
    service.server_close()
    return 0


if __name__ == "__main__":
    sys.exit(main())
