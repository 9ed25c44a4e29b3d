"""The client: PYTHONPATH=python STATEFLOW=./stateflow python3 python/tests/test_client.py, at the top of the repository.

Without a program what needs none is tried, and the rest is skipped.
"""

import json
import logging
import os
import signal
import sys
import tempfile
import threading
import time
import unittest
from concurrent.futures import ThreadPoolExecutor
from pathlib import Path
from typing import Any, List, Tuple

from stateflow import client
from stateflow.client import Client, Failed, Refused, Reply, Stopped, StoreBusy, Value, creation, find_program, method_call
from stateflow.pytest_plugin import served
from tests.programs import has_program

MOST_KILLS = 40

ENDS_AT_A_REQUEST = """
import sys
for number, line in enumerate(sys.stdin, 1):
    if line == "!\\n":
        print('{"bad":"not json","line":' + str(number) + "}", flush=True)
    elif line != "\\n":
        sys.exit(5)
"""

BANK = """
from stateflow import entity

@entity
class Account:
    def __init__(self, name: str, balance: int):
        self.name: str = name
        self.balance: int = balance
    def __key__(self) -> str:
        return self.name
    def put(self, amount: int) -> int:
        self.balance += amount
        return self.balance
    def give(self, amount: int, to: 'Account') -> int:
        assert amount > 0, "nothing"
        if self.balance < amount:
            raise ValueError("not enough")
        to.put(amount)
        self.balance -= amount
        return self.balance
"""


def setUpModule() -> None:
    logging.getLogger("stateflow").setLevel(logging.ERROR)


class Lines(unittest.TestCase):
    def test_a_creation_and_a_call_are_lines_of_json(self) -> None:
        made = creation("Account", ["ann", 100], "1")
        self.assertEqual(made.line, '{"id":"1","class":"Account","new":["ann",100]}')
        called = method_call("Account", "ann", "give", [30, "bob"], "2")
        self.assertEqual(called.line, '{"id":"2","class":"Account","key":"ann","method":"give","args":[30,"bob"]}')

    def test_each_request_without_an_id_gets_its_own(self) -> None:
        ids = {creation("Account", []).id for _ in range(100)}
        self.assertEqual(len(ids), 100)
        self.assertTrue(all(0 < len(id) <= 64 for id in ids))

    def test_ints_that_numbers_of_json_do_not_reach_are_texts(self) -> None:
        rows: List[Any] = [
            (2**64 - 1, 2**64 - 1),
            (2**64, str(2**64)),
            (-(2**63), -(2**63)),
            (-(2**63) - 1, str(-(2**63) - 1)),
            (True, True),
            (None, None),
            ([1, (2**70,)], [1, [str(2**70)]]),
        ]
        for given, wanted in rows:
            with self.subTest(given=given):
                self.assertEqual(json.loads(creation("C", [given]).line)["new"], [wanted])

    def test_a_reply_gives_its_result_or_raises_its_failure(self) -> None:
        self.assertEqual(Reply(id="1", seq=1, ok=[1, None]).result(), [1, None])
        with self.assertRaises(Failed) as raised:
            Reply(id="2", seq=2, error="ValueError", message="not enough").result()
        self.assertEqual(str(raised.exception), "ValueError: not enough")
        self.assertEqual(raised.exception.reply.seq, 2)

    def test_a_program_that_is_missing_is_told_with_what_to_do(self) -> None:
        before = os.environ.get("STATEFLOW")
        os.environ["STATEFLOW"] = "/no/such/program"
        try:
            with self.assertRaisesRegex(FileNotFoundError, "set STATEFLOW"):
                find_program()
        finally:
            os.environ.pop("STATEFLOW")
            if before is not None:
                os.environ["STATEFLOW"] = before


class Room(unittest.TestCase):
    """A class file and a folder for its store."""

    def setUp(self) -> None:
        room = tempfile.TemporaryDirectory()
        self.addCleanup(room.cleanup)
        self.file = Path(room.name) / "bank.py"
        self.file.write_text(BANK, encoding="utf-8")
        self.store = Path(room.name) / "store"
        self.store.mkdir()


class OtherPrograms(Room):
    """What is no StateFlow in the program's place."""

    def test_a_program_that_ends_at_each_request_is_given_up(self) -> None:
        program = self.store / "fails"
        program.write_text(f"#!{sys.executable}\n{ENDS_AT_A_REQUEST}", encoding="utf-8")
        program.chmod(0o755)
        bank = Client(self.file, self.store, program=str(program), starts=3)
        with self.assertRaises(Stopped) as raised:
            bank.create("Account", "ann", 1, timeout=60)
        self.assertEqual((raised.exception.status, bank.children), (5, 3))

    def test_a_program_that_ends_at_once_is_told_with_its_status(self) -> None:
        with self.assertRaises(Stopped) as raised:
            Client(self.file, program="/bin/false")
        self.assertEqual(raised.exception.status, 1)

    def test_a_program_of_other_lines_is_told(self) -> None:
        with self.assertRaisesRegex(Stopped, "no program of StateFlow"):
            Client("-e", program="/bin/echo")

    def test_a_program_that_is_not_there_is_told(self) -> None:
        with self.assertRaisesRegex(Stopped, "doesn't start"):
            Client(self.file, program="/no/such/program")

    def test_a_folder_of_a_store_that_is_not_there_is_told(self) -> None:
        with self.assertRaises(FileNotFoundError):
            Client(self.file, self.store / "none", program="/bin/true")


@unittest.skipUnless(has_program(), "no program: set STATEFLOW to one")
class Serving(Room):
    def serve(self, *options: str) -> Client:
        bank = Client(self.file, self.store, options=options)
        self.addCleanup(bank.close)
        return bank

    def test_entities_are_made_and_called(self) -> None:
        bank = self.serve()
        self.assertEqual(bank.create("Account", "ann", 100), "ann")
        bank.create("Account", "bob", 20)
        self.assertEqual(bank.call("Account", "ann", "give", 30, "bob"), 70)
        self.assertEqual(bank.call("Account", "bob", "put", 0), 50)

    def test_a_failure_is_raised_and_has_changed_nothing(self) -> None:
        bank = self.serve()
        bank.create("Account", "ann", 100)
        rows: List[Tuple[List[Value], str]] = [
            ([30, "eve"], "NoEntity"),
            ([0, "ann"], "AssertionError: nothing"),
            ([101, "ann"], "ValueError: not enough"),
        ]
        for arguments, told in rows:
            with self.subTest(told):
                with self.assertRaises(Failed) as raised:
                    bank.call("Account", "ann", "give", *arguments)
                self.assertEqual(str(raised.exception), told)
        self.assertEqual(bank.call("Account", "ann", "put", 0), 100)

    def test_a_refusal_comes_to_the_one_who_asked(self) -> None:
        bank = self.serve()
        bank.create("Account", "ann", 100, id="1")
        rows: List[Any] = [
            ("unknown class", lambda: bank.create("Purse")),
            ("unknown method", lambda: bank.call("Account", "ann", "burn")),
            ("argument count", lambda: bank.call("Account", "ann", "put")),
            ("argument type", lambda: bank.call("Account", "ann", "put", "x")),
            ("id reused", lambda: bank.create("Account", "bob", 1, id="1")),
            ("not a request", lambda: bank.create("Account", "bob", 1, id="x" * 65)),
            ("line too long", lambda: bank.create("Account", "b" * 2**20, 1)),
        ]
        with ThreadPoolExecutor(len(rows)) as threads:
            asked = [(told, threads.submit(ask)) for told, ask in rows]
            for told, answer in asked:
                with self.subTest(told), self.assertRaisesRegex(Refused, told):
                    answer.result(30)

    def test_the_same_request_again_has_the_same_reply(self) -> None:
        bank = self.serve()
        bank.create("Account", "ann", 100)
        again = method_call("Account", "ann", "put", [5], "x")
        replies = [bank.send(again).result(30) for _ in range(3)]
        self.assertEqual(replies, [Reply(id="x", seq=2, ok=105)] * 3)

    def test_an_id_that_waits_stands_for_one_line(self) -> None:
        bank = self.serve()
        promises = [bank.send(creation("Account", ["ann", 1], "x")) for _ in range(2)]
        self.assertEqual({promise.result(30).seq for promise in promises}, {1})
        with self.assertRaisesRegex(Refused, "id reused"):
            bank.send(creation("Account", ["bob", 2], "x")).result(30)

    def test_threads_that_ask_one_entity_are_all_answered(self) -> None:
        for options in ((), ("--batch", "1")):
            with self.subTest(options), served() as serve:
                bank = serve(self.file, *options)
                bank.create("Account", "ann", 0)
                with ThreadPoolExecutor(20) as threads:
                    balances = list(threads.map(lambda _: bank.call("Account", "ann", "put", 1), range(100)))
                self.assertEqual(sorted(balances), list(range(1, 101)))

    def test_a_close_lets_what_was_sent_be_answered(self) -> None:
        bank = self.serve()
        promises = [bank.send(creation("Account", [f"a{place}", 1])) for place in range(500)]
        bank.close()
        self.assertEqual(sorted(promise.result(0).seq for promise in promises), list(range(1, 501)))
        with self.assertRaisesRegex(Stopped, "closed"):
            bank.create("Account", "late", 1)

    def test_what_was_answered_is_answered_again_by_the_next_client(self) -> None:
        with Client(self.file, self.store) as bank:
            bank.create("Account", "ann", 100, id="1")
            bank.call("Account", "ann", "put", 5, id="2")
        bank = self.serve()
        self.assertEqual(bank.send(method_call("Account", "ann", "put", [5], "2")).result(30), Reply(id="2", seq=2, ok=105))
        self.assertEqual(bank.call("Account", "ann", "put", 0), 105)

    def test_under_kills_each_request_runs_once(self) -> None:
        bank = self.serve("--every", "3")
        accounts = [f"a{place}" for place in range(10)]
        for name in accounts:
            bank.create("Account", name, 100)
        done = threading.Event()
        killer = threading.Thread(target=kill_again_and_again, args=(bank, done))
        killer.start()
        try:
            with ThreadPoolExecutor(10) as threads:
                list(threads.map(lambda place: bank.call("Account", accounts[place % 10], "give", 1, accounts[place % 7]), range(300)))
                puts = list(threads.map(lambda place: bank.call("Account", "a9", "put", 1), range(50)))
            while bank.children == 1:
                bank.call("Account", "a0", "put", 0)
        finally:
            done.set()
            killer.join()
        self.assertEqual(len(set(puts)), 50)
        self.assertGreater(bank.children, 1)
        balances = [bank.call("Account", name, "put", 0) for name in accounts]
        self.assertEqual(sum(balance for balance in balances if isinstance(balance, int)), 1050)

    def test_a_child_that_was_killed_without_a_store_ends_the_client(self) -> None:
        bank = Client(self.file)
        self.addCleanup(bank.close)
        bank.create("Account", "ann", 100)
        kill(bank)
        with self.assertRaises(Stopped) as raised:
            for _ in range(1000):
                bank.call("Account", "ann", "put", 0)
                time.sleep(0.01)
        self.assertEqual(raised.exception.status, -signal.SIGKILL)

    def test_a_store_of_another_text_is_told(self) -> None:
        self.serve().close()
        self.file.write_text(BANK + "# more\n", encoding="utf-8")
        with self.assertRaisesRegex(Stopped, "another program") as raised:
            self.serve()
        self.assertEqual(raised.exception.status, 7)

    def test_a_fault_of_the_text_is_told(self) -> None:
        self.file.write_text("import json\n", encoding="utf-8")
        with self.assertRaisesRegex(Stopped, "1:8: Unexpected") as raised:
            self.serve()
        self.assertEqual(raised.exception.status, 1)

    def test_one_client_alone_has_a_store(self) -> None:
        first = self.serve()
        with self.assertRaisesRegex(StoreBusy, "another process"):
            Client(self.file, self.store, lock_seconds=0)
        first.close()
        self.serve().create("Account", "ann", 1)

    def test_a_child_whose_client_has_gone_keeps_the_lock_until_its_end(self) -> None:
        handle = client._locked(self.store, 0)
        child = client._Child(["/bin/cat"], (handle,))
        os.close(handle)
        with self.assertRaises(StoreBusy):
            client._locked(self.store, 0)
        child.close_input()
        child.process.wait()
        os.close(client._locked(self.store, 5))
        for stream in (child.process.stdout, child.process.stderr):
            assert stream is not None
            stream.close()

    def test_the_fixture_serves_files_each_on_its_own_folder(self) -> None:
        with served() as serve:
            banks = [serve(self.file), serve(self.file, "--batch", "1")]
            self.assertEqual([bank.create("Account", "ann", 1) for bank in banks], ["ann", "ann"])


def kill(bank: Client) -> None:
    pid = bank.pid
    assert pid is not None
    os.kill(pid, signal.SIGKILL)


def kill_again_and_again(bank: Client, done: threading.Event) -> None:
    for _ in range(MOST_KILLS):
        if done.wait(0.1):
            return
        if bank.is_ready:
            kill(bank)


if __name__ == "__main__":
    unittest.main()
