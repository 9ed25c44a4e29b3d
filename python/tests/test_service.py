"""The service of examples/service: PYTHONPATH=python STATEFLOW=./stateflow python3 python/tests/test_service.py, at the top of the repository.

All is skipped without a program.
"""

import contextlib
import http.client
import json
import os
import signal
import subprocess
import sys
import tempfile
import threading
import unittest
from concurrent.futures import ThreadPoolExecutor
from pathlib import Path
from typing import Any, Dict, Iterator, Optional, Tuple

from tests.programs import has_program

TOP = Path(__file__).resolve().parents[2]
EXAMPLE = TOP / "examples" / "service"


class Service:
    """A service that runs, and its port."""

    def __init__(self, process: "subprocess.Popen[str]") -> None:
        self.process = process
        assert process.stdout is not None
        self.port = int(process.stdout.readline().rsplit(":", 1)[-1])

    def ask(self, path: str, body: str, id: str = "") -> Tuple[int, Dict[str, Any]]:
        connection = http.client.HTTPConnection("127.0.0.1", self.port, timeout=60)
        try:
            connection.request("POST", path, body, {"Idempotency-Key": id} if id else {})
            response = connection.getresponse()
            return response.status, json.loads(response.read())
        finally:
            connection.close()

    def end_by(self, number: int) -> int:
        self.process.send_signal(number)
        return self.process.wait(60)


def start(store: str) -> "subprocess.Popen[str]":
    words = [sys.executable, str(EXAMPLE / "service.py"), str(EXAMPLE / "bank.py"), "--store", store, "--port", "0"]
    environment = {**os.environ, "PYTHONPATH": str(TOP / "python")}
    return subprocess.Popen(words, env=environment, stdout=subprocess.PIPE, stderr=subprocess.PIPE, text=True)


@contextlib.contextmanager
def service(store: str) -> Iterator[Service]:
    with start(store) as process:
        try:
            yield Service(process)
        finally:
            process.kill()


@unittest.skipUnless(has_program(), "no program: set STATEFLOW to one")
class Serving(unittest.TestCase):
    def setUp(self) -> None:
        room = tempfile.TemporaryDirectory()
        self.addCleanup(room.cleanup)
        self.store = room.name

    def test_answers_have_their_statuses(self) -> None:
        rows = [
            ("/Account", '["ann",100]', "1", 200, {"ok": "ann", "seq": 1}),
            ("/Account", '["b/b",20]', "2", 200, {"ok": "b/b", "seq": 2}),
            ("/Account/ann/transfer", '[30,"b/b"]', "3", 200, {"ok": 70, "seq": 3}),
            ("/Account/b%2Fb/balance", "[]", "4", 200, {"ok": 50, "seq": 4}),
            ("/Account/ann/transfer", '[30,"b/b"]', "3", 200, {"ok": 70, "seq": 3}),
            ("/Account", '["ann",100]', "5", 409, {"error": "AlreadyExists", "message": "", "seq": 5}),
            ("/Account/eve/balance", "[]", "6", 404, {"error": "NoEntity", "message": "", "seq": 6}),
            ("/Account/ann/deposit", "[0]", "7", 422, {"error": "AssertionError", "message": "nothing to put", "seq": 7}),
            ("/Account/ann/balance", "[]", "3", 409, {"bad": "id reused"}),
            ("/Purse", "[]", "", 404, {"bad": "unknown class"}),
            ("/Account/ann/burn", "[]", "", 404, {"bad": "unknown method"}),
            ("/Account/ann/deposit", "[]", "", 400, {"bad": "argument count"}),
            ("/Account/ann/deposit", "[1.5]", "", 400, {"bad": "argument type"}),
            ("/Account/ann/deposit", "{}", "", 400, {"bad": "the body is a JSON array of the arguments"}),
            ("/Account/ann", "[]", "", 400, {"bad": "the path is /CLASS or /CLASS/KEY/METHOD"}),
        ]
        with service(self.store) as bank:
            for path, body, id, status, members in rows:
                with self.subTest(path=path, body=body):
                    self.assertEqual(bank.ask(path, body, id), (status, members))

    def test_a_stop_ends_it_well(self) -> None:
        for number in (signal.SIGTERM, signal.SIGINT):
            with self.subTest(number), service(self.store) as bank:
                self.assertEqual(bank.end_by(number), 0)

    def test_what_was_answered_stays_where_the_service_is_killed(self) -> None:
        with service(self.store) as bank:
            made = bank.ask("/Account", '["ann",100]', "1")
            bank.end_by(signal.SIGKILL)
        with service(self.store) as bank:
            self.assertEqual(bank.ask("/Account", '["ann",100]', "1"), made)

    def test_the_next_service_goes_on_from_one_that_is_killed_under_load(self) -> None:
        def put(bank: Service, place: int) -> Optional[Dict[str, Any]]:
            try:
                return bank.ask("/Account/ann/deposit", "[1]", f"put {place}")[1]
            except (OSError, http.client.HTTPException):
                return None

        with service(self.store) as bank, ThreadPoolExecutor(10) as threads:
            bank.ask("/Account", '["ann",0]', "1")
            before = threads.map(put, [bank] * 100, range(100))
            threading.Timer(0.3, bank.process.kill).start()
            first = list(before)
        with service(self.store) as bank, ThreadPoolExecutor(10) as threads:
            second = list(threads.map(put, [bank] * 100, range(100)))
            self.assertEqual(bank.ask("/Account/ann/balance", "[]")[1]["ok"], 100)
        self.assertEqual([answer for answer in first if answer], [again for answer, again in zip(first, second) if answer])

    def test_a_bad_store_is_told(self) -> None:
        for name in ("snap0", "snap1"):
            (Path(self.store) / name).write_bytes(b"\xa5\x00")
        with start(self.store) as process:
            said = process.communicate()
        self.assertEqual((process.returncode, said), (1, ("", "service: stateflow: bad store: snap0 at 0\n")))


if __name__ == "__main__":
    unittest.main()
