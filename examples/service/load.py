#!/usr/bin/env python3
"""A load on the service of bank.py, which kills its child meanwhile and then looks at the sums.

usage: load.py --port N [--work transfers|deposits] [--requests N] [--threads N] [--kill-every SECONDS]

`transfers` moves money between a hundred accounts, and all the accounts together have to keep what they had. `deposits` puts money into one account, which has
to have it all at the end. Each request is to have one place in the history, and some are asked a second time, which must have the same answer. Prints a line
of figures. The status is 0 where all holds.
"""

import argparse
import contextlib
import http.client
import json
import os
import random
import signal
import sys
import threading
import time
import uuid
from concurrent.futures import ThreadPoolExecutor
from dataclasses import dataclass
from typing import Any, Dict, List, Optional, Tuple

ACCOUNTS = 100
OPENED_WITH = 1000
ASKED_AGAIN = 10


@dataclass(frozen=True)
class Asked:
    """A request as it is sent, with its key."""

    path: str
    arguments: List[Any]
    key: str


@dataclass(frozen=True)
class Answered:
    asked: Asked
    status: int
    members: Dict[str, Any]
    seconds: float


@dataclass(frozen=True)
class Figures:
    """What a load came to; wrong says what doesn't hold, a line each."""

    requests: int
    seconds: float
    middle: float
    slowest_hundredth: float
    kills: int
    wrong: List[str]

    def told(self) -> str:
        rate = self.requests / self.seconds
        times = f"p50 {self.middle * 1000:.0f} ms, p99 {self.slowest_hundredth * 1000:.0f} ms"
        return f"{self.requests} requests, {rate:.0f} a second, {times}, {self.kills} kills, " + ("; ".join(self.wrong) or "all sums right")


class Caller:
    """Calls the service, from each thread by a connection of its own."""

    def __init__(self, port: int) -> None:
        self.port = port
        self.own = threading.local()

    def ask(self, asked: Asked) -> Answered:
        begun = time.monotonic()
        body = json.dumps(asked.arguments)
        status, members = self.exchange("POST", asked.path, body, {"Idempotency-Key": asked.key})
        return Answered(asked, status, members, time.monotonic() - begun)

    def child(self) -> Optional[int]:
        """The process of the service's child, or None where it isn't ready."""
        status, members = self.exchange("GET", "/ready", None, {})
        return members["pid"] if status == 200 else None

    def exchange(self, method: str, path: str, body: Any, headers: Dict[str, str]) -> Tuple[int, Dict[str, Any]]:
        """Sends and receives; a connection that was closed while nothing was asked is opened anew."""
        for is_last in (False, True):
            if not hasattr(self.own, "connection"):
                self.own.connection = http.client.HTTPConnection("127.0.0.1", self.port, timeout=120)
            try:
                self.own.connection.request(method, path, body, headers)
                response = self.own.connection.getresponse()
                return response.status, json.loads(response.read())
            except (ConnectionError, http.client.HTTPException):
                self.own.connection.close()
                if is_last:
                    raise
        raise AssertionError("one of both tries returns or raises")


def new_key() -> str:
    return uuid.uuid4().hex


def creations(names: List[str]) -> List[Asked]:
    return [Asked("/Account", [name, OPENED_WITH], new_key()) for name in names]


def transfers(names: List[str], count: int, draw: random.Random) -> List[Asked]:
    pairs = (draw.sample(names, 2) for _ in range(count))
    return [Asked(f"/Account/{giver}/transfer", [draw.randint(1, 10), taker], new_key()) for giver, taker in pairs]


def deposits(name: str, count: int) -> List[Asked]:
    return [Asked(f"/Account/{name}/deposit", [1], new_key()) for _ in range(count)]


def kill_children(caller: Caller, seconds: float, done: threading.Event) -> int:
    """Kills the service's child, where it is ready, each time so many seconds have gone, and answers how often."""
    kills = 0
    while not done.wait(seconds):
        child = caller.child()
        if child is not None:
            # (the last kill may not have been noticed yet)
            with contextlib.suppress(ProcessLookupError):
                os.kill(child, signal.SIGKILL)
                kills += 1
    return kills


def faults(caller: Caller, answered: List[Answered], wanted: int, names: List[str]) -> List[str]:
    """What of the promises doesn't hold."""
    refused = [answer for answer in answered if answer.status != 200]
    places = {answer.members.get("seq") for answer in answered}
    balances = [caller.ask(Asked(f"/Account/{name}/balance", [], new_key())).members.get("ok", 0) for name in names]
    changed = [answer for answer in answered[::ASKED_AGAIN] if caller.ask(answer.asked).members != answer.members]
    told = [
        (refused, f"{len(refused)} requests weren't done"),
        (len(places) != len(answered), f"{len(answered)} requests have {len(places)} places"),
        (sum(balances) != wanted, f"the accounts have {sum(balances)} in place of {wanted}"),
        (changed, f"{len(changed)} answers differ the second time"),
    ]
    return [line for holds, line in told if holds]


def run(port: int, work: str, requests: int, threads: int, kill_every: float, seed: int = 1) -> Figures:
    caller, mark = Caller(port), new_key()[:8]
    names = [f"{mark}-{place}" for place in range(ACCOUNTS if work == "transfers" else 1)]
    asked = transfers(names, requests, random.Random(seed)) if work == "transfers" else deposits(names[0], requests)
    wanted = len(names) * OPENED_WITH + (0 if work == "transfers" else requests)
    done = threading.Event()
    with ThreadPoolExecutor(threads) as askers, ThreadPoolExecutor(1) as killer:
        list(askers.map(caller.ask, creations(names)))
        begun = time.monotonic()
        kills = killer.submit(kill_children, caller, kill_every, done) if kill_every else None
        try:
            answered = list(askers.map(caller.ask, asked))
        finally:
            done.set()
        seconds = time.monotonic() - begun
    times = sorted(answer.seconds for answer in answered)
    wrong = faults(caller, answered, wanted, names)
    return Figures(requests, seconds, times[len(times) // 2], times[len(times) * 99 // 100], kills.result() if kills else 0, wrong)


def main() -> int:
    words = argparse.ArgumentParser(description=__doc__, formatter_class=argparse.RawDescriptionHelpFormatter)
    words.add_argument("--port", type=int, required=True)
    words.add_argument("--work", choices=["transfers", "deposits"], default="transfers")
    words.add_argument("--requests", type=int, default=2000)
    words.add_argument("--threads", type=int, default=20)
    words.add_argument("--kill-every", type=float, default=0, metavar="SECONDS", help="0, where it isn't given: no kills")
    if len(sys.argv) == 1:
        words.print_help()
        return 0
    asked = words.parse_args()
    figures = run(asked.port, asked.work, asked.requests, asked.threads, asked.kill_every)
    print(figures.told())
    return 1 if figures.wrong else 0


if __name__ == "__main__":
    sys.exit(main())
