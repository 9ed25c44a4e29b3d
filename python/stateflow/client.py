"""A client of a program that StateFlow runs: a child process serves a class file, and any number of threads ask it.

    with Client("bank.py", store="bank.store") as bank:
        bank.create("Account", "ann", 100)
        bank.create("Account", "bob", 20)
        bank.call("Account", "ann", "give", 30, "bob")

Requests of all threads go down one pipe in groups. Behind each group stand an empty line, at which the child runs a batch, and a line that is no JSON, which
it refuses once the batch is over: so the next group is written when the last one has been run, and gathers what came meanwhile.

With a store, a child that ends is started again, and what had no reply yet is sent again under the same ids, so each request runs once. A caller that may
itself be stopped gives its own ids, and asks again with them. The folder of the store is locked while the client or its child is there.
"""

import fcntl
import json
import logging
import os
import shutil
import subprocess
import threading
import time
import uuid
from concurrent.futures import Future
from dataclasses import dataclass, field
from pathlib import Path
from types import TracebackType
from typing import IO, Any, Dict, List, Optional, Sequence, Tuple, Type, Union

Value = Union[None, bool, int, str, Sequence["Value"]]
"""What stands in a line: an entity is its key, and an int of more than 64 bits comes back as a text of its digits."""

LEAST_NUMBER, GREATEST_NUMBER = -(2**63), 2**64 - 1
BARRIER = "!"
GROUP = 256
LASTING_STATUSES = (1, 2, 6, 7, 10)
PAUSE_SECONDS = 0.1
CLOSED = "the client is closed"

_logger = logging.getLogger("stateflow")


class Failed(Exception):
    """The request failed in the program, and changed nothing."""

    def __init__(self, reply: "Reply") -> None:
        super().__init__(f"{reply.error}: {reply.message}" if reply.message else reply.error)
        self.reply = reply


class Refused(Exception):
    """The line is no request of the program: an unknown class or method, wrong arguments, or a used id."""

    def __init__(self, reason: str) -> None:
        super().__init__(reason)
        self.reason = reason


class Stopped(Exception):
    """The program doesn't run any more; status is that of the child, below zero where a signal ended it."""

    def __init__(self, status: int, said: str) -> None:
        super().__init__(said or f"the program ended with status {status}")
        self.status = status
        self.said = said

    def anew(self) -> "Stopped":
        """The same, to be raised in another thread."""
        return Stopped(self.status, self.said)


class StoreBusy(Exception):
    """Another process has the folder of the store."""


@dataclass(frozen=True)
class Request:
    """A request line, and the id that it is answered by."""

    id: str
    line: str


@dataclass(frozen=True)
class Reply:
    """A reply line: ok is the result where error is empty."""

    id: str
    seq: int
    ok: Value = None
    error: str = ""
    message: str = ""

    def result(self) -> Value:
        """The result, or the failure raised."""
        if self.error:
            raise Failed(self)
        return self.ok


def creation(class_name: str, arguments: Sequence[Value], id: Optional[str] = None) -> Request:
    """The request that makes an entity; without an id it gets a new one."""
    return _request(id, {"class": class_name, "new": _spelt(arguments)})


def method_call(class_name: str, key: str, method: str, arguments: Sequence[Value], id: Optional[str] = None) -> Request:
    """The request that calls a method of an entity; without an id it gets a new one."""
    return _request(id, {"class": class_name, "key": key, "method": method, "args": _spelt(arguments)})


def _request(id: Optional[str], members: Dict[str, object]) -> Request:
    name = uuid.uuid4().hex if id is None else id
    return Request(name, json.dumps({"id": name, **members}, separators=(",", ":")))


def _spelt(value: Value) -> object:
    """A value as it stands in a line: an int that JSON's numbers don't reach is a text."""
    if isinstance(value, int) and not LEAST_NUMBER <= value <= GREATEST_NUMBER:
        return str(value)
    if isinstance(value, (list, tuple)):
        return [_spelt(item) for item in value]
    return value


def find_program() -> str:
    """The program: what the variable STATEFLOW names, or the one on the path."""
    found = shutil.which(os.environ.get("STATEFLOW", "stateflow"))
    if found is None:
        raise FileNotFoundError("no program of StateFlow: set STATEFLOW to one, such as ./stateflow or ./try at the top of the repository")
    return os.path.abspath(found)


@dataclass(frozen=True)
class _Asked:
    """A request without a reply yet, and the promise of its reply."""

    request: Request
    promise: "Future[Reply]" = field(default_factory=Future)


class _Child:
    """One run of the program, with the number of each line that went in."""

    def __init__(self, words: Sequence[str], handles: Tuple[int, ...]) -> None:
        pipe = subprocess.PIPE
        # (apart from the caller, whom alone an interrupt at the terminal is to reach)
        self.process = subprocess.Popen(words, stdin=pipe, stdout=pipe, stderr=pipe, pass_fds=handles, start_new_session=True)
        self.lines_written = 0
        self.last_barrier = 0
        self.last_passed = 0
        self.ids: Dict[int, str] = {}
        self.said = ""
        self.ended = False
        self.ready = False
        self.has_answered = False

    @property
    def is_through(self) -> bool:
        """Whether all that was written has been read, and the batch behind it was run."""
        return self.last_passed == self.last_barrier

    @property
    def status(self) -> int:
        return self.process.wait()

    @property
    def got_on(self) -> bool:
        """Whether it answered anything before its end, or was killed as it served: so that the next one may get further."""
        return self.has_answered or (self.ready and self.status < 0)

    def numbered(self, group: Sequence[_Asked]) -> bytes:
        """The lines of a group with its barrier, which are counted as written."""
        lines = [asked.request.line for asked in group]
        self.ids = {self.lines_written + place: asked.request.id for place, asked in enumerate(group, 1)}
        lines += ["", BARRIER]
        self.lines_written += len(lines)
        self.last_barrier = self.lines_written
        return "".join(line + "\n" for line in lines).encode()

    def write(self, text: bytes) -> None:
        """Writes into a child that may have gone; that it has is seen at its output."""
        try:
            self._input.write(text)
            self._input.flush()
        except OSError:
            pass

    def close_input(self) -> None:
        try:
            self._input.close()
        except OSError:
            pass

    def take_barrier(self, line: int) -> None:
        self.last_passed = line
        self.ready = True

    def listen(self) -> None:
        """Hands the lines of the error stream on, and keeps the last one."""
        assert self.process.stderr is not None
        with self.process.stderr as stream:
            for line in stream:
                self.said = line.decode(errors="replace").strip()
                _logger.info("%s", self.said)

    @property
    def _input(self) -> IO[bytes]:
        assert self.process.stdin is not None
        return self.process.stdin


def _locked(folder: Union[str, Path], seconds: float) -> int:
    """A handle of the folder that has its lock. A child of another client, which still runs on, is waited for."""
    handle = os.open(folder, os.O_RDONLY)
    until = time.monotonic() + seconds
    while True:
        try:
            fcntl.flock(handle, fcntl.LOCK_EX | fcntl.LOCK_NB)
            return handle
        except BlockingIOError:
            if time.monotonic() >= until:
                os.close(handle)
                raise StoreBusy(f"another process has the store {folder}: stop it, or name another folder") from None
            time.sleep(PAUSE_SECONDS / 2)


class Client:
    """Serves a class file, by one child at a time.

    `options` are further words of `run`, such as `("--batch", "1")`. `starts` is how many children in a row may end by themselves without an answer,
    or be killed before they were ready, and `lock_seconds` how long another run on the store is waited for.
    """

    def __init__(
        self,
        file: Union[str, Path],
        store: Union[None, str, Path] = None,
        *,
        program: Optional[str] = None,
        options: Sequence[str] = (),
        starts: int = 10,
        lock_seconds: float = 10.0,
    ) -> None:
        self._words = [program or find_program(), "run", str(file), *options]
        self._may_restart = store is not None
        self._handles: Tuple[int, ...] = ()
        if store is not None:
            self._words += ["--store", str(store)]
            self._handles = (_locked(store, lock_seconds),)
        self._starts_allowed = starts
        self._changed = threading.Condition()
        self._asked: Dict[str, _Asked] = {}
        self._unsent: List[_Asked] = []
        self._child: Optional[_Child] = None
        self._children = 0
        self._closing = False
        self._end: Optional[Stopped] = None
        self._server = threading.Thread(target=self._serve, name="stateflow", daemon=True)
        self._server.start()
        self._await_ready()

    def __enter__(self) -> "Client":
        return self

    def __exit__(self, kind: Optional[Type[BaseException]], error: Optional[BaseException], trace: Optional[TracebackType]) -> None:
        self.close()

    @property
    def pid(self) -> Optional[int]:
        """The number of the child's process."""
        child = self._child
        return None if child is None else child.process.pid

    @property
    def children(self) -> int:
        """How many children were started so far."""
        return self._children

    @property
    def is_ready(self) -> bool:
        """Whether the child has begun to serve, and not ended."""
        with self._changed:
            return self._child is not None and self._child.ready and not self._child.ended

    def create(self, class_name: str, *arguments: Value, id: Optional[str] = None, timeout: Optional[float] = None) -> Value:
        """Makes an entity, and gives its key. Raises Failed, Refused or Stopped."""
        return self.send(creation(class_name, arguments, id)).result(timeout).result()

    def call(
        self, class_name: str, key: str, method: str, *arguments: Value, id: Optional[str] = None, timeout: Optional[float] = None
    ) -> Value:
        """Calls a method, and gives its result. Raises Failed, Refused or Stopped."""
        return self.send(method_call(class_name, key, method, arguments, id)).result(timeout).result()

    def send(self, request: Request) -> "Future[Reply]":
        """Sends a request, and promises its reply. An id that waits is taken for the same line alone, which then has the same reply."""
        with self._changed:
            if self._end is not None:
                raise self._end.anew()
            if self._closing:
                raise Stopped(0, CLOSED)
            asked = self._asked.get(request.id)
            if asked is None:
                asked = self._enter(request)
            elif asked.request != request:
                raise Refused("id reused")
            return asked.promise

    def close(self) -> None:
        """Lets all that was sent be answered, closes the child's input, and waits for its end."""
        with self._changed:
            self._closing = True
            self._changed.notify_all()
        self._server.join()

    def _enter(self, request: Request) -> _Asked:
        asked = _Asked(request)
        # (so that no caller can cancel what another may wait for)
        asked.promise.set_running_or_notify_cancel()
        self._asked[request.id] = asked
        self._unsent.append(asked)
        self._changed.notify_all()
        return asked

    def _await_ready(self) -> None:
        with self._changed:
            self._changed.wait_for(lambda: self._end is not None or (self._child is not None and self._child.ready))
            if self._end is not None:
                raise self._end.anew()

    def _serve(self) -> None:
        """Runs children until the client is closed or can't go on, and then tells so to all that wait."""
        end = Stopped(-1, "the client broke off")
        try:
            end = self._run_children()
        except OSError as error:
            end = Stopped(-1, f"the program doesn't start: {error}")
        finally:
            self._settle(end)

    def _settle(self, end: Stopped) -> None:
        """Gives the store free, and tells all that wait, and all that will ask, that nothing is served any more."""
        for handle in self._handles:
            os.close(handle)
        with self._changed:
            self._end = end
            left, self._asked = list(self._asked.values()), {}
            self._changed.notify_all()
        for asked in left:
            asked.promise.set_exception(end.anew())

    def _run_children(self) -> Stopped:
        in_vain = 0
        while True:
            child = self._start_child()
            self._feed(child)
            in_vain = 0 if child.got_on else in_vain + 1
            if self._closing and not self._asked:
                return Stopped(0, CLOSED)
            if child.status in LASTING_STATUSES or not self._may_restart or in_vain == self._starts_allowed:
                return Stopped(child.status, child.said)
            _logger.warning("the program ended with status %d, and is started again", child.status)
            time.sleep(PAUSE_SECONDS * in_vain)

    def _start_child(self) -> _Child:
        """Starts a child, which is to be sent all that has no reply."""
        child = _Child(self._words, self._handles)
        with self._changed:
            self._child = child
            self._children += 1
            self._unsent = list(self._asked.values())
        listener = threading.Thread(target=child.listen, name="stateflow errors", daemon=True)
        listener.start()
        threading.Thread(target=self._read, args=(child, listener), name="stateflow replies", daemon=True).start()
        return child

    def _feed(self, child: _Child) -> None:
        """Writes group by group, until the child has ended or all is written at the close; then its input is closed, and its end awaited."""
        group: Optional[List[_Asked]] = []
        while group is not None:
            with self._changed:
                text = child.numbered(group)
            child.write(text)
            group = self._next_group(child)
        child.close_input()
        with self._changed:
            self._changed.wait_for(lambda: child.ended)

    def _next_group(self, child: _Child) -> Optional[List[_Asked]]:
        """What goes into the child next: nothing where those that wait in it have to run on, and None where no more will come."""
        with self._changed:
            self._changed.wait_for(lambda: child.ended or (child.is_through and (bool(self._asked) or self._closing)))
            if child.ended or (self._closing and not self._unsent):
                return None
            group, self._unsent = self._unsent[:GROUP], self._unsent[GROUP:]
            # (a store may answer what its last run had waiting before it is sent again)
            return [asked for asked in group if self._asked.get(asked.request.id) is asked]

    def _read(self, child: _Child, listener: threading.Thread) -> None:
        """Takes the child's lines. The last one may be cut where it was killed."""
        assert child.process.stdout is not None
        with child.process.stdout as lines:
            for line in lines:
                try:
                    if line.endswith(b"\n"):
                        self._take(child, json.loads(line))
                except (ValueError, TypeError, KeyError):
                    child.said = f"{self._words[0]} is no program of StateFlow: it writes {line!r}"
                    break
        listener.join()
        child.process.wait()
        with self._changed:
            child.ended = True
            self._changed.notify_all()

    def _take(self, child: _Child, told: Dict[str, Any]) -> None:
        reply = None if "bad" in told else Reply(**told)
        with self._changed:
            id = child.ids.get(told["line"]) if reply is None else reply.id
            if id is None:
                child.take_barrier(told["line"])
            child.has_answered = child.has_answered or reply is not None
            asked = None if id is None else self._asked.pop(id, None)
            self._changed.notify_all()
        if asked is None:
            return
        if reply is None:
            asked.promise.set_exception(Refused(told["bad"]))
        else:
            asked.promise.set_result(reply)
