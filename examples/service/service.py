#!/usr/bin/env python3
"""An HTTP service of a class file, on 127.0.0.1: what admits callers and encrypts stands in front of it.

    POST /CLASS               makes an entity of the arguments in the body, a JSON array
    POST /CLASS/KEY/METHOD    calls a method, likewise
    GET  /ready               200 where requests are served, else 503; tells the child's process

The header `Idempotency-Key` is the request's id: who had no answer sends the same again, under the same key, and it runs once. What comes about has status 200, and
what doesn't that of the tables below. On SIGTERM and SIGINT what was taken is answered, and the input of the program is closed.
"""

import argparse
import json
import signal
import sys
import threading
from http.server import BaseHTTPRequestHandler, ThreadingHTTPServer
from typing import Any, Dict, List, Optional, Tuple
from urllib.parse import unquote

from stateflow.client import Client, Refused, Reply, Request, Stopped, StoreBusy, creation, method_call

ADDRESS = "127.0.0.1"
STATUS_OF_FAILURE = {"NoEntity": 404, "AlreadyExists": 409}
STATUS_OF_REFUSAL = {"unknown class": 404, "unknown method": 404, "id reused": 409, "line too long": 413}
OTHER_FAILURE, OTHER_REFUSAL, GONE = 422, 400, 503
MOST_BYTES = 1_048_576
Answer = Tuple[int, Dict[str, Any]]


class Service(ThreadingHTTPServer):
    daemon_threads = False
    request_queue_size = 128

    def __init__(self, port: int, client: Client) -> None:
        super().__init__((ADDRESS, port), Handler)
        self.client = client
        self.fault: Optional[Stopped] = None
        self.is_stopping = False

    def stop(self) -> None:
        self.is_stopping = True
        threading.Thread(target=self.shutdown).start()


class Handler(BaseHTTPRequestHandler):
    server: Service
    protocol_version = "HTTP/1.1"
    timeout = 5
    wbufsize = -1
    disable_nagle_algorithm = True

    def do_GET(self) -> None:
        client = self.server.client
        if self.path != "/ready":
            self.answer((404, {"bad": "unknown path"}))
        else:
            self.answer((200 if client.is_ready else GONE, {"pid": client.pid, "children": client.children}))

    def do_POST(self) -> None:
        length = self.headers.get("Content-Length", "")
        if not length.isdigit() or int(length) > MOST_BYTES:
            self.close_connection = True
            return self.answer((413, {"bad": f"a length up to {MOST_BYTES} is wanted"}))
        try:
            request = request_of(self.path, self.rfile.read(int(length)), self.headers.get("Idempotency-Key"))
            self.answer(answer_of(self.server.client.send(request).result()))
        except (ValueError, RecursionError) as error:
            self.answer((OTHER_REFUSAL, {"bad": str(error)}))
        except Refused as refusal:
            self.answer((STATUS_OF_REFUSAL.get(refusal.reason, OTHER_REFUSAL), {"bad": refusal.reason}))
        except Stopped as fault:
            self.server.fault = fault
            self.server.stop()
            self.answer((GONE, {"bad": str(fault)}))

    def answer(self, answer: Answer) -> None:
        status, members = answer
        body = json.dumps(members).encode() + b"\n"
        self.send_response(status)
        self.send_header("Content-Type", "application/json")
        self.send_header("Content-Length", str(len(body)))
        if self.server.is_stopping:
            self.send_header("Connection", "close")
        self.end_headers()
        self.wfile.write(body)

    def log_message(self, format: str, *args: Any) -> None:
        pass


def request_of(path: str, body: bytes, id: Optional[str]) -> Request:
    arguments = json.loads(body)
    if not isinstance(arguments, list):
        raise ValueError("the body is a JSON array of the arguments")
    words = [unquote(word) for word in path.split("/")[1:]]
    if len(words) == 1:
        return creation(words[0], arguments, id)
    if len(words) == 3:
        return method_call(words[0], words[1], words[2], arguments, id)
    raise ValueError("the path is /CLASS or /CLASS/KEY/METHOD")


def answer_of(reply: Reply) -> Answer:
    if reply.error:
        status = STATUS_OF_FAILURE.get(reply.error, OTHER_FAILURE)
        return status, {"error": reply.error, "message": reply.message, "seq": reply.seq}
    return 200, {"ok": reply.ok, "seq": reply.seq}


def serve(file: str, store: str, port: int, options: List[str]) -> None:
    """Serves until a signal comes, or the program can't go on."""
    with Client(file, store, options=options) as client:
        service = Service(port, client)
        for number in (signal.SIGTERM, signal.SIGINT):
            signal.signal(number, lambda *_: service.stop())
        print(f"ready on http://{ADDRESS}:{service.server_port}", flush=True)
        service.serve_forever(poll_interval=0.05)
        service.server_close()
    if service.fault is not None:
        raise service.fault


def main() -> int:
    form = argparse.RawDescriptionHelpFormatter
    words = argparse.ArgumentParser(description=__doc__, formatter_class=form, allow_abbrev=False, epilog="Other options are those of `run`, as --batch=1.")
    words.add_argument("file", metavar="FILE")
    words.add_argument("--store", metavar="DIR", required=True, help="a folder that is there")
    words.add_argument("--port", type=int, default=8080)
    if len(sys.argv) == 1:
        words.print_help()
        return 0
    asked, options = words.parse_known_args()
    try:
        serve(asked.file, asked.store, asked.port, options)
    except (Stopped, StoreBusy, OSError) as fault:
        print(f"service: {fault}", file=sys.stderr)
        return 1
    return 0


if __name__ == "__main__":
    sys.exit(main())
