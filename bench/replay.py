#!/usr/bin/env python3
"""Says whether replies are those of a serial run: python3 bench/replay.py PROGRAM REQUESTS REPLIES.

The requests, in the order in which the replies to them stand, are served by plain CPython in memory, and give the same bytes. So each id has one
reply, `seq` counts from 1, and each outcome is that of the requests before it. Beyond that the balances that are asked at the end add up
to what the accounts were opened with. Prints `ok`, or what is wrong, with status 1.
"""

import collections
import json
import sys

from in_memory import load, open_lines, serve


class Wrong(Exception):
    """What is wrong with the replies."""


def by_id(lines):
    """The request lines by their ids. Empty lines are none."""
    return {json.loads(line)["id"]: line for line in lines if line != "\n"}


def id_of(number, reply):
    """The id of a reply line."""
    try:
        return json.loads(reply)["id"]
    except (ValueError, KeyError, TypeError):
        raise Wrong(f"line {number} is no reply: {reply!r}") from None


def check_ids(requests, ids):
    """Each request has one reply, and nothing else has one."""
    counts = collections.Counter(ids)
    for name, count in counts.items():
        if name not in requests:
            raise Wrong(f"id {name} has a reply and no request")
        if count > 1:
            raise Wrong(f"id {name} has {count} replies")
    for name in requests:
        if name not in counts:
            raise Wrong(f"id {name} has no reply")


def check_outcomes(classes, ordered, replies):
    """Each reply is what the requests, served in this order, are answered."""
    for number, (wanted, reply) in enumerate(zip(serve(classes, ordered), replies), 1):
        if wanted != reply:
            raise Wrong(f"line {number} is {reply!r} where {wanted!r} is wanted")


def check_sum(ordered, replies):
    """The balances add up to what the accounts were opened with."""
    opened = told = 0
    for line, reply in zip(ordered, replies):
        request = json.loads(line)
        if "new" in request:
            opened += request["new"][1]
        elif request["method"] == "money":
            told += json.loads(reply)["ok"]
    if opened != told:
        raise Wrong(f"the balances are {told} together where {opened} was paid in")


def check(classes, requests, replies):
    """Raises what is wrong with the replies."""
    ids = [id_of(number, reply) for number, reply in enumerate(replies, 1)]
    check_ids(requests, ids)
    ordered = [requests[name] for name in ids]
    check_outcomes(classes, ordered, replies)
    check_sum(ordered, replies)


def main():
    program, requests, replies = sys.argv[1:]
    with open_lines(requests, "r") as asked, open_lines(replies, "r") as told:
        try:
            check(load(program), by_id(asked), list(told))
        except Wrong as wrong:
            print(wrong)
            return 1
    print("ok")
    return 0


if __name__ == "__main__":
    sys.exit(main())
