#!/usr/bin/env python3
"""The bank under plain CPython, in memory: request lines from standard input, reply lines to standard output.

    python3 bench/in_memory.py PROGRAM < REQUESTS > REPLIES

Entities stand in a dict by class and key, and ids in a dict with the line that was answered and its reply. It is what one writes where each
line can be used and no request fails, as in the inputs of the yardstick: it checks no types, counts no steps and puts nothing back. Its
output is buffered.
"""

import importlib
import json
import os
import sys

MARKS = os.path.join(os.path.dirname(os.path.dirname(os.path.abspath(__file__))), "python")

encode = json.JSONEncoder(ensure_ascii=False, separators=(",", ":"), sort_keys=True).encode


def load(file):
    """The classes of a program by their names."""
    folder, name = os.path.split(os.path.abspath(file))
    sys.path[:0] = [MARKS, folder]
    module = importlib.import_module(os.path.splitext(name)[0])
    return {name: cls for name, cls in vars(module).items() if getattr(cls, "__module__", None) == module.__name__}


def entity_places(classes):
    """By class and method, which arguments are entities: their places, and the names of their classes."""
    places = {}
    for name, cls in classes.items():
        for method, code in vars(cls).items():
            types = [kind for word, kind in getattr(code, "__annotations__", {}).items() if word != "return"]
            named = [getattr(kind, "__name__", kind) for kind in types]
            places[name, method] = [(place, kind) for place, kind in enumerate(named) if kind in classes]
    return places


def with_entities(values, places, find):
    """The arguments, with entities where their keys stand."""
    for place, kind in places:
        values[place] = find(kind, values[place])
    return values


class Memory:
    """The entities, and which arguments of which methods are entities."""

    def __init__(self, classes):
        self.classes = classes
        self.places = entity_places(classes)
        self.entities = {}

    def find(self, name, key):
        return self.entities[name, key]

    def run(self, request):
        """Runs a request, and gives what its reply has as `ok`."""
        name = request["class"]
        if "new" in request:
            entity = self.classes[name](*with_entities(request["new"], self.places[name, "__init__"], self.find))
            key = entity.__key__()
            self.entities[name, key] = entity
            return key
        entity, method = self.entities[name, request["key"]], request["method"]
        return getattr(entity, method)(*with_entities(request["args"], self.places[name, method], self.find))


def again(kept, line, number):
    """The line for an id that was used: its reply where the request is the same, else a refusal."""
    kept_line, reply = kept
    if json.loads(kept_line) == json.loads(line):
        return reply
    return encode({"bad": "id reused", "line": number}) + "\n"


def serve(classes, lines):
    """The reply lines to request lines, one after another."""
    memory, kept = Memory(classes), {}
    for number, line in enumerate(lines, 1):
        if line == "\n":
            continue
        request = json.loads(line)
        name = request["id"]
        if name in kept:
            yield again(kept[name], line, number)
            continue
        reply = encode({"id": name, "ok": memory.run(request), "seq": len(kept) + 1}) + "\n"
        kept[name] = line, reply
        yield reply


def open_lines(file, mode):
    """Lines of UTF-8 that end in LF alone."""
    return open(file, mode, encoding="utf-8", newline="\n")


def main():
    classes = load(sys.argv[1])
    with open_lines(0, "r") as lines, open_lines(1, "w") as replies:
        replies.writelines(serve(classes, lines))


if __name__ == "__main__":
    main()
